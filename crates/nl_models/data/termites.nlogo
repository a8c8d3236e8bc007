; TERMITES
;
; What it shows: termites walk about at random. One that meets a chip of wood picks it up; one that carries a chip
; and meets another puts its own down beside it. Nobody plans a pile, and yet the chips are gathered into few piles.
; More termites gather faster where chips are many; where chips are few they carry a good part of them about.
;
; Source: Mitchel Resnick, 1994, Turtles, Termites, and Traffic Jams. In the NetLogo Models Library: Termites (Uri
; Wilensky, 1997).
;
; What differs from NetLogo's own version, and why:
; - A termite does one thing in a step: it walks, and then picks up or puts down. NetLogo's termite searches, by a
;   procedure that calls itself, until it has found a place; nesting has a limit here, and a step should have an end.
; - A termite that has put its chip down jumps away once, wherever it lands.
; - How far the chips are gathered is measured, at the start and at the end.
;
; Settings: density (part of the places with a chip, in percent), population (of termites).

globals [ gathered-at-start ]
turtles-own [ carrying? ]
patches-own [ chip? ]

to setup
  clear-all
  ask patches [ set chip? random 100 < density ]
  create-turtles population [
    setxy random-xcor random-ycor
    set carrying? false
  ]
  set gathered-at-start gathered
  reset-ticks
end

to go
  ask turtles [
    wiggle
    if chip? [ meet-chip ]
  ]
  tick
end

to wiggle
  rt random 50
  lt random 50
  fd 1
end

to meet-chip  ; turtle procedure
  ifelse carrying?
    [ put-chip-down ]
    [ pick-chip-up ]
end

to pick-chip-up  ; turtle procedure
  set chip? false
  set carrying? true
  fd 5
end

to put-chip-down  ; turtle procedure
  let free-place one-of neighbors with [not chip?]
  if free-place != nobody [
    ask free-place [ set chip? true ]
    set carrying? false
    get-away
  ]
end

to get-away
  rt random 360
  jump 8
end

; How many of the eight places around a chip have a chip too, on average.
to-report gathered
  let chips patches with [chip?]
  if not any? chips [ report 0 ]
  report precision (mean [count neighbors with [chip?]] of chips) 2
end
