; SEGREGATION
;
; What it shows: households of two colors live on a grid. Each is content as soon as a modest part of its
; neighbors has its own color, and moves otherwise. Nobody asks for a separate quarter, and yet quarters of one
; color come about. The more alike the wanted neighbors, the more so, until many can't be content at all.
;
; Source: Thomas Schelling, 1971, Dynamic Models of Segregation. In the NetLogo Models Library: Segregation
; (Uri Wilensky, 1997).
;
; What differs from NetLogo's own version, and why:
; - A household looks for a free place by a loop. A procedure that calls itself until a place is free would
;   nest as deep as the search is long, and nesting has a limit.
; - It walks by whole steps and turns by whole degrees, since sines are those of whole degrees.
; - There is no choice of how households look, for there is no window.
;
; Settings: density (part of the places that are taken, in percent), %-similar-wanted.

turtles-own [
  similar-nearby  ; neighbors of the own color
  total-nearby    ; all neighbors
  happy?
]

to setup
  clear-all
  ask patches with [random 100 < density] [
    sprout 1 [ set color one-of [red green] ]
  ]
  look-around
  reset-ticks
end

to go
  if all? turtles [happy?] [ stop ]
  ask turtles with [not happy?] [ find-new-place ]
  look-around
  tick
end

to find-new-place
  wander 1 + random 5
  while [any? other turtles-here] [ wander 1 ]
  move-to patch-here
end

to wander [steps-ahead]
  rt random 360
  fd steps-ahead
end

to look-around
  ask turtles [
    let nearby turtles-on neighbors
    set total-nearby count nearby
    set similar-nearby count nearby with [color = [color] of myself]
    set happy? similar-nearby * 100 >= %-similar-wanted * total-nearby
  ]
end

to-report percent-similar
  let all-pairs sum [total-nearby] of turtles
  if all-pairs = 0 [ report 0 ]
  report precision (100 * sum [similar-nearby] of turtles / all-pairs) 1
end

to-report percent-unhappy
  report precision (100 * count turtles with [not happy?] / count turtles) 1
end
