; A RUMOR ON A GRID
;
; What it shows: in each step all who know the rumor tell it to one neighbor, drawn at random. It spreads slowly at
; first, then fast, and slowly again, when most neighbors know it already. One row of the table for each step gives
; that curve.
;
; Source: in the NetLogo Models Library: Rumor Mill (Uri Wilensky, 1997). The idea that those who know a thing tell
; others step by step is older: Daryl Daley and David Kendall, 1964, Epidemics and Rumours.
;
; What differs from NetLogo's own version, and why:
; - The run ends by the experiment's condition and not by a test in the model, so that the model may go on.
; - The first who know are drawn, and nobody is added by the mouse, since there is none.
; - Only whether and when a place heard is kept, and not how often.
;
; Settings: eight-neighbors? (else four), first-tellers.

patches-own [
  knows?
  heard-at  ; the step
]

to setup
  clear-all
  reset-ticks
  ask patches [ set knows? false ]
  ask n-of first-tellers patches [ hear ]
end

to go
  ask patches with [knows?] [ tell-one ]
  tick
end

to tell-one  ; patch procedure
  ask one-of listeners [
    if not knows? [ hear ]
  ]
end

to hear  ; patch procedure
  set knows? true
  set heard-at ticks
end

to-report listeners  ; patch procedure
  ifelse eight-neighbors?
    [ report neighbors ]
    [ report neighbors4 ]
end

to-report percent-knowing
  report precision (100 * count patches with [knows?] / count patches) 1
end
