; FIRE
;
; What it shows: a fire is lit along the left edge of a forest and passes from tree to tree. In a thin forest it
; dies soon, in a dense one it crosses; between the two there is a narrow range of densities where it changes.
; Where the fire also passes corner to corner, that range lies at thinner forests.
;
; Source: percolation, Simon Broadbent and John Hammersley, 1957. In the NetLogo Models Library: Fire (Uri
; Wilensky, 1997).
;
; What differs from NetLogo's own version, and why:
; - A flame burns for one step and is gone. NetLogo's embers glow on for the eye, and there is no window here.
; - Whether the fire may pass corner to corner is a setting, so that two rules can be compared in one table.
; - The forest is drawn in whole percents. NetLogo draws with fractions.
;
; Settings: density (part of the places with a tree, in percent), corners? (true where all eight neighbors catch
; fire, false where only four do).

globals [ trees-at-start ]
patches-own [ state ]  ; "bare", "tree" or "burnt"
breed [flames flame]

to setup
  clear-all
  ask patches [ grow-forest ]
  set trees-at-start count patches with [state = "tree"]
  ask patches with [pxcor = min-pxcor and state = "tree"] [ catch-fire ]
  reset-ticks
end

to grow-forest  ; patch procedure
  ifelse random 100 < density
    [ set state "tree" ]
    [ set state "bare" ]
end

to go
  if not any? flames [ stop ]
  ask flames [
    ask places-around with [state = "tree"] [ catch-fire ]
    die
  ]
  tick
end

to catch-fire  ; patch procedure
  set state "burnt"
  sprout-flames 1
end

to-report places-around  ; flame procedure
  ifelse corners?
    [ report neighbors ]
    [ report neighbors4 ]
end

to-report percent-burnt
  if trees-at-start = 0 [ report 0 ]
  report precision (100 * count patches with [state = "burnt"] / trees-at-start) 1
end

to-report crossed?
  report any? patches with [pxcor = max-pxcor and state = "burnt"]
end
