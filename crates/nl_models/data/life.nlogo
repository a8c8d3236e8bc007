; A GAME OF LIFE
;
; What it shows: a cell is born where it has just so many living neighbors, lives on with just so many, and dies
; otherwise. From these few words come still patterns, blinking ones and some that wander. A further number at which
; cells are born gives another game, with another fate.
;
; Source: John Conway, as told by Martin Gardner, 1970, The Fantastic Combinations of John Conway's New Solitaire Game
; Life. In the NetLogo Models Library: Life (Uri Wilensky, 1998).
;
; What differs from NetLogo's own version, and why:
; - The numbers of neighbors are settings, lists, so that games of other rules stand in the same table.
; - Cells are not drawn by the mouse, since there is none.
; - A run ends by itself when no cell has changed.
;
; Settings: initial-density (in percent), born-with, lives-with (lists of numbers of living neighbors).

globals [ changed ]  ; cells that changed in the last step

patches-own [
  alive?
  living-neighbors
]

to setup
  clear-all
  ask patches [ set alive? random 100 < initial-density ]
  set changed count patches
  reset-ticks
end

to go
  if changed = 0 [ stop ]
  set changed 0
  ask patches [ set living-neighbors count neighbors with [alive?] ]
  ask patches [ live-or-die ]
  tick
end

to live-or-die  ; patch procedure
  let lives? member? living-neighbors rule
  if lives? != alive? [
    set alive? lives?
    set changed changed + 1
  ]
end

to-report rule  ; patch procedure
  ifelse alive?
    [ report lives-with ]
    [ report born-with ]
end

to-report living
  report count patches with [alive?]
end
