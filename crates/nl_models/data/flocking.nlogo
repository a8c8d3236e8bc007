; FLOCKING
;
; What it shows: each bird follows three rules. It turns away from a bird that is too close; otherwise it turns
; the way its neighbors fly, and toward their middle. No bird leads, and yet flocks that fly one way come about.
; Without the second rule they go on flying all ways, and hardly gather.
;
; Source: Craig Reynolds, 1987, Flocks, Herds, and Schools. In the NetLogo Models Library: Flocking (Uri
; Wilensky, 1998).
;
; What differs from NetLogo's own version, and why:
; - A bird flies one step of 1 at a time. NetLogo moves it in five small ones, to be drawn smoothly.
; - Headings that are worked out are whole degrees, since atan answers whole degrees.
; - How far the birds fly one way is measured, which NetLogo's version leaves to the eye.
;
; Settings: birds, vision (how far a bird sees), too-close, separate-turn, align-turn, cohere-turn (the most that a
; rule may turn a bird in one step, in degrees).

turtles-own [ flockmates ]

to setup
  clear-all
  create-turtles birds [ setxy random-xcor random-ycor ]
  reset-ticks
end

to go
  ask turtles [ set flockmates other turtles in-radius vision ]
  ask turtles with [any? flockmates] [ follow-the-rules ]
  ask turtles [ fd 1 ]
  tick
end

to follow-the-rules
  let nearest min-one-of flockmates [distance myself]
  ifelse distance nearest < too-close
    [ turn-away-from nearest ]
    [ turn-toward flock-heading align-turn
      turn-toward middle-heading cohere-turn ]
end

to turn-away-from [bird]
  turn-at-most (subtract-headings heading [heading] of bird) separate-turn
end

to turn-toward [new-heading limit]
  turn-at-most (subtract-headings new-heading heading) limit
end

to turn-at-most [angle limit]
  rt max (list (- limit) (min (list limit angle)))
end

to-report flock-heading
  report heading-along (sum [dx] of flockmates) (sum [dy] of flockmates)
end

to-report middle-heading
  let apart flockmates with [distance myself > 0]
  report heading-along
    (sum [sin (towards myself + 180)] of apart)
    (sum [cos (towards myself + 180)] of apart)
end

to-report heading-along [x y]
  if x = 0 and y = 0 [ report heading ]
  report atan x y
end

; From 0, where birds fly all ways, to 1, where all fly one way.
to-report alignment
  let x mean [dx] of turtles
  let y mean [dy] of turtles
  report precision (sqrt (x * x + y * y)) 3
end

to-report mean-flockmates
  report precision (mean [count flockmates] of turtles) 2
end
