; WOLVES AND SHEEP
;
; What it shows: sheep eat grass, wolves eat sheep, and both bear young as they are well fed. Without wolves the
; sheep grow in number until the grass holds them. With wolves the numbers swing; in a small world one swing too
; wide is the end of the wolves, or of both.
;
; Source: the equations of Alfred Lotka, 1925, and Vito Volterra, 1926, here with single animals. In the NetLogo
; Models Library: Wolf Sheep Predation (Uri Wilensky, 1997).
;
; What differs from NetLogo's own version, and why:
; - Grass always counts. Where sheep can't starve, a model without wolves has no end but the limit on turtles.
; - There is no message when the sheep take over, since there are no dialogs, and the run goes on.
; - Animals turn by whole degrees, since sines are those of whole degrees.
; - The world is small, so that chance weighs more than in NetLogo's world of 51 by 51 patches.
;
; Settings: initial-sheep, initial-wolves, sheep-gain, wolf-gain (energy from one meal), sheep-birth, wolf-birth
; (chance of a birth in a step, in percent), regrowth-time (steps until eaten grass is back).

breed [sheep a-sheep]
breed [wolves wolf]

turtles-own [ energy ]
patches-own [ steps-to-grass ]  ; 0 where grass stands

to setup
  clear-all
  ask patches [ start-grass ]
  create-sheep initial-sheep [ start-animal sheep-gain ]
  create-wolves initial-wolves [ start-animal wolf-gain ]
  reset-ticks
end

to start-grass  ; patch procedure
  if random 2 = 0 [ set steps-to-grass random regrowth-time ]
end

to start-animal [gain]
  setxy random-xcor random-ycor
  set energy random (2 * gain)
end

to go
  if not any? turtles [ stop ]
  ask sheep [
    walk
    graze
    starve
    bear-young sheep-birth
  ]
  ask wolves [
    walk
    hunt
    starve
    bear-young wolf-birth
  ]
  ask patches with [steps-to-grass > 0] [ set steps-to-grass steps-to-grass - 1 ]
  tick
end

to walk
  rt random 50
  lt random 50
  fd 1
  set energy energy - 1
end

to graze  ; sheep procedure
  if steps-to-grass = 0 [
    set energy energy + sheep-gain
    set steps-to-grass regrowth-time
  ]
end

to hunt  ; wolf procedure
  let prey one-of sheep-here
  if prey != nobody [
    ask prey [ die ]
    set energy energy + wolf-gain
  ]
end

to starve
  if energy < 0 [ die ]
end

to bear-young [chance]
  if random 100 < chance [
    set energy energy / 2
    hatch 1 [
      rt random 360
      fd 1
    ]
  ]
end

to-report percent-grass
  report precision (100 * count patches with [steps-to-grass = 0] / count patches) 1
end
