; ANTS
;
; What it shows: ants look for food at random. One that has found some carries it to the nest and leaves a scent on
; its way. The scent spreads and fades; other ants follow it and make it stronger. So trails come about that no ant
; knows of. Scent that fades at once marks no trail; scent that spreads far and hardly fades lies everywhere, and marks
; none either.
;
; Source: Jean-Louis Deneubourg and others, 1990, The Self-Organizing Exploratory Pattern of the Argentine Ant, and
; Mitchel Resnick, 1994, Turtles, Termites, and Traffic Jams. In the NetLogo Models Library: Ants (Uri Wilensky, 1997).
;
; What differs from NetLogo's own version, and why:
; - All ants leave the nest at once. NetLogo sends them out one by one.
; - An ant knows the way to the nest by its place, and not by a second scent: the experiment is about the first.
; - Scent is counted in whole millionths. What spreads is rounded down and the rest stays where it was, so nothing
;   is lost by it; what fades is rounded to the nearest millionth.
;
; Settings: population, diffusion-rate, evaporation-rate (both in percent of a step).

globals [ food-brought ]

patches-own [
  scent
  food
]

turtles-own [ carrying? ]

to setup
  clear-all
  ask patches [ set-out-food ]
  create-turtles population [ set carrying? false ]
  reset-ticks
end

to set-out-food  ; patch procedure: three piles, at three distances from the nest
  if distancexy 6 0 < 2 or distancexy -4 -6 < 2 or distancexy -7 7 < 2 [ set food 2 ]
end

to go
  ask turtles [
    ifelse carrying?
      [ bring-food-home ]
      [ look-for-food ]
    wiggle
    go-ahead
  ]
  diffuse scent (diffusion-rate / 100)
  ask patches with [scent > 0] [ set scent scent * (100 - evaporation-rate) / 100 ]
  tick
end

to bring-food-home  ; turtle procedure
  ifelse distancexy 0 0 < 2
    [ set carrying? false
      set food-brought food-brought + 1
      rt 180 ]
    [ set scent scent + 60
      facexy 0 0 ]
end

to look-for-food  ; turtle procedure
  ifelse food > 0
    [ set food food - 1
      set carrying? true ]
    [ if scent > 0.05 [ turn-to-scent ] ]
end

to turn-to-scent  ; turtle procedure
  let ahead scent-toward 0
  let on-right scent-toward 45
  let on-left scent-toward -45
  if on-right > ahead or on-left > ahead [
    ifelse on-right > on-left [ rt 45 ] [ lt 45 ]
  ]
end

to-report scent-toward [angle]
  let place patch-right-and-ahead angle 1
  if place = nobody [ report 0 ]
  report [scent] of place
end

to wiggle
  rt random 40
  lt random 40
end

to go-ahead
  if not can-move? 1 [ rt 180 ]
  fd 1
end

to-report food-left
  report sum [food] of patches
end
