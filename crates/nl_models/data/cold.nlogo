turtles-own [ ill? ]

to setup
  clear-all
  create-turtles people [ setxy random-xcor random-ycor ]
  ask turtles [ set ill? false ]
  ask one-of turtles [ set ill? true ]
  reset-ticks
end

to go
  if all? turtles [ill?] [ stop ]
  ask turtles [ rt random 90 lt random 90 fd 1 ]
  ask turtles with [ill?] [ ask turtles-here [ set ill? true ] ]
  tick
end
