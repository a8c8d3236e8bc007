to setup
  cro 3
end

to go
  ask turtles [ fd 1 ]
end
