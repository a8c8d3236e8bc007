; A spill that spreads from the middle, over ground that lets it pass by chance.

globals [spilled]

to setup
  clear-all
  ask patches [ if random 100 < porosity [ set pcolor gray ] ]
  ask patch 0 0 [ spill ]
  reset-ticks
end

to go
  let before spilled
  ask patches with [ pcolor = blue ] [ ask neighbors4 with [ pcolor = gray ] [ spill ] ]
  if spilled = before [ stop ]
  tick
end

to spill
  set pcolor blue
  set spilled spilled + 1
end
