; Runs that end in each of the ways there are, and texts that a cell has to quote.

globals [note]

to setup
  clear-all
  crt load
  set note (word "a \"quoted\" note,\nof " load)
end

to go
  if load = 1 [ stop ]
  if load = 2 [ loop [ ] ]
  if load = 3 [ set note 1 / 0 ]
  crt load
end
