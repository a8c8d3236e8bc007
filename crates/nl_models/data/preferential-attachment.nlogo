; PREFERENTIAL ATTACHMENT
;
; What it shows: a network grows by one node in each step. Where a new node prefers those with many links, a few
; nodes get very many and most have few. Where it draws its partners evenly, the greatest number of links stays small.
;
; Source: Albert-Laszlo Barabasi and Reka Albert, 1999, Emergence of Scaling in Random Networks. In the NetLogo
; Models Library: Preferential Attachment (Uri Wilensky, 2005).
;
; What differs from NetLogo's own version, and why:
; - The nodes aren't laid out for the eye: layout words belong to the window.
; - How partners are chosen is a setting, a text, so that one table compares the rule with its contrary.
; - A new node may have several links. NetLogo's has one, so that its network is a tree.
;
; Settings: attachment ("preferential" or "even"), links-per-node.

to setup
  clear-all
  create-turtles links-per-node + 1 [ create-links-with other turtles ]
  reset-ticks
end

to go
  create-turtles 1 [
    repeat links-per-node [ link-to-partner ]
  ]
  tick
end

to link-to-partner  ; turtle procedure
  let partner chosen-partner
  while [partner = self or link-neighbor? partner] [ set partner chosen-partner ]
  create-link-with partner
end

; Each end of a link is as likely as the others, so a node is drawn by how many links it has.
to-report chosen-partner
  ifelse attachment = "preferential"
    [ report [one-of both-ends] of one-of links ]
    [ report one-of turtles ]
end

to-report degrees
  report [count my-links] of turtles
end
