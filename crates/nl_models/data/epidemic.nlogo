; AN EPIDEMIC ON A NETWORK
;
; What it shows: people are linked to others who live close by. An infection passes along the links; those who
; recover can't catch it again. Below a certain chance of passing it on, few ever catch it; above, most do. More
; links per person bring that chance down.
;
; Source: William Kermack and Anderson McKendrick, 1927, for the three states; here on a network of single people.
; In the NetLogo Models Library: Virus on a Network (Forrest Stonedahl and Uri Wilensky, 2008).
;
; What differs from NetLogo's own version, and why:
; - Nobody moves the dots apart for the eye: layout words belong to the window.
; - Links are a breed of their own, contacts, so that the model can be given further kinds of links.
; - Who recovers stays immune. NetLogo's computers may lose their immunity, by a setting, and look for the virus
;   only now and then.
;
; Settings: people, contacts-each (on average, below people), infection-chance (along one link in one step, in
; percent), recovery-chance (in one step, in percent), first-cases.

breed [persons person]
undirected-link-breed [contacts contact]

persons-own [ state ]  ; "healthy", "ill" or "immune"
globals [ most-ill ]   ; the greatest number who were ill at once

to setup
  clear-all
  create-persons people [
    setxy random-xcor random-ycor
    set state "healthy"
  ]
  make-contacts
  ask n-of first-cases persons [ set state "ill" ]
  set most-ill first-cases
  reset-ticks
end

to make-contacts
  while [count contacts * 2 < contacts-each * people] [
    ask one-of persons [ meet-nearest-stranger ]
  ]
end

to meet-nearest-stranger  ; person procedure
  let strangers other persons with [not contact-neighbor? myself]
  let nearest min-one-of strangers [distance myself]
  if nearest != nobody [ create-contact-with nearest ]
end

to go
  if not any? persons with [state = "ill"] [ stop ]
  let ill persons with [state = "ill"]
  ask ill [ infect-contacts ]
  ask ill [ try-to-recover ]
  set most-ill max (list most-ill count persons with [state = "ill"])
  tick
end

to infect-contacts  ; person procedure
  ask contact-neighbors with [state = "healthy"] [
    if random 100 < infection-chance [ set state "ill" ]
  ]
end

to try-to-recover  ; person procedure
  if random 100 < recovery-chance [ set state "immune" ]
end
