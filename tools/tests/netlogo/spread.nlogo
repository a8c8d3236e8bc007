globals [
  reached  ; how many patches the rumor has reached
]

breed [tellers teller]

to setup
  clear-all
  create-tellers tellers-at-start [
    setxy random-xcor random-ycor
    set color item 0 colors
    set size 1 + boldness
  ]
  ask tellers [ tell ]
  reset-ticks
end

to go
  if reached = count patches [ stop ]
  ask tellers [
    rt random-float wiggle - wiggle / 2
    fd stride
    tell
    if spread = "to neighbors" [ ask neighbors4 [ hear ] ]
    if spread = "to all around" [ ask neighbors [ hear ] ]
  ]
  if forgetting? [ ask n-of 1 patches [ forget ] ]
  tick
end

to tell
  ask patch-here [ hear ]
end

to hear
  if pcolor != red [
    set pcolor red
    set reached reached + 1
  ]
end

to forget
  if pcolor = red [
    set pcolor black
    set reached reached - 1
  ]
end

to-report share
  report reached / count patches
end
@#$#@#$#@
GRAPHICS-WINDOW
210
10
466
267
-1
-1
8.0
1
10
1
1
1
0
1
0
1
-5
15
-10
10
1
1
1
ticks
30.0

SLIDER
10
10
200
43
tellers-at-start
tellers-at-start
1
100
5.0
1
1
tellers
HORIZONTAL

SLIDER
10
50
200
83
wiggle
wiggle
0
max-pxcor * 10
45.5
0.5
1
NIL
HORIZONTAL

SLIDER
10
90
200
123
boldness
boldness
0
1
0.1234567
1.0E-7
1
NIL
VERTICAL

SWITCH
10
130
200
163
forgetting?
forgetting?
0
1
-1000

SWITCH
10
170
200
203
quiet?
quiet?
1
1
-1000

CHOOSER
10
210
200
255
spread
spread
"nowhere" "to neighbors" "to all around"
1

CHOOSER
10
260
200
305
colors
colors
[15 25] [105 "blue" [1.5 true]] 3 false
1

INPUTBOX
10
310
200
370
stride
0.75
1
0
Number

INPUTBOX
10
375
200
435
note
say \"hi\"\\nand go on	\\ now
1
0
String

INPUTBOX
10
440
200
500
unsaid
NIL
1
0
String

INPUTBOX
10
505
200
565
rule
count turtles > 3
1
0
String (reporter)

INPUTBOX
10
570
200
630
plan
show 1\nshow 2
1
0
String (commands)

INPUTBOX
10
635
200
695
shade
105.0
0
0
Color

BUTTON
210
280
276
313
setup
setup
NIL
1
T
OBSERVER
NIL
NIL
NIL
NIL
1

BUTTON
285
280
348
313
NIL
go
T
1
T
OBSERVER
NIL
NIL
NIL
NIL
0

MONITOR
360
280
430
325
NIL
share
3
1
11

PLOT
480
10
680
160
Reached
time
patches
0.0
10.0
0.0
10.0
true
false
"" ""
PENS
"default" 1.0 0 -16777216 true "" "plot reached"

OUTPUT
480
170
680
260
11

TEXTBOX
480
270
630
300
A rumor and its tellers.\nPress setup, then go.
11
0.0
1

@#$#@#$#@
## WHAT IS IT?

A rumor that walks.

## HOW IT WORKS

Tellers walk about and tell the patches.
@#$#@#$#@
default
true
0
Polygon -7500403 true true 150 5 40 250 150 205 260 250

circle
false
0
Circle -7500403 true true 0 0 300
@#$#@#$#@
NetLogo 6.4.0
@#$#@#$#@
setup repeat 10 [ go ]
@#$#@#$#@
@#$#@#$#@
<experiments>
  <experiment name="stride and spread" repetitions="3" sequentialRunOrder="false" runMetricsEveryStep="false">
    <setup>setup</setup>
    <go>go</go>
    <timeLimit steps="20"/>
    <exitCondition>share &gt; 0.5</exitCondition>
    <metric>reached</metric>
    <metric>share</metric>
    <enumeratedValueSet variable="spread">
      <value value="&quot;nowhere&quot;"/>
      <value value="&quot;to all around&quot;"/>
    </enumeratedValueSet>
    <steppedValueSet variable="stride" first="0.5" step="0.25" last="1"/>
    <enumeratedValueSet variable="tellers-at-start">
      <value value="5"/>
    </enumeratedValueSet>
    <enumeratedValueSet variable="forgetting?">
      <value value="true"/>
      <value value="false"/>
    </enumeratedValueSet>
  </experiment>
  <experiment name="all told" repetitions="1" runMetricsEveryStep="false">
    <preExperiment>show "begin"</preExperiment>
    <setup>random-seed new-seed
setup</setup>
    <go>go</go>
    <postRun>export-world "w.csv"</postRun>
    <postExperiment></postExperiment>
    <timeLimit steps="2"/>
    <exitCondition>timer &gt; 60</exitCondition>
    <metrics>
      <metric>ln reached</metric>
      <metric>count turtles with [ color = red ] ; "red" only, no ln</metric>
      <metric>word "ln " reached</metric>
      <metric>map [ t -&gt; t ] [ 1 2 ]</metric>
    </metrics>
    <runMetricsCondition>ticks mod 2 = 0</runMetricsCondition>
    <constants>
      <enumeratedValueSet variable="colors">
        <value value="[15 0.00000049 [1.0E-6]]"/>
        <value value="[1.0E13]"/>
        <value value="red"/>
      </enumeratedValueSet>
      <steppedValueSet variable="wiggle" first="0" step="0.3333334" last="1"/>
      <steppedValueSet variable="stride" first="3" step="-1.5" last="0"/>
      <steppedValueSet variable="random-seed" first="-1" step="1" last="1"/>
      <enumeratedValueSet variable="Max-Pxcor">
        <value value="15"/>
        <value value="15.5"/>
      </enumeratedValueSet>
      <enumeratedValueSet variable="world-width">
        <value value="10"/>
      </enumeratedValueSet>
      <enumeratedValueSet variable="boldness">
        <value value="1.0E20"/>
      </enumeratedValueSet>
    </constants>
    <subExperiments>
      <subExperiment>
        <enumeratedValueSet variable="quiet?">
          <value value="true"/>
        </enumeratedValueSet>
      </subExperiment>
    </subExperiments>
  </experiment>
</experiments>
@#$#@#$#@
@#$#@#$#@
default
0.0
-0.2 0 0.0 1.0
0.0 1 1.0 0.0
0.2 0 0.0 1.0
link direction
true
0
Line -7500403 true 150 150 90 180
Line -7500403 true 150 150 210 180
@#$#@#$#@
1
@#$#@#$#@
