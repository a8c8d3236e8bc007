# Tests of from-netlogo. Sourced by tools/test.
# shellcheck shell=bash disable=SC2154

need_program

model=$tools/tests/netlogo/spread.nlogo
mkdir "$work/netlogo"
cd -- "$work/netlogo" || exit 1

# Converts the model after a change of its text by sed, which may name an experiment behind it.
convert() {
    sed -- "$1" "$model" > m.nlogo
    run "$tools/from-netlogo" m.nlogo "${@:2}"
}

# refuses NAME TOLD SED [EXPERIMENT]: a model that is broken in one place is refused there.
refuses() {
    begin "from-netlogo: $1"
    convert "$3" "${4:-stride and spread}"
    ends 2
    writes_nothing
    tells "m.nlogo:$2"
}

# carries NAME EXPERIMENT: the stored experiment and what is told of it; the program takes what is written.
carries() {
    begin "from-netlogo: $1"
    convert '' "$2"
    ends 0
    writes "$tools/tests/netlogo/$1.toml"
    tells "$(< "$tools/tests/netlogo/$1.told")"
    is_accepted
}

is_accepted() {
    cp "$work/out" e.toml
    run "$nlspace" check m.nlogo e.toml
    ends 0
}

# What is carried over

carries stride-and-spread 'stride and spread'
[[ $(< "$work/out") == 'ok 36' ]] || fail 'the program counts other runs'
carries all-told 'all told'
[[ $(< "$work/out") == 'ok 36' ]] || fail 'the program counts other runs'

begin 'from-netlogo: the varied settings come in the columns and the order of the model'
convert '' 'stride and spread'
cp "$work/out" e.toml
run "$nlspace" rerun m.nlogo e.toml 8
ends 0
[[ $(< "$work/out") == '"8","to all around","0.5","5","false",'* ]] || fail "the row is $(< "$work/out")"

begin 'from-netlogo: where metrics are measured at every step, the condition of the measures is told of'
convert '358s/runMetricsEveryStep="false"/runMetricsEveryStep="true"/' 'all told'
ends 0
mentions 'm.nlogo:373: measure-when: left out, as the metrics are measured at every step'
[[ $(< "$work/out") == *$'\nevery-step = true\n'* ]] || fail 'the metrics are measured otherwise'
is_accepted

begin 'from-netlogo: a condition of the measures with a word that is left out'
convert '373s/ticks/timer/' 'all told'
ends 0
mentions 'm.nlogo:373: measure-when: left out, as nlspace leaves out the word timer'
[[ $(< "$work/out") == *$'\nevery-step = false\n'* ]] || fail 'the metrics are measured otherwise'
is_accepted

begin 'from-netlogo: the only experiment needs no name'
convert '/name="all told"/,/<\/experiment>/d'
ends 0
writes "$tools/tests/netlogo/stride-and-spread.toml"

begin 'from-netlogo: a model without an experiment gives its widgets'
convert '/<experiments>/,/<\/experiments>/d'
ends 0
writes "$tools/tests/netlogo/widgets.toml"
mentions 'm.nlogo: metrics: the model has no experiment, so nothing is measured, and a run ends by its budget'
is_accepted

begin 'from-netlogo: the last section may be missing'
sed '$d' "$model" > m.nlogo
run "$tools/from-netlogo" m.nlogo 'stride and spread'
ends 0
writes "$tools/tests/netlogo/stride-and-spread.toml"

begin 'from-netlogo: a widget whose name has other letters is left out'
convert '/^SLIDER/,/^$/s/^wiggle$/größe/' 'stride and spread'
ends 0
tells 'm.nlogo:101: globals.größe: left out: a name has ASCII letters, digits and marks
m.nlogo:116: globals.boldness: 0.1234567 is rounded to 0.123457'

begin 'from-netlogo: an exit condition that is blank is none'
convert 's/<exitCondition>.*</<exitCondition> </' 'stride and spread'
ends 0
grep --invert-match '^until' "$tools/tests/netlogo/stride-and-spread.toml" > without-until.toml
writes without-until.toml
is_accepted

begin 'from-netlogo: a widget without a variable holds nothing'
convert '/^SLIDER/,/^$/s/^boldness$/NIL/' 'stride and spread'
ends 0
tells ''

begin 'from-netlogo: a value out of range is left out'
convert 's/^45\.5$/1.0E13/' 'stride and spread'
ends 0
mentions 'm.nlogo:101: globals.wiggle: 1.0E+13 is out of the range of numbers, and is left out'

begin 'from-netlogo: a half of a millionth goes upwards, below 0 too'
convert 's/value="5"/value="[-0.0000005 0.0000005 -0.0000015]"/' 'stride and spread'
ends 0
grep --quiet --fixed-strings --line-regexp 'values = ["[0 0.000001 -0.000001]"]' "$work/out" || fail 'the values are others'
mentions 'vary 3.values: -0.0000015 is rounded to -0.000001'

begin 'from-netlogo: what NetLogo escapes in a text is carried over'
convert 's/value="5"/value="\&quot;a\\tb\\\\c\\\&quot;d\\n\&quot;"/' 'stride and spread'
ends 0
grep --quiet --fixed-strings --line-regexp 'values = ["\"a\\tb\\\\c\\\"d\\n\""]' "$work/out" || fail 'the values are others'
is_accepted

begin 'from-netlogo: every word that is left out is one that the language leaves out'
cut -d '|' -f 2 "$tools/../docs/WORDS.md" | grep -o '`[^`]*`' | tr -d '`' | sort -u > words
sed -n '/^LEFT_OUT_WORDS/,/^)/p' "$tools/from-netlogo" | grep -v '"""\|[()]' | tr -s ' ' '\n' | sort -u > left-out
(($(wc -l < left-out) > 100)) || fail 'they were not found'
[[ -z $(comm -12 words left-out) ]] || fail "the language has $(comm -12 words left-out)"

# The words, and files that can't be read or written

begin 'from-netlogo: no words'
run "$tools/from-netlogo"
ends 1
writes_nothing
tells 'from-netlogo: the words are MODEL.nlogo and, where it has several, an EXPERIMENT'

begin 'from-netlogo: too many words'
run "$tools/from-netlogo" "$model" 'all told' further
ends 1
writes_nothing

begin 'from-netlogo: a missing file'
run "$tools/from-netlogo" missing.nlogo
ends 4
writes_nothing
tells 'cannot read missing.nlogo'

begin 'from-netlogo: output that is full'
status=0
"$tools/from-netlogo" "$model" 'stride and spread' > /dev/full 2> "$work/err" || status=$?
ends 5
mentions 'cannot write'

begin 'from-netlogo: several experiments and no name'
convert ''
ends 3
writes_nothing
tells 'm.nlogo: name one of its experiments: "stride and spread", "all told"'

begin 'from-netlogo: an experiment that the model lacks'
convert '' further
ends 3
writes_nothing
tells 'm.nlogo: it has no experiment "further", but "stride and spread", "all told"'

begin 'from-netlogo: an experiment by name, of a model without any'
convert '/<experiments>/,/<\/experiments>/d' further
ends 3
tells 'm.nlogo: it has no experiment "further", but none'

# Files that are broken: sections

refuses 'a line that is not UTF-8' "47: the line isn't UTF-8" '47s/.*/; \xff/'
refuses 'line ends of Windows' "52: the lines end with carriage returns, so nlspace can't read the model" 's/$/\r/'
refuses 'a file that is cut short' '357: a model file of NetLogo 6 has 12 sections, and this one has 8' '357q'
refuses 'a file with a further section' '418: a model file of NetLogo 6 has 12 sections, and this one has 13' '$a\@#$#@#$#@'
refuses 'an empty file' '1: a model file of NetLogo 6 has 12 sections, and this one has 1' 'd'
refuses 'a file of NetLogo 5' "332: the file isn't of NetLogo 6, but of \"NetLogo 5.3.1\"" '332s/.*/NetLogo 5.3.1/'
refuses 'a file of NetLogo 3D' "332: the file isn't of NetLogo 6, but of \"NetLogo 3D 6.4.0\"" '332s/.*/NetLogo 3D 6.4.0/'
refuses 'a file that says no version' "416: the file isn't of NetLogo 6, but of \"\"" 332d

# Files that are broken: the world and the widgets

refuses 'an unknown widget' '303: NetLogo 6 has no widget DIAL' '303s/.*/DIAL/'
refuses 'a widget that lacks a line' '80: a SLIDER has 14 lines, and this one has 13' 92d
refuses 'a widget with a further line' '125: a SWITCH has 10 lines, and this one has 11' '134p'
refuses 'two worlds' '80: a model file has one GRAPHICS-WINDOW' '53,78H;79{G;s/\n\n/\n/;s/$/\n/}'
refuses 'no world' '1: a model file has one GRAPHICS-WINDOW' 53,78d
refuses 'a bound that is not whole' '70: -5.5 is no whole number' '70s/.*/-5.5/'
refuses 'wrapping that is no switch' '67: 2 is neither 1 nor 0' '67s/.*/2/'
refuses 'a world without its origin' "70: 0 isn't on both axes of the world" '70s/.*/1/'
refuses 'a side that is too long' '70: a world of 1002 by 21 patches is too large: a side has at most 1001, the world 262144' '71s/.*/996/'
refuses 'too many patches' '70: a world of 513 by 512 patches is too large: a side has at most 1001, the world 262144' \
    '70s/.*/0/;71s/.*/512/;72s/.*/0/;73s/.*/511/'
refuses 'a slider that holds no number' '89: five is no number' '89s/.*/five/'
refuses 'a number with a huge exponent' '89: 1e1000 is no number' '89s/.*/1e1000/'
refuses 'a switch that is neither on nor off' '132: true is neither 0 nor 1' '132s/.*/true/'
refuses 'a chooser without that choice' '155: the chooser has 3 choices, and none of them is number 3' '155s/.*/3/'
refuses 'a choice below the first' '155: the chooser has 3 choices, and none of them is number -1' '155s/.*/-1/'
refuses 'a choice that is no literal' '154: somewhere is no literal' '154s/.*/somewhere/'
refuses 'a choice whose text is open' '154: "nowhere is no literal' '154s/.*/"nowhere/'
refuses 'a choice with an unknown escape' '154: \q is no escape' '154s/.*/"a\\q"/'
refuses 'a list that is not closed' "164: a list isn't closed" '164s/.*/[1 [2]/'
refuses 'a list that was not opened' "164: a list is closed that wasn't opened" '164s/.*/1 ] 2/'
refuses 'a list that is too deep' '164: a list has more than 200 levels' "164s/.*/$(printf '[%.0s' {1..201})/"
refuses 'an input that holds no number' '173: NIL is no number' '173s/.*/NIL/'
refuses 'an input of an unknown kind' '187: an input holds no Text' '187s/.*/Text/'
refuses 'an input with an unknown escape' '184: \x is no escape' '184s/.*/\\x/'
refuses 'an input that ends with a backslash' '184: \ is no escape' '184s/$/\\/'
refuses 'two widgets of one variable' '101: two widgets set WIGGLE' '101s/.*/WIGGLE/;86s/.*/wiggle/'

# Files that are broken: experiments

refuses 'experiments that are no XML' "356: the experiments aren't XML: mismatched tag" '356d'
refuses 'experiments that end early' "401: the experiments aren't XML: no element found" 402d
refuses 'XML of another kind' '337: <trials> stands in the place of <experiments>' '337s/experiments/trials/;402s/experiments/trials/'
refuses 'another part than experiments' '338: <experiments> has no part <trial>' '338s/experiment/trial/;357s/experiment/trial/'
refuses 'an experiment without a name' '358: <experiment> has no name' '358s/ name="all told"//'
refuses 'two experiments of one name' '358: two experiments have the name "stride and spread"' '358s/all told/stride and spread/'
refuses 'an unknown part' '341: an experiment has no part <limit>' '341s/timeLimit/limit/'
refuses 'two setups' '340: an experiment has two parts <setup>' '340s/go>/setup>/g'
refuses 'no repetitions' '338: <experiment> has no repetitions' '338s/ repetitions="3"//'
refuses 'repetitions that are no count' '338: repetitions is "0", and no whole number from 1 to 100000' '338s/"3"/"0"/'
refuses 'measuring that is neither way' '338: yes is neither true nor false' '338s/runMetricsEveryStep="false"/runMetricsEveryStep="yes"/'
refuses 'an order that is neither way' '338: no is neither true nor false' '338s/sequentialRunOrder="false"/sequentialRunOrder="no"/'
refuses 'a limit that is no count' '341: steps is "1.5", and no whole number from 0 to 9223372036854775807' '341s/20/1.5/'
refuses 'a limit without steps' '341: <timeLimit> has no steps' '341s/ steps="20"//'
refuses 'values of no variable' '345: <enumeratedValueSet> has no variable' '345s/ variable="spread"//'
refuses 'a variable that is varied twice' '349: SPREAD is varied twice' '349s/stride/SPREAD/'
refuses 'a variable without values' '350: <enumeratedValueSet> has no value' 351d
refuses 'another part than values' '351: <enumeratedValueSet> has no part <number>' '351s/<value/<number/'
refuses 'a value that says nothing' '351: <value> has no value' '351s/ value="5"//'
refuses 'two values in one' '351: "5 6" is'"n't one literal" '351s/"5"/"5 6"/'
refuses 'an empty value' '351: "" is'"n't one literal" '351s/"5"/""/'
refuses 'a value that is no literal' '351: five is no literal' '351s/"5"/"five"/'
refuses 'steps without a first value' '349: <steppedValueSet> has no first' '349s/ first="0.5"//'
refuses 'a last value that is no number' '349: one is no number' '349s/last="1"/last="one"/'
refuses 'steps of nothing' '349: stride goes from 0.5 by 0 to 1, which are no values' '349s/0.25/0/'
refuses 'steps the wrong way' '349: stride goes from 0.5 by -0.25 to 1, which are no values' '349s/0.25/-0.25/'
refuses 'too many values' '349: stride has 500001 values, and an experiment has at most 100000 runs' '349s/0.25/0.000001/'
refuses 'too many runs' '338: the experiment has 100008 runs, and at most 100000 can be had' '338s/"3"/"8334"/'
