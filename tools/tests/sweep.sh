# Tests of sweep, and of what SWEEPS.md says. Sourced by tools/test.
# shellcheck shell=bash disable=SC2154

need_program

page=$tools/../docs/SWEEPS.md
sweep=$tools/sweep
mkdir "$work/sweep"
cp -- "$tools"/tests/sweep/* "$tools"/../crates/nl_models/data/fire.{nlogo,toml} "$work/sweep"
cd -- "$work/sweep" || exit 1
for name in spill ends fire many; do
    "$nlspace" table "$name.nlogo" "$name.toml" > "$name.csv"
done

# Makes a program that runs these lines of shell first, and else is the program.
stand_in() {
    printf '#!/usr/bin/env bash\n%s\nexec %q "$@"\n' "$1" "$nlspace" > "$2"
    chmod +x "$2"
}

# refuses NAME TOLD WORDS...: nothing is written, status 1.
sweep_refuses() {
    begin "sweep: $1"
    run "$sweep" "${@:3}"
    ends 1
    writes_nothing
    mentions "sweep: $2"
}

# gives_table NAME: the table of that model is written, and no piece is left.
gives_table() {
    ends 0
    writes "$1.csv"
    [[ ! -e $1.toml.pieces ]] || fail 'pieces are left'
}

# The very bytes of table

for jobs in 1 2 7; do
    for name in spill ends fire; do
        begin "sweep: the table of $name with $jobs jobs"
        run "$sweep" "$name.nlogo" "$name.toml" "$jobs"
        gives_table "$name"
        tells ''
    done
done

begin 'sweep: the table of many runs, several to a piece'
run "$sweep" many.nlogo many.toml
gives_table many

begin 'sweep: one run'
printf 'name = "one"\nsetup = ""\ngo = ""\nsteps = 1\nmetrics = ["pi"]\n' > one.toml
"$nlspace" table many.nlogo one.toml > one.csv
run "$sweep" many.nlogo one.toml 7
gives_table one

begin 'sweep: words that begin with a dash, and names with spaces'
mkdir -- '-a b'
cp spill.nlogo spill.toml -- '-a b'
"$nlspace" table '-a b/spill.nlogo' '-a b/spill.toml' > '-a b/spill.csv'
run "$sweep" '-a b/spill.nlogo' '-a b/spill.toml'
gives_table '-a b/spill'

begin 'sweep: a bar on a terminal, and the same table'
run script --quiet --return --command "'$sweep' ends.nlogo ends.toml 2 > '$work/table'" /dev/null
ends 0
grep --quiet '0% 0:10=' "$work/out" || fail 'there is no bar'
cp "$work/table" "$work/out"
gives_table ends

# Breaks

begin 'sweep: a sweep that was killed goes on, without the runs that were done'
# shellcheck disable=SC2016
stand_in 'if [[ $1 == rerun ]]; then
    printf "%s\n" "$4" >> ran
    if [[ $4 == 5 && -e hold ]]; then touch held; while [[ -e hold ]]; do sleep 0.1; done; exit 1; fi
fi' held-up
touch hold
(
    NLSPACE=$PWD/held-up setsid "$sweep" spill.nlogo spill.toml 2 > broken.csv 2> "$work/broken" &
    printf '%d\n' "$!" > broken.group
)
until [[ -e held && -e spill.toml.pieces/4-4.sum ]]; do sleep 0.1; done
case_status=0
NLSPACE=$PWD/held-up "$sweep" spill.nlogo spill.toml 2 > "$work/out" 2> "$work/err" || case_status=$?
((case_status == 1)) || fail "a second sweep beside it ended with status $case_status"
mentions 'sweep: another sweep is at work in spill.toml.pieces'
kill -KILL -- "-$(< broken.group)"
rm hold held
flock spill.toml.pieces/lock true
[[ ! -s broken.csv ]] || fail 'the broken sweep wrote something'
[[ ! -e spill.toml.pieces/5-5.sum ]] || fail 'the run that was broken off counts as done'
done_runs=$(find spill.toml.pieces -name '*.sum' | wc -l)
: > ran
NLSPACE=$PWD/held-up run "$sweep" spill.nlogo spill.toml 3
gives_table spill
(($(wc -l < ran) == 24 - done_runs)) || fail "$(wc -l < ran) runs were done again, where $done_runs of 24 were done"

begin 'sweep: pieces that were cut short or changed are done again'
touch hold
NLSPACE=$PWD/held-up "$sweep" spill.nlogo spill.toml 2 > broken.csv 2> "$work/broken" &
broken=$!
until [[ -e held && -e spill.toml.pieces/4-4.sum ]]; do sleep 0.1; done
rm hold held
wait "$broken" && fail 'the broken sweep ended well'
truncate --size=-1 spill.toml.pieces/1-1.csv
: > spill.toml.pieces/2-2.csv
sed -i '1s/"40"/"41"/' spill.toml.pieces/3-3.csv
rm spill.toml.pieces/4-4.csv
: > ran
NLSPACE=$PWD/held-up run "$sweep" spill.nlogo spill.toml 2
gives_table spill
for name in 1 2 3 4 5; do
    grep --quiet --line-regexp "$name" ran || fail "run $name was not done again"
done

begin 'sweep: a run that failed is told, nothing is joined, and the next sweep goes on'
# shellcheck disable=SC2016
stand_in 'if [[ $1 == rerun && $4 == 3 && -e short ]]; then echo "out of memory" >&2; exit 6; fi' failing
touch short
NLSPACE=$PWD/failing run "$sweep" ends.nlogo ends.toml 2
ends 1
writes_nothing
mentions 'out of memory'
mentions 'sweep: run 3 ended with status 6'
mentions 'sweep: not all runs were done, so nothing is joined'
rm short
NLSPACE=$PWD/failing run "$sweep" ends.nlogo ends.toml 2
gives_table ends

begin 'sweep: a piece that goes missing while others are made'
# shellcheck disable=SC2016
stand_in 'if [[ $1 == rerun && $4 == 10 && -e ends.toml.pieces/1-1.csv && ! -e taken ]]; then
    touch taken; rm ends.toml.pieces/1-1.csv
fi' taking
NLSPACE=$PWD/taking run "$sweep" ends.nlogo ends.toml 1
ends 1
writes_nothing
tells 'sweep: the runs 1-1 are missing'
NLSPACE=$PWD/taking run "$sweep" ends.nlogo ends.toml 1
gives_table ends

# Refusals

sweep_refuses 'one word' 'the words are MODEL EXPERIMENT, and how many JOBS' ends.nlogo
sweep_refuses 'four words' 'the words are MODEL EXPERIMENT, and how many JOBS' ends.nlogo ends.toml 1 2
sweep_refuses 'no jobs' 'JOBS is a number from 1 to 9999, and not 0' ends.nlogo ends.toml 0
sweep_refuses 'jobs that are no number' 'JOBS is a number from 1 to 9999, and not all' ends.nlogo ends.toml all
NLSPACE=missing sweep_refuses 'no program' 'there is no program missing' ends.nlogo ends.toml
sweep_refuses 'a model that is no file' '. is no plain file, and each run reads it anew' . ends.toml

begin 'sweep: a machine that lacks parallel'
mkdir bare
for name in bash dirname perl flock sha256sum nproc; do
    ln -s "$(command -v "$name")" "bare/$name"
done
PATH=$PWD/bare run "$sweep" ends.nlogo ends.toml
ends 1
tells 'sweep: this machine has no parallel'

begin 'sweep: a missing model'
run "$sweep" missing.nlogo ends.toml
ends 4
writes_nothing
tells 'cannot read missing.nlogo'

begin 'sweep: a model that is refused'
printf 'to go\n' > bad.nlogo
run "$sweep" bad.nlogo ends.toml
ends 2
writes_nothing
mentions 'bad.nlogo:2:1: '

begin 'sweep: an experiment that is refused'
printf 'name = 1\n' > bad.toml
run "$sweep" ends.nlogo bad.toml
ends 3
writes_nothing
mentions 'bad.toml: name: '
[[ ! -e bad.toml.pieces ]] || fail 'a folder of pieces is left'

# shellcheck disable=SC2016
stand_in 'if [[ $1 == check ]]; then echo yes; exit; fi' strange
NLSPACE=$PWD/strange sweep_refuses 'a program that does not count runs' 'check answered yes, and not how many runs there are' ends.nlogo ends.toml

begin 'sweep: a program without a header'
# shellcheck disable=SC2016
stand_in 'if [[ $1 == table && ! -e header ]]; then printf "a\n\"b\n"; echo "out of memory" >&2; exit 6; fi' headless
NLSPACE=$PWD/headless run "$sweep" ends.nlogo ends.toml
ends 1
writes_nothing
tells 'out of memory
sweep: table gave no header'
touch header
NLSPACE=$PWD/headless run "$sweep" ends.nlogo ends.toml
gives_table ends

begin 'sweep: pieces of another experiment'
touch short
NLSPACE=$PWD/failing run "$sweep" ends.nlogo ends.toml 1
rm short
cp ends.toml kept.toml
printf '\n' >> ends.toml
NLSPACE=$PWD/failing run "$sweep" ends.nlogo ends.toml 1
ends 1
writes_nothing
tells 'sweep: ends.toml.pieces has runs of another program, model or experiment; delete it to begin anew'
mv kept.toml ends.toml
run "$sweep" ends.nlogo ends.toml 1
ends 1
tells 'sweep: ends.toml.pieces has runs of another program, model or experiment; delete it to begin anew'
NLSPACE=$PWD/failing run "$sweep" ends.nlogo ends.toml 1
gives_table ends

begin 'sweep: a model that is changed meanwhile'
# shellcheck disable=SC2016
stand_in 'if [[ $1 == rerun && $4 == 5 ]]; then echo ";" >> changed.nlogo; fi' changing
cp ends.nlogo changed.nlogo
NLSPACE=$PWD/changing run "$sweep" changed.nlogo ends.toml 1
ends 1
writes_nothing
tells 'sweep: the program, the model or the experiment was changed meanwhile'
rm -r ends.toml.pieces

begin 'sweep: output that is full'
status=0
"$sweep" ends.nlogo ends.toml > /dev/full 2> "$work/err" || status=$?
ends 5
run "$sweep" ends.nlogo ends.toml
gives_table ends

# What SWEEPS.md says

begin 'SWEEPS.md: the array job and its join give the table'
block_of "$page" 'SBATCH --array' > job.sh
block_of "$page" 'cat header.csv' > join.sh
mkdir bin
ln -s "$nlspace" bin/nlspace
cp spill.nlogo m.nlogo
cp spill.toml e.toml
PATH=$PWD/bin:$PATH "$nlspace" table m.nlogo e.toml > e.csv
for task in {1..9}; do
    PATH=$PWD/bin:$PATH SLURM_ARRAY_TASK_ID=$task run bash job.sh
    ends 0
done
PATH=$PWD/bin:$PATH run bash join.sh
((status != 0)) || fail 'the join did without a piece'
[[ ! -e table.csv ]] || fail 'the join wrote a table without a piece'
PATH=$PWD/bin:$PATH SLURM_ARRAY_TASK_ID=10 run bash job.sh
PATH=$PWD/bin:$PATH run bash join.sh
ends 0
cmp --silent table.csv e.csv || fail 'the joined table is another one'

begin 'SWEEPS.md: a run that fails leaves no piece of its task'
rm piece-1.csv
# shellcheck disable=SC2016
stand_in 'if [[ $1 == rerun && $4 == 2 ]]; then exit 6; fi' bin/failing
mv bin/failing bin/nlspace
PATH=$PWD/bin:$PATH SLURM_ARRAY_TASK_ID=1 run bash job.sh
((status != 0)) || fail 'the task ended well'
[[ ! -e piece-1.csv ]] || fail 'there is a piece'

begin 'SWEEPS.md: a budget ends a run that goes on without end'
printf 'to setup\nend\nto go\n  loop [ crt 1 ]\nend\n' > endless.nlogo
printf 'name = "endless"\nbudget = 5000\nmetrics = ["count turtles"]\n' > endless.toml
run "$nlspace" table endless.nlogo endless.toml
ends 0
[[ $(tail -n 1 "$work/out") == '"1","0","","budget"' ]] || fail 'the run ended otherwise'

begin 'SWEEPS.md: a limit of the shell ends a run that takes memory without end'
printf 'turtles-own [hoard]\nto setup\nend\nto go\n  crt greed [ set hoard range 900000 ]\nend\n' > greedy.nlogo
printf 'name = "greedy"\nsteps = 1000\nmetrics = ["count turtles"]\n[[vary]]\nname = "greed"\nvalues = [0, 1]\n' > greedy.toml
block_of "$page" 'ulimit -v' | sed 's/m\.nlogo e\.toml/greedy.nlogo greedy.toml/; s/table\.csv/greedy.csv/' > limit.sh
ln -sf "$nlspace" bin/nlspace
PATH=$PWD/bin:$PATH run bash limit.sh
ends 6
tells 'out of memory'
[[ $(tail -n 1 greedy.csv) == '"1","0","1000","0","steps"' ]] || fail 'the table has another last line'
