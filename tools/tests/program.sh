# Tests of the program itself: how `main` ends, and what it writes to files, pipes and a full device. Sourced by tools/test.
# shellcheck shell=bash disable=SC2154

need_program

mkdir "$work/program"
cd -- "$work/program" || exit 1
printf 'to setup\n  cro 3\nend\nto go\n  ask turtles [ fd 1 ]\nend\n' > m.nlogo
printf 'name = "x"\nrepetitions = 2\nsteps = 2\nmetrics = ["count turtles"]\n' > e.toml
cat > table << 'END'
"BehaviorSpace results (fixed-point profile)"
"m.nlogo"
"x"
"min-pxcor","max-pxcor","min-pycor","max-pycor"
"-16","16","-16","16"
"[run number]","[step]","count turtles","[end]"
"1","2","3","steps"
"2","2","3","steps"
END

# program_ends STATUS WANTED TOLD WORDS...: with these words the program ends so, writes just what the file WANTED has, and tells TOLD.
program_ends() {
    run "$nlspace" "${@:4}"
    ends "$1"
    writes "$2"
    tells "$3"
}

begin 'program: status 0, a table'
program_ends 0 table '' table m.nlogo e.toml

begin 'program: status 0, a run alone'
printf '"2","2","3","steps"\n' > wanted
program_ends 0 wanted '' rerun m.nlogo e.toml 2

begin 'program: status 0, how many runs there are'
printf 'ok 2\n' > wanted
program_ends 0 wanted '' check m.nlogo e.toml

begin 'program: status 0, the measure'
printf 'runs 4\nbytes 300\n"4","20","24","4","steps"\n' > wanted
program_ends 0 wanted '' bench 1

begin 'program: status 0, files that are pipes, which a second read would find empty'
run "$nlspace" table <(cat m.nlogo) <(cat e.toml)
ends 0
sed 's|^"/dev/fd/[0-9]*"$|"m.nlogo"|' "$work/out" > told
cp told "$work/out"
writes table
tells ''
printf 'ok 2\n' > wanted
program_ends 0 wanted '' check <(cat m.nlogo) <(cat e.toml)

begin 'program: status 1, words that name no command'
program_ends 1 /dev/null 'nlspace: the words name no command'
program_ends 1 /dev/null 'nlspace: the words name no command' table m.nlogo

begin 'program: status 2, a model with a fault'
printf 'to setup\n  fd 1 tick\nend\n' > bad.nlogo
program_ends 2 /dev/null 'bad.nlogo:2:8: WrongContext' table bad.nlogo e.toml

begin 'program: status 3, an experiment with a fault, and no such run'
printf 'name = "x"\nsteps = "two"\n' > bad.toml
program_ends 3 /dev/null 'bad.toml: steps: WrongKind' table m.nlogo bad.toml
program_ends 3 /dev/null 'e.toml: run: NoSuchRun' rerun m.nlogo e.toml 3

begin 'program: status 4, a file that is not there, and a folder'
program_ends 4 /dev/null 'cannot read missing.nlogo' table missing.nlogo e.toml
program_ends 4 /dev/null 'cannot read .' check m.nlogo .

begin 'program: status 5, output that is full'
# shellcheck disable=SC2016
run bash -c 'exec "$@" > /dev/full' full "$nlspace" table m.nlogo e.toml
ends 5
tells 'cannot write'

begin 'program: status 6, a run that wants more memory than there is, behind the header'
printf 'turtles-own [hoard]\nto setup\n  crt 1000 [ set hoard range 900000 ]\nend\nto go\nend\n' > greedy.nlogo
sed '7,$d; s/^"m\.nlogo"$/"greedy.nlogo"/' table > wanted
# shellcheck disable=SC2016
run bash -c 'ulimit -v 500000; exec "$@"' limited "$nlspace" table greedy.nlogo e.toml
ends 6
writes wanted
tells 'out of memory'

begin 'program: status 9, a word that is not UTF-8'
program_ends 9 /dev/null '' table $'\xff' e.toml
program_ends 9 /dev/null '' $'\xff'
cd .. || exit 1
