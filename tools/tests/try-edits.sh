# Tests of try-edits. Sourced by tools/test.
# shellcheck shell=bash disable=SC2154

begin 'try-edits: each edit of this repository can be applied'
run "$tools/try-edits" --apply
ends 0
writes_nothing
tells ''

mkdir "$work/edits"
cd -- "$work/edits" || exit 1
git init --quiet .
mkdir -p tools/edits/low crates/low/{src,must-fail,out/rlib} crates/high/{src,must-fail,out/program}
cp -- "$tools/try-edits" tools
printf 'out/\n' > .gitignore
printf 'one\ntwo\ntwo\n' > crates/low/src/lib.rt
printf 'three\n' > crates/high/src/lib.rt
printf 'file: src/lib.rt\nold: one\nnew: six\n' > crates/low/must-fail/one_is_six.edit
printf 'file: src/lib.rt\nold: one\nnew: ten\nold: ten\nnew:\n' > tools/edits/low/one_is_gone.edit
printf 'file: src/lib.rt\nold: three\nnew: four\n' > crates/high/must-fail/three_is_four.edit
printf 'library' > crates/low/out/rlib/low
printf 'program' > crates/high/out/program/high

edit_is_told() {
    begin "try-edits: $1"
    printf '%b' "$3" > tools/edits/low/wrong.edit
    run tools/try-edits --apply
    ends 1
    writes_nothing
    tells "try-edits: tools/edits/low/wrong.edit: $2"
    run tools/try-edits --apply high
    ends 0
    rm tools/edits/low/wrong.edit
}

edit_is_told 'a text that is there twice' 'a text that it turns is in src/lib.rt 2 times' \
    'file: src/lib.rt\nold: two\nnew: six\n'
edit_is_told 'a text that is not there' 'a text that it turns is in src/lib.rt 0 times' \
    'file: src/lib.rt\nold: six\nnew: one\n'
edit_is_told 'a text that an earlier turn took away' 'a text that it turns is in src/lib.rt 0 times' \
    'file: src/lib.rt\nold: one\nnew: six\nold: one\nnew: ten\n'
edit_is_told 'a file that is not there' 'there is no file src/main.rt' 'file: src/main.rt\nold: one\nnew: six\n'
edit_is_told 'a new text alone' 'a new text stands before any file or any text that it turns' \
    'file: src/lib.rt\nnew: six\n'
edit_is_told 'an edit of nothing' 'it turns nothing' 'file: src/lib.rt\n'

begin 'try-edits: a name that stands twice'
cp -- crates/low/must-fail/one_is_six.edit tools/edits/low
run tools/try-edits --apply
ends 1
mentions 'try-edits: crates/low/must-fail/one_is_six.edit: two edits have this name'
mentions 'try-edits: tools/edits/low/one_is_six.edit: two edits have this name'
rm tools/edits/low/one_is_six.edit

begin 'try-edits: a crate that is not there'
run tools/try-edits low lower
ends 1
writes_nothing
tells 'try-edits: lower is no crate with edits'

# In place of the prover, a program that tells where it stands, what it is asked and which files are there.
mkdir bin
printf '#!/bin/sh\necho "$*"\nfind crates tools -type f | LC_ALL=C sort\ncat crates/low/src/lib.rt\nexit "$REFUSED"\n' > bin/rt
chmod +x bin/rt

begin 'try-edits: the prover tries all edits in a copy, over the libraries that are there'
printf 'changed\n' >> crates/high/src/lib.rt
cat > wanted << 'END'
must-fail high low
crates/high/must-fail/three_is_four.edit
crates/high/src/lib.rt
crates/low/must-fail/one_is_gone.edit
crates/low/must-fail/one_is_six.edit
crates/low/out/rlib/low
crates/low/src/lib.rt
tools/edits/low/one_is_gone.edit
tools/try-edits
one
two
two
END
run env REFUSED=0 PATH="$PWD/bin:$PATH" tools/try-edits
ends 0
writes wanted
tells ''
[[ ! -e crates/low/must-fail/one_is_gone.edit ]] || fail 'the repository is changed'

begin 'try-edits: an edit that is let through'
run env REFUSED=1 PATH="$PWD/bin:$PATH" tools/try-edits low
ends 1
[[ $(head -n 1 "$work/out") == 'must-fail low' ]] || fail 'it asks for other crates'

begin 'try-edits: an edit that cannot be applied is not tried'
printf 'four\n' > crates/low/src/lib.rt
run env REFUSED=0 PATH="$PWD/bin:$PATH" tools/try-edits
ends 1
writes_nothing
cd .. || exit 1
