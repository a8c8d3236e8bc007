# Tests of word-index. Sourced by tools/test.
# shellcheck shell=bash disable=SC2154

begin 'word-index: the page is up to date'
run "$tools/word-index" --check
ends 0
writes_nothing
tells ''

begin 'word-index: each word has a section, a definition and code'
run grep --extended-regexp '^\| `[^`]+` \|( *\||.*\| +\| [^|]*\|$|.*\| +\|$)' "$tools/../docs/INDEX.md"
ends 1

begin 'word-index: no crate of tests alone does what a word says'
run grep --extended-regexp '`(trial_[a-z_]+|nlspace_trials)/' "$tools/../docs/INDEX.md"
ends 1

begin 'word-index: each file that it names is there'
grep --only-matching --extended-regexp '`nl_[a-z_]+/[^`]+`' "$tools/../docs/INDEX.md" | tr --delete '`' | sort --unique > "$work/named"
while read -r file; do
    [[ -f $tools/../crates/$file ]] || fail "there is no $file"
done < "$work/named"
[[ -s $work/named ]] || fail 'it names no file'

begin 'word-index: another word'
run "$tools/word-index" low
ends 1
tells 'word-index: the only word is --check'
