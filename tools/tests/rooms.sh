# Tests of what pages say of crates and their files. Sourced by tools/test.
# shellcheck shell=bash disable=SC2154

begin 'rooms: the README has each crate of crates.txt once, by the same rooms and in their order'
awk 'NR == 1 { next }
    /^# / { sub(/^# /, ""); sub(/\.$/, ""); print "**" $0 "**" }
    /^trial_/ { if (!trials++) print "`trial_..`"; next }
    /^[a-z]/ { sub(/:.*/, ""); print "`" $0 "`" }' "$tools/../crates.txt" > "$work/rooms"
awk '/^## / { is_list = /What is proved/ }
    is_list && /^\| (\*\*|`)/ { sub(/^\| /, ""); sub(/ \| .*/, ""); print }' "$tools/../README.md" > "$work/listed"
run diff "$work/rooms" "$work/listed"
ends 0
[[ -s $work/rooms ]] || fail 'there are no rooms'

begin 'rooms: each file of a crate that a page for developers names is there'
cat "$tools"/../docs/{ARCHITECTURE,GATE,TRIALS}.md | grep --only-matching --extended-regexp '`(nl|nlspace|trial)_?[a-z_]*/[^` ]*`' |
    tr --delete '`' | sort --unique > "$work/named"
while read -r file; do
    [[ -e $tools/../crates/$file || -f $tools/../crates/$file.antt ]] || fail "there is no $file"
done < "$work/named"
(($(wc --lines < "$work/named") > 50)) || fail 'it names hardly any file'
