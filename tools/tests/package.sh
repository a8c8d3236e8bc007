# Tests of package. Sourced by tools/test.
# shellcheck shell=bash disable=SC2154

need_program

mkdir "$work/package"
cd -- "$work/package" || exit 1

# A repository of its own, with the pages and tools of this one and the models of the tests.
mkdir -p repo/crates/nl_models
cp -R -- "$tools/../README.md" "$tools/../docs" "$tools" repo
cp -R -- "$tools/tests/sweep" repo/crates/nl_models/data
printf 'out/\n' > repo/.gitignore

in_repo() {
    git -C repo -c user.name=test -c user.email=test@example.org "$@" > "$work/git"
}

package_refuses() {
    begin "package: $1"
    run repo/tools/package "${@:3}"
    ends 1
    writes_nothing
    tells "package: $2"
    [[ ! -e repo/out ]] || fail 'a package was written'
}

in_repo init --quiet --initial-branch=main
package_refuses 'a repository without a commit' 'this is no commit of a repository'
in_repo add .
in_repo commit --quiet --message 'All'

package_refuses 'two words' 'the only word is a FOLDER' a b
NLSPACE='' package_refuses 'no program' "there is no program $PWD/repo/crates/nlspace/out/nlspace; build it first"
NLSPACE=./missing package_refuses 'a program that is missing' 'there is no program ./missing; build it first'

printf '\n' >> repo/README.md
package_refuses 'a change in no commit' 'the repository has changes that are in no commit'
sed -i '/^Proved with/d' repo/README.md
in_repo commit --quiet --all --message 'Say no kit'
package_refuses 'a commit that says no kit' 'README.md has no line that says by which kit the program is proved'
in_repo checkout --quiet HEAD~ -- README.md
sed -i 's/^- \*\*For modellers/- **For readers/' repo/README.md
in_repo commit --quiet --all --message 'List no page'
package_refuses 'a commit that lists no page' 'README.md lists no page for modellers'
in_repo checkout --quiet HEAD~2 -- README.md
in_repo mv crates examples
in_repo commit --quiet --message 'Move the models'
package_refuses 'a commit without models' 'the commit has no crates/nl_models/data'
in_repo reset --quiet --hard HEAD~3

begin 'package: a folder, its archive and checksums'
run repo/tools/package
ends 0
tells ''
name=nlspace-$(git -C repo rev-parse HEAD | head -c 12)
[[ $(< "$work/out") == "$PWD/repo/out/$name"$'\n'"$PWD/repo/out/$name.tar.gz" ]] || fail "it says $(< "$work/out")"
[[ -z $(git -C repo status --porcelain) ]] || fail 'the repository is changed'
for file in nlspace README.md VERSION SHA256SUMS docs/LANGUAGE.md docs/EXPERIMENT.md docs/WORDS.md models/spill.nlogo models/spill.toml \
    tools/from-netlogo tools/sweep; do
    [[ -f repo/out/$name/$file ]] || fail "the package has no $file"
done
[[ ! -e repo/out/$name/docs/PROOFS.md ]] || fail 'the package has a page that is no page for modellers'
[[ $(< "repo/out/$name/VERSION") == "commit $(git -C repo rev-parse HEAD)"$'\n''kit '*[0-9a-f] ]] || fail 'VERSION is another'

begin 'package: unpacked elsewhere, it runs a model and spreads a sweep'
mkdir elsewhere
cp -- repo/out/"$name".tar.gz* elsewhere
cd elsewhere || exit 1
run sha256sum --check --quiet "$name.tar.gz.sha256"
ends 0
tar xzf "$name.tar.gz"
cd "$name" || exit 1
run sha256sum --check --quiet SHA256SUMS
ends 0
"$nlspace" table models/spill.nlogo models/spill.toml > spill.csv
run env --ignore-environment ./nlspace table models/spill.nlogo models/spill.toml
ends 0
writes spill.csv
NLSPACE=./nlspace run tools/sweep models/spill.nlogo models/spill.toml
ends 0
writes spill.csv
run tools/from-netlogo "$tools/tests/netlogo/spread.nlogo" 'stride and spread'
ends 0
writes "$tools/tests/netlogo/stride-and-spread.toml"
cd ../.. || exit 1

begin 'package: built again, at another time, place and mask of modes, it has the same bytes'
sleep 1
(umask 077 && TZ=Asia/Tokyo run repo/tools/package again && ((status == 0))) || fail 'it was refused'
run cmp "again/$name.tar.gz" "repo/out/$name.tar.gz"
ends 0
run diff --recursive "again/$name" "repo/out/$name"
ends 0

begin 'package: it takes the place of an earlier one'
run repo/tools/package again
ends 0
run cmp "again/$name.tar.gz" "repo/out/$name.tar.gz"
ends 0
[[ $(find again -maxdepth 1 -mindepth 1 | wc -l) == 3 ]] || fail 'there are other files'
