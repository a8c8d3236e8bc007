# Tests of gate-table. Sourced by tools/test.
# shellcheck shell=bash disable=SC2154

begin 'gate-table: the page is up to date'
run "$tools/gate-table" --check
ends 0
writes_nothing
tells ''

mkdir -p "$work"/gate/{docs,tools/edits/low,crates/low/{src/inner,must-fail},crates/high/src,crates/trial_low/src}
cd -- "$work/gate" || exit 1
cp -- "$tools/gate-table" "$tools/definitions.py" tools
printf '# Low.\nlow:\nhigh: low\ntrial_low: low\n' > crates.txt
cat > crates/low/src/lib.rt << 'END'
//! The low crate.
ghost use Rattle.low.specs.One.{one};

pub mod inner;
#[cfg(test)]
mod tests;

/// One.
pub fn one() -> u32 {
    1 // always
}
END
cat > crates/low/src/inner.rt << 'END'
impl Two {
    pub(crate) fn two() -> u32 {
        2
    }
}

#[cfg(test)]
use super::one;

#[cfg(test)]
mod tests {
    #[test]
    fn two_is_two() {}
}

fn three() {}
END
printf '#[test]\nfn one_is_one() {}\n' > crates/low/src/tests.rt
printf 'fn main() {}\n' > crates/high/src/main.rt
printf '#![tactic(auto)]\n\n#[cfg(test)]\nmod ones;\n' > crates/trial_low/src/lib.rt
printf '#[test]\nfn one_is_one() {}\n' > crates/trial_low/src/ones.rt
touch crates/low/must-fail/{a,b}.edit tools/edits/low/{c.edit,notes}
cat > docs/GATE.md << 'END'
Before.

| crate | lines of code | functions | proof | proof of the tests | edits |
|---|---|---|---|---|---|
| `gone` | 1 | 1 | 9.0 | 9.0 | 1 |
| `low` | 1 | 1 | 2.6 | none | 1 |
| `trial_low` | tests alone | | 0.2 | 1.1 | none |

Behind.
END

begin 'gate-table: counts without tests, beside the minutes that are kept'
printf '#[test]\nfn five_is_five() {}\n' > crates/low/src/inner/five.rt
sed --in-place '1i #[cfg(test)]\nmod five;' crates/low/src/inner.rt
run tools/gate-table
ends 0
writes_nothing
tells ''
cat > wanted << 'END'
Before.

| crate | lines of code | functions | proof | proof of the tests | edits |
|---|---|---|---|---|---|
| `low` | 10 | 3 | 2.6 | none | 2, 1 beside |
| `high` | 1 | 1 | ? | ? | none |
| `trial_low` | tests alone | | 0.2 | 1.1 | none |
| all | 11 | 4 | 3 | 1 | 2, 1 beside |

Behind.
END
run cat docs/GATE.md
writes wanted
run tools/gate-table --check
ends 0

begin 'gate-table: a page that is out of date is told and left'
touch tools/edits/low/d.edit
run tools/gate-table --check
ends 1
tells 'gate-table: docs/GATE.md is out of date; tools/gate-table writes it'
run cat docs/GATE.md
writes wanted

begin 'gate-table: a page without a table'
printf 'Before.\n' > docs/GATE.md
run tools/gate-table
ends 1
tells 'gate-table: docs/GATE.md has no table of crates'

begin 'gate-table: another word'
run "$tools/gate-table" low
ends 1
tells 'gate-table: the only word is --check'
cd .. || exit 1
