# Tests of headline. Sourced by tools/test.
# shellcheck shell=bash disable=SC2154

begin 'headline: the pages are up to date'
run "$tools/headline" --check
ends 0
writes_nothing
tells ''

mkdir -p "$work"/headline/{docs,tools,crates/nl_cli/{src,specs},crates/low/{src,specs/inner}}
cd -- "$work/headline" || exit 1
cp -- "$tools/headline" "$tools/definitions.py" tools
printf '# Crates.\n\n# Below.\nlow:\n\n# Above.\nnl_cli: low\n' > crates.txt
cat > crates/nl_cli/src/top.rt << 'END'
ghost use Rattle.nl_cli.specs.Answer.{Answered, Unused};
ghost use Rattle.low.specs.Words as spec;

fn other() -> u32
    ensures { Unused result }
{
}

pub fn run(words: &Words) -> Status
    ensures { Answered (spec.command words) result } // and not spec.never
{
}
END
cat > crates/nl_cli/specs/Answer.antt << 'END'
-- What is answered, and
-- why. This is no part of the first sentence.
use Rattle.std.specs.Prelude.{◌≡◌}
use Rattle.low.specs.Words.{Command, ◌>>◌}
use Rattle.low.specs.declared.kinds.Kind.{Kind}

abbrev pub Answered : Command → Kind → Type 0
Answered command kind = kind_of command ≡ kind

abbrev pub kind_of : Command → Kind
kind_of command = command.before >> command.behind

abbrev pub Unused : Kind → Type 0
Unused kind = never kind
END
cat > crates/low/specs/Words.antt << 'END'
-- Words.
pub use Rattle.low.specs.inner.Parts.{command}

pub record Command : Type 0 where
  pub before : Part
  pub behind : Part

abbrev pub ◌>>◌ : Part → Part → Kind
a >> b = b

abbrev pub never : Kind → Type 0
never kind = ⊥
END
cat > crates/low/specs/inner/Parts.antt << 'END'
use Rattle.low.specs.Words.{Command}

-- the command of words
abbrev pub command : Words → Command
command words = parts words

abbrev pub parts : Words → Command
parts words = words
END
printf '// Never read\n' > crates/low/specs/Other.antt
printf -- '-- A list of modules.\npub mod Words\n' > crates/low/specs/Lib.antt
printf -- '-- Steps.\nabbrev pub Step : Type 0\nStep = Words\n' > crates/low/specs/inner/Aside.antt
printf -- '-- Other kinds. They are never asked for.\ndata pub Other : Type 0 where\n  pub other : Other\n' > crates/low/specs/Further.antt
printf -- '-- Laws of\n-- answers.\nabbrev pub Law : Type 0\nLaw = Unused\n' > crates/nl_cli/specs/Laws.antt
touch crates/low/src/kinds.rt

begin 'headline: what the clauses of the top call reach, and nothing else'
run tools/headline
ends 0
writes_nothing
tells ''
cat > wanted << 'END'
| file | lines | what it defines |
|---|---|---|
| `nl_cli/specs/Answer.antt` | 4 | What is answered, and why |
| `low/specs/Words.antt` | 5 | Words |
| `low/specs/inner/Parts.antt` | 4 |  |
| `low/src/kinds.rt` |  | the types `Kind` |
END
run grep '^|' docs/HEADLINE.md
writes wanted
run tools/headline --check
ends 0

begin 'headline: each other file with a definition, by rooms'
cat > wanted << 'END'
## Below
| file | what it defines |
|---|---|
| `low/specs/Further.antt` | Other kinds |
| `low/specs/inner/Aside.antt` | Steps |
## Above
| file | what it defines |
|---|---|
| `nl_cli/specs/Laws.antt` | Laws of answers |
END
run grep '^|\|^##' docs/DEFINITIONS.md
writes wanted

for page in HEADLINE DEFINITIONS; do
    begin "headline: a page that is out of date is told and left: $page"
    run tools/headline
    printf '\n' >> "docs/$page.md"
    cp "docs/$page.md" kept
    run tools/headline --check
    ends 1
    tells "headline: docs/$page.md is out of date; tools/headline writes it"
    run cmp "docs/$page.md" kept
    ends 0
done

begin 'headline: a page that is not there is told'
run tools/headline
rm docs/DEFINITIONS.md
run tools/headline --check
ends 1
tells 'headline: docs/DEFINITIONS.md is out of date; tools/headline writes it'

begin 'headline: another word'
run tools/headline low
ends 1
tells 'headline: the only word is --check'
cd .. || exit 1
