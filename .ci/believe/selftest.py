"""The script's own tests: a small tree that is right, and with one thing wrong at a time, each of which must be noticed."""
import sys
import tempfile
from pathlib import Path
from believe import page
from believe.tree import Tree, Wrong

SIZE, COUNT = "crates/base/specs/Size.antt", "crates/base/specs/Count.antt"
STRUCT, TOP, PART = "crates/base/src/size.rt", "crates/top/src/lib.rt", "crates/top/src/part.rt"

SMALL = {
    "crates.txt": "# two crates\nbase:\ntop staticlib: base\n",
    "crates/base/src/lib.rt": "mod size;\npub use size::{\n    Size,\n    size_of,\n};\n",
    STRUCT: """ghost use Rattle.std.specs.Prelude.{◌≡◌};
ghost use Rattle.base.specs.Size.{SizeIs};

// How large.
#[derive(Clone, Copy)]
pub struct Size {
    pub n: u64,
}

// The size of bytes.
pub fn size_of(s: &[u8]) -> Size
    ensures { SizeIs s.now result }
{
    Size { n: own(s) }
}

impl Size {
    ghost use Rattle.base.specs.Count.{count};

    // How many.
    pub fn many(&self, s: &[u8]) -> u64
        ensures { result ≡ count s.now }
    {
        self.n
    }

    fn few(&self) -> u64 {
        self.n
    }
}

impl From<Size> for u64 {
    fn from(size: Size) -> u64 {
        size.n
    }
}

fn own(
    s: &[u8],
) -> u64 {
    0
}
""",
    # here `idle` is a field's argument, and there a name in a pattern: neither is the definition of that name
    SIZE: """-- Sizes.
use Rattle.std.specs.Prelude.{◌≡◌, List, ℕ, zero, suc, ◌+◌}
use Rattle.base.specs.declared.size.Size.{Size as Found}
use Rattle.base.specs.Count as Other·

-- two for each
unfoldable pub twice : ℕ → ℕ
twice zero = 0
twice (suc n) = 2 + twice n

-- nobody cites it
unfoldable pub idle : ℕ → ℕ
idle n = n

pub record SizeIs (s : List ℕ) (r : Found) : Type 0 where
  -- by value
  pub sized : (idle : ℕ) → r.n ≡ twice (Other·.count s)
""",
    COUNT: """-- Counts.
use Rattle.std.specs.Prelude.{List, [], ◌∷◌, ℕ, ◌+◌}

module _ {A : Type 0} where
  -- how many
  unfoldable pub count : List A → ℕ
  count [] = 0
  count (idle ∷ xs) = let more = count xs in 1 + more

unfoldable pub idle : ℕ
idle = 7
""",
    TOP: """use base::Size;
ghost use Rattle.base.specs.Size.{SizeIs};
pub mod part;

// How much is looked at.
const MOST: usize = 7;

pub fn top(s: &[u8]) -> Size
    ensures { SizeIs s.now result }
    ensures most { SizeIs s.now MOST }
{
    base::size_of(s)
}
""",
    PART: """pub(crate) fn inner() {
}

pub fn outer()
    ensures { Unit }
{
}

#[unsafe(no_mangle)]
pub extern "C" fn exported()
    ensures { Unit }
{
}
""",
    page.PAGE: f"""| operation | proof |
|---|---|
| `top::top`; `base::size_of`, the size; `base::Size::many` | `top::inner` |
| `top::part::outer`, `exported` | |

{page.BEGIN}
{page.END}
""",
}

# what is changed: a file, some text of it, and other text; and what must be said of it
WRONG = [
    # the table
    ("a row is missing", [(page.PAGE, "| base/specs/Count.antt | 4 | 11 |\n", "")],
     "does not say '| base/specs/Count.antt | 4 | 11 |'"),
    ("a number is wrong", [(page.PAGE, "Size.antt | 7 |", "Size.antt | 6 |")],
     "says '| base/specs/Size.antt | 6 | 17 |'"),
    ("a row too many", [(page.PAGE, "| together", "| base/specs/Idle.antt | 1 | 1 |\n| together")],
     "says '| base/specs/Idle.antt | 1 | 1 |'"),
    ("a row twice", [(page.PAGE, "| together", "| base/specs/Size.antt | 7 | 17 |\n| together")],
     "not as they should stand"),
    ("a mark is gone", [(page.PAGE, page.END, "")],
     "wants one line"),
    # what is reached
    ("a definition has grown", [(SIZE, "twice zero", "-- none\ntwice zero")],
     "does not say '| base/specs/Size.antt | 8 | 18 |'"),
    ("a file has grown", [(SIZE, "idle n = n", "idle n =\n  n")],
     "does not say '| base/specs/Size.antt | 7 | 18 |'"),
    ("a struct has grown", [(STRUCT, "    pub n: u64,", "    pub n: u64,\n    pub m: u64,")],
     "does not say '| base/src/size.rt | 6 | 43 |'"),
    ("a definition is cited now", [(SIZE, "2 + twice n", "idle 2 + twice n")],
     "does not say '| base/specs/Size.antt | 10 | 17 |'"),
    ("one is cited in a binder's type", [(SIZE, "2 + twice n", "(λ (n : idle). 2) n")],
     "does not say '| base/specs/Size.antt | 10 | 17 |'"),
    ("one is cited of which a field is taken", [(SIZE, "2 + twice n", "2 + idle.n")],
     "does not say '| base/specs/Size.antt | 10 | 17 |'"),
    ("one is cited in brackets of which a field is taken", [(SIZE, "2 + twice n", "2 + (idle n).n")],
     "does not say '| base/specs/Size.antt | 10 | 17 |'"),
    ("one is cited in the second of two clauses",
     [(TOP, "{SizeIs}", "{SizeIs, idle}"),
      (TOP, "    ensures most", "    ensures rest { idle result.n }\n    ensures most")],
     "does not say '| base/specs/Size.antt | 10 | 17 |'"),
    ("a definition is cited no more", [(SIZE, "twice (Other·.count s)", "Other·.count s")],
     "does not say '| base/specs/Size.antt | 3 | 17 |'"),
    ("a contract rests on a proof", [(SIZE, ".specs.Count as", ".proofs.Count as")],
     "of crates/base/proofs/Count.antt"),
    ("a name that nothing defines", [(COUNT, "1 + more", "1 + less")],
     "count speaks of `less`, which nothing defines"),
    ("an entry is gone", [(TOP, "pub fn top", "pub fn tip")],
     "there is no public function `top::top`"),
    ("a `use` of the code is of another form", [(TOP, "use base::Size;", "use base::*;")],
     "crates/top/src/lib.rt: a `use` of a form that .ci/trust does not know"),
    # the public functions
    ("a method is in no row", [(page.PAGE, "; `base::Size::many`", "")],
     "no row of docs/TRUST.md names `base::Size::many`"),
    ("a method becomes public", [(STRUCT, "    fn few", "    pub fn few")],
     "no row of docs/TRUST.md names `base::Size::few`"),
    ("a method asks", [(STRUCT, "        ensures { result ≡ count s.now }", "        requires { SizeIs }\n        ensures { result ≡ count s.now }")],
     "`base::Size::many` is public and has a `requires`"),
    ("one is in no row", [(page.PAGE, "; `base::size_of`", "")],
     "no row of docs/TRUST.md names `base::size_of`"),
    ("an export is in no row", [(page.PAGE, ", `exported`", "")],
     "no row of docs/TRUST.md names `top::part::exported`"),
    ("one is named in another column", [(page.PAGE, "; `base::size_of`, the size; `base::Size::many` |", "; `base::Size::many` | `base::size_of`")],
     "no row of docs/TRUST.md names `base::size_of`"),
    ("one becomes public", [(PART, "pub(crate) fn inner", "pub fn inner")],
     "no row of docs/TRUST.md names `top::part::inner`"),
    ("a row names what is gone", [(page.PAGE, "`base::size_of`", "`base::size_of`, `gone`")],
     "names `base::gone`, and no public function is called so"),
    ("a row names all at once", [(page.PAGE, "`top::part::outer`, `exported`", "`top::part::*`")],
     "no row of docs/TRUST.md names `top::part::outer`"),
    ("a constant has grown", [(TOP, "// How much", "// Of bytes.\n// How much")],
     "does not say '| top/src/lib.rt | 6 | "),
    ("one asks", [(TOP, "    ensures most", "    requires { SizeIs }\n    ensures most")],
     "`top::top` is public and has a `requires`"),
    ("one promises nothing", [(PART, "outer()\n    ensures { Unit }\n{", "outer() {")],
     "`top::part::outer` is public and has no `ensures`"),
]


def said_of(edits):
    """What is said of the small tree, its table written, after edits."""
    with tempfile.TemporaryDirectory() as root:
        for path, text in SMALL.items():
            (Path(root) / path).parent.mkdir(parents=True, exist_ok=True)
            (Path(root) / path).write_text(text)
        page.write(Tree(root), ["top::top"])
        for path, old, new in edits:
            text = (Path(root) / path).read_text()
            if text.count(old) != 1:
                return f"'{old}' is {text.count(old)} times in {path}"
            (Path(root) / path).write_text(text.replace(old, new))
        try:
            return "\n".join(page.wrongs(Tree(root), ["top::top"]))
        except Wrong as wrong:
            return str(wrong)


def run():
    failed = 0
    for what, edits, wanted in [("nothing wrong", [], "")] + WRONG:
        said = said_of(edits)
        if said != wanted if wanted == "" else wanted not in said:
            failed += 1
            print(f"trust: {what}: '{wanted}' should be said, and this is:\n{said}", file=sys.stderr)
    print(f"trust: {len(WRONG) + 1 - failed} of {len(WRONG) + 1} small trees are answered as they should be")
    return 1 if failed else 0
