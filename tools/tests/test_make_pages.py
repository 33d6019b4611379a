#!/usr/bin/env python3
"""Runs tools/make_pages in a small repository.

    python3 tools/tests/test_make_pages.py
"""

from __future__ import annotations

import shutil
import subprocess
import sys
import tempfile
import unittest
from pathlib import Path

TOP = Path(__file__).resolve().parents[2]
PAGE, TABLE = "docs/WRONG_BODIES.md", "crates/README.md"
LISTS = {"DEFINITIONS.md": "Definitions", "CONTRACTS.md": "Contracts", "MUTANTS.md": "Mutants by guarantee"}
FILES = {
    "crates.txt": "# NAME: what it stands on.\n\n# halves, and wholes\nhalves:\nwholes: halves\ntests_wholes:\n",
    "crates/halves/specs/Half.antt": """\
-- What a half is.
use Rattle.std.specs.Prelude.{ℕ, ◌≡◌}

-- the half of a number,
-- rounded down
abbrev pub half : ℕ → ℕ
half n = n / 2

-- the same, where a number has one
abbrev pub whole_half : ℕ → Option ℕ
whole_half n = if n % 2 == 0 then Some (half n) else None

abbrev pub shared : ℕ → ℕ
shared n = half n

-- named in this file alone
abbrev pub inner : ℕ
inner = 2

-- below ten
abbrev pub IsSmall : ℕ → Type 0
IsSmall n = n < 10

-- how a number stands
pub data Kind : Type 0 where
  pub Even : Kind
  pub Odd : Kind
""",
    "crates/halves/src/lib.rt": """\
//! Halves.

mod hidden;
pub mod number;

pub use number::Number;
""",
    "crates/halves/src/hidden.rt": "/// Not offered.\npub fn hide()\n{}\n",
    "crates/halves/src/number.rt": """\
ghost use Rattle.halves.specs.{Half.{whole_half, shared, IsSmall}};
ghost use Rattle.halves.specs.Half as half;

/// A number.
pub struct Number {
    pub(crate) number: u32,
}

impl Model for Number {
    ghost view = { λ number. number.number };

    ghost invariant = { λ number. IsSmall number.number };
}

impl Number {
    /// Its half,
    /// if it has one.
    ///
    /// An example.
    #[tactic(auto)]
    pub fn halve(&self, limit: u32) -> Option<u32>
        requires small { limit < 10 }
        requires { half.Even ≡ half.Even }
        ensures { result ≡ whole_half
            self.now }
        ensures again { whole_half self.now ≡ Some (shared limit) }
    {
        None
    }

    /// Its number.
    pub fn number(&self) -> u32
        ensures { result ≡ self.now }
    {
        self.number
    }

    /// Named by no page.
    pub fn double(&self) -> u32
        ensures { result ≡ IsSmall }
    {
        0
    }

    fn inner(&self) -> u32 {
        0
    }
}

/// Shows.
pub trait Show {
    /// Is shown.
    fn show(&self)
        ensures { shows self.now };

    /// Is hidden.
    fn hide(&self);
}
""",
    "crates/halves/must-fail/rounds_up.edit": """\
does: rounds up
promise: a half is rounded down
file: src/number.rt
old: None
new: Some(1)
""",
    "crates/wholes/must-fail/forgets.edit": """\
promise: Numbers stay
file: src/number.rt
old: 0
new: 1
""",
    "crates/wholes/src/main.rt": """\
//! Wholes: two halves each, so that this sentence,
//! which is longer than a row has room for, ends where it may. Another sentence.

fn main() {}
""",
    "crates/tests_wholes/src/lib.rt": "//! Tests.\n\n/// Not promised.\npub fn test()\n{}\n",
    "docs/LIBRARY.md": "`Number::halve(limit)` and `number`, and of a `Show` its `show`, `hide` and Number::double.\n",
    "docs/PROOF.md": """\
# Proof

|Guarantee|Call|
|---|---|
|it is no guarantee|it comes before they begin|

## Guarantees

|What|Why|
|---|---|
|it is no guarantee|its head says so|

### Halves

|Guarantee|Call|
|---|--:|
|Numbers stay; a half is rounded down|`halve`|
|it is known whether a number has a half|`whole_half`|

None is a guarantee without a table.

### Laws

| Guarantee | Call |
|---|---|
| twice a half is a whole | |

## Tested

|Guarantee|Test|
|---|---|
|it is no guarantee|they have ended|
""",
}
UNTRIED = """\
# By hand

## Guarantees without a mutant

|Guarantee|Why|
|---|---|
|whether a number has a half|it is a law|
|twice a half|it is a law|

## More

| Slip | Test |
|---|---|
| a slip | a test |
"""
DEFINITIONS = """
[Halves, and wholes](#halves-and-wholes)

## Halves, and wholes

### `halves`

**[Half](../../crates/halves/specs/Half.antt)**: What a half is.

- `half`: the half of a number, rounded down
- `whole_half`, `shared`: the same, where a number has one
- `IsSmall`: below ten
- `Kind`: how a number stands
"""
CONTRACTS = """
[Halves, and wholes](#halves-and-wholes)

## Halves, and wholes

### `halves`

- `Number::halve`: Its half, if it has one.
  Requires *small*, `Kind`; ensures `whole_half`, *again* (`shared`).
- `Number::number`: Its number.
  Ensures `result ≡ self.now`.
- `Show::show`: Is shown.
  Ensures `shows self.now`.
- `Show::hide`: Is hidden.
  No clause.
"""
MUTANTS = """
## Halves

|Guarantee|Mutant|Crate|
|---|---|---|
|Numbers stay|`forgets`|`wholes`|
|a half is rounded down|`rounds_up`|`halves`|
"""
CRATES = """\
# Crates

`tools/make_pages` makes this table from the floors in [crates.txt](../crates.txt), the lowest first, and the comment at
the head of each crate.

|Floor|Crate|What it is|
|---|---|---|
|Halves, and wholes|`halves`|Halves|
||`wholes`|Wholes: two halves each, so that this sentence, which is longer than a row has room for|
|Tests, benchmarks and an example|`tests_wholes`|Tests|
"""


class MakePages(unittest.TestCase):
    def setUp(self) -> None:
        self.top = Path(tempfile.mkdtemp()).resolve()
        self.addCleanup(shutil.rmtree, self.top)
        for name, text in FILES.items():
            self.write(name, text)
        self.write(PAGE, UNTRIED)
        tools = self.top / "tools"
        for package in ("base", "lists"):
            shutil.copytree(TOP / "tools" / package, tools / package)
        shutil.copy(TOP / "tools" / "make_pages", tools)

    def write(self, name: str, text: str) -> None:
        path = self.top / name
        path.parent.mkdir(parents=True, exist_ok=True)
        path.write_text(text, encoding="utf-8")

    def make(self, *words: str) -> subprocess.CompletedProcess[str]:
        command = [sys.executable, str(self.top / "tools" / "make_pages"), *words]
        return subprocess.run(command, capture_output=True, text=True, check=False)

    def page(self, name: str) -> str:
        return (self.top / name).read_text(encoding="utf-8")

    def files(self) -> dict[Path, str]:
        return {path: path.read_text(encoding="utf-8") for path in self.top.rglob("*") if path.suffix == ".md"}

    def test_the_table_of_crates_is_made_and_nothing_else(self) -> None:
        self.write(TABLE, "old\n")
        before = self.files()
        self.assertEqual(self.make().returncode, 0)
        self.assertEqual(self.files(), {**before, self.top / TABLE: CRATES})

    def test_lists_are_made_in_a_folder_and_nowhere_else(self) -> None:
        before = self.files()
        folder = self.top / "made/lists"
        self.assertEqual(self.make(str(folder)).returncode, 0)
        for (name, title), made in zip(LISTS.items(), (DEFINITIONS, CONTRACTS, MUTANTS)):
            page = self.page(f"made/lists/{name}")
            self.assertTrue(page.startswith(f"# {title}\n"))
            self.assertTrue(page.endswith(f"\n{made}"))
            self.assertIn("](../../docs/PROOF.md", page)
        self.assertEqual({path: text for path, text in self.files().items() if path.parent != folder}, before)

    def test_made_pages_are_as_they_should_be(self) -> None:
        self.make()
        checked = self.make("--check")
        self.assertEqual((checked.returncode, checked.stderr), (0, ""))
        for name in LISTS:
            self.assertIn(f"{name} is made: ", checked.stdout)

    def test_a_folder_is_not_checked(self) -> None:
        self.assertEqual(self.make("--check", str(self.top / "made")).returncode, 2)

    def test_the_first_difference_is_printed_and_nothing_written(self) -> None:
        self.make()
        page = self.page(TABLE).replace("|Halves|", "|Half|").replace("|Tests|", "|Test|")
        self.write(TABLE, page)
        checked = self.make("--check")
        printed = f"{TABLE}:8: would be `|Halves, and wholes|`halves`|Halves|`; tools/make_pages writes it\n"
        self.assertEqual((checked.returncode, checked.stderr), (1, printed))
        self.assertEqual(self.page(TABLE), page)

    def test_a_line_too_many_is_printed(self) -> None:
        self.make()
        self.write(TABLE, self.page(TABLE) + "more\n")
        self.assertIn(f"{TABLE}:11: would not be there", self.make("--check").stderr)

    def test_a_lacking_table_is_made_and_its_lack_is_printed(self) -> None:
        self.assertIn(f"{TABLE}:1: would be `# Crates`", self.make("--check").stderr)
        self.assertFalse((self.top / TABLE).exists())
        self.assertEqual(self.make().returncode, 0)
        self.assertEqual(self.page(TABLE), CRATES)

    def assert_untold(self, fault: str) -> None:
        self.write(TABLE, CRATES)
        checked = self.make("--check")
        self.assertEqual((checked.returncode, checked.stderr), (1, f"{fault}\n"))

    def test_an_edit_names_its_guarantee(self) -> None:
        edit = "crates/halves/must-fail/rounds_up.edit"
        self.write(edit, FILES[edit].replace("promise: ", ""))
        self.assert_untold(f"{edit} has not one line `promise: ..`")

    def test_an_edit_names_one_guarantee(self) -> None:
        edit = "crates/halves/must-fail/rounds_up.edit"
        for words, count in ("it is no guarantee", 0), ("a half", 3):
            self.write(edit, FILES[edit].replace("a half is rounded down", words))
            self.assert_untold(f"{edit}: {count} guarantees of docs/PROOF.md have the words `{words}`, and not one")

    def test_a_guarantee_without_an_edit_is_listed(self) -> None:
        self.write(PAGE, UNTRIED.replace("|twice a half|it is a law|\n", ""))
        fault = f"{PAGE} doesn't list a guarantee without an edit under `Guarantees without a mutant`"
        self.assert_untold(f"{fault}: twice a half is a whole")

    def test_a_guarantee_with_an_edit_is_not_listed(self) -> None:
        self.write(PAGE, UNTRIED.replace("twice a half", "rounded down"))
        fault = f"{PAGE} lists a guarantee with an edit under `Guarantees without a mutant`"
        self.assert_untold(f"{fault}: Numbers stay; a half is rounded down")


if __name__ == "__main__":
    unittest.main()
