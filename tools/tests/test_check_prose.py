#!/usr/bin/env python3
"""Runs tools/check_prose on small pages.

    python3 tools/tests/test_check_prose.py
"""

from __future__ import annotations

import shutil
import subprocess
import sys
import tempfile
import unittest
from pathlib import Path

TOP = Path(__file__).resolve().parents[2]
LONG = " ".join(["word"] * 36)
README = """\
# Read `me`, first

A page ([another](docs/OTHER.md#a-part-and-more), [itself](#read-me-first)). `told` is one line.

![A picture](docs/OTHER.md) and [far](https://example.org/no#where).
"""
OTHER = f"""\
# A part: and more
# Same
# Same

| {LONG} |
|---|

    $ {LONG} [code](code.md)

```
{LONG} [fenced](fenced.md)
# No heading
```

- {LONG[5:]}
- {LONG[5:]}. `It` is [up](../README.md).

`[span](span.md)` [second](#same-1)
"""


class CheckProse(unittest.TestCase):
    def setUp(self) -> None:
        self.top = Path(tempfile.mkdtemp())
        self.addCleanup(shutil.rmtree, self.top)
        shutil.copytree(TOP / "tools" / "pages", self.top / "tools" / "pages")
        shutil.copy(TOP / "tools" / "check_prose", self.top / "tools")
        for name in ("docs/x", "examples/README.md", "tools/tests/README.md"):
            self.write(name, "")
        self.write("README.md", README)
        self.write("docs/OTHER.md", OTHER)

    def write(self, name: str, text: str) -> None:
        path = self.top / name
        path.parent.mkdir(parents=True, exist_ok=True)
        path.write_text(text, encoding="utf-8")

    def check(self) -> tuple[int, list[str], str]:
        command = [sys.executable, str(self.top / "tools" / "check_prose")]
        done = subprocess.run(command, capture_output=True, text=True, check=False)
        return done.returncode, done.stderr.splitlines(), done.stdout

    def test_pages_without_a_fault(self) -> None:
        counts = "prose: 6 links, 7 sentences, 1 lines with words to avoid; 0 faults\n"
        self.assertEqual(self.check(), (0, [], counts))

    def test_links_that_lead_nowhere(self) -> None:
        self.write("examples/README.md", "\n[a](../docs/NONE.md) [b](../docs/OTHER.md#no-heading)\n[c](#none)\n")
        faults = ["2: no such file: ../docs/NONE.md", "2: no such heading: ../docs/OTHER.md#no-heading", "3: no such heading: #none"]
        status, found, _ = self.check()
        self.assertEqual((status, found), (1, [f"examples/README.md:{fault}" for fault in faults]))

    def test_a_long_sentence_over_two_lines(self) -> None:
        self.write("docs/OTHER.md", f"# A part: and more\n\nShort. W{LONG[6:]}\n[two words](OTHER.md), `more`.\n")
        status, found, _ = self.check()
        self.assertEqual((status, len(found)), (1, 1))
        self.assertTrue(found[0].startswith("docs/OTHER.md:3: 38 words in a sentence: Word word"))

    def test_too_many_words_to_avoid(self) -> None:
        self.write("docs/WORDS.md", "It stands behind.\n\n" * 13)
        self.assertEqual(self.check()[0], 0)
        self.write("docs/WORDS.md", "It stands behind.\n\n" * 14)
        status, found, _ = self.check()
        self.assertEqual((status, len(found)), (1, 15))
        self.assertIn("docs/WORDS.md:1: plainer words for: stands, behind", found)


if __name__ == "__main__":
    unittest.main()
