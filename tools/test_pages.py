#!/usr/bin/env python3
"""Tests of tools/check_pages.py and tools/law_tree, over a small repository."""
import contextlib
import importlib.machinery
import importlib.util
import io
import pathlib
import sys
import tempfile
import unittest

import check_pages

TOOLS = pathlib.Path(__file__).resolve().parent
LOW = """
/// Not a law: it does something.
pub fn doubled(number: u64) -> u64
    ensures { result ≡ number + number }
{
    number + number
}
pub fn low_stands() ensures ok { {0} ≡ {0} } {}
pub fn low_falls()
    requires { true ≡ true }
    ensures { true ≡ true }
{
    // doubled(1);
}
pub enum Kind { Whole }
"""
HIGH = """
use rh_low::{Kind, low_stands as stands};
ghost use Rattle.rh_low.specs.Facts.{low_falls};
mod own;
pub fn headline() ensures { true ≡ true }
{
    stands();
    rh_low::low_falls();
    middle::<Kind>();
}
pub fn middle<K>() where K: Sized { stands(); own::deepest() }
pub fn works() { rh_low::doubled(1); }
"""
PAGE = """# A page
[low](crates/rh_low/src/lib.rt) and [below](#two-words), `rh_low`, `headline()`, `rt ci`
| Laws hold | `rh_low`: `low_stands`, `Kind::Whole` and `is_whole`. `headline` |
## Two words
```sh
./page.md crates/NAME/src crates/rh_low/out/x && cat crates/*/src
```
`rh_high::headline`, `u64`, `rh_low`: they hold `headline`
"""
WRONG = """[a](crates/rh_lower) [b](#none)
`rh_lower` `crates/rh_low/lib.rt` `low_stood` `rh_low::headline` `rh_up::headline`
| `rh_low`: `headline` |
```
crates/*/lib.rt ./there
```
"""
TREE = """\
headline  crates/law_high/src/lib.rt
|- low_stands  crates/rh_low/src/lib.rt
|- low_falls  crates/rh_low/src/lib.rt
`- middle  crates/law_high/src/lib.rt
   |- low_stands  crates/rh_low/src/lib.rt
   `- deepest  crates/law_high/src/own.rt
"""


def law_tree():
    loader = importlib.machinery.SourceFileLoader("law_tree", f"{TOOLS}/law_tree")
    module = importlib.util.module_from_spec(importlib.util.spec_from_loader("law_tree", loader))
    loader.exec_module(module)
    return module


class Names(unittest.TestCase):
    def setUp(self):
        self.room = tempfile.TemporaryDirectory()
        self.addCleanup(self.room.cleanup)
        self.top = pathlib.Path(self.room.name).resolve()
        files = {
            "crates.txt": "# crates\nrh_low: hex\nrh_high: rh_low\nlaw_high: rh_low\n",
            "crates/rh_low/src/lib.rt": LOW,
            "crates/rh_low/specs/Facts.antt": "abbrev pub is_whole : Type 0\n-- low_stood\n",
            "crates/law_high/src/lib.rt": HIGH,
            "crates/law_high/src/own.rt": "pub(crate) fn deepest() ensures { true ≡ true } {}\n",
            "crates/rh_high/src/lib.rt": "pub use law_high::headline;\n",
        }
        for name, text in files.items():
            (self.top / name).parent.mkdir(parents=True, exist_ok=True)
            (self.top / name).write_text(text)

    def wrong_in(self, text):
        check_pages.TOP = self.top
        for it in (check_pages.crates, check_pages.code_of, check_pages.all_words):
            it.cache_clear()
        check_pages.headings.cache_clear()
        page = self.top / "page.md"
        page.write_text(text)
        return [(number, name) for number, name, _ in check_pages.wrong_in(page)]

    def test_a_page_whose_names_are_there(self):
        self.assertEqual(self.wrong_in(PAGE), [])

    def test_each_name_that_is_not_there(self):
        self.assertEqual(self.wrong_in(WRONG), [
            (1, "crates/rh_lower"), (1, "#none"), (2, "rh_lower"), (2, "crates/rh_low/lib.rt"),
            (2, "low_stood"), (2, "rh_low::headline"), (2, "rh_up::headline"), (3, "headline"),
            (5, "crates/*/lib.rt"), (5, "./there")])

    def tree(self, *words):
        module, told = law_tree(), io.StringIO()
        module.TOP, sys.argv = self.top, ["law_tree", *words]
        with contextlib.redirect_stdout(told), contextlib.redirect_stderr(told):
            status = module.main()
        return status, told.getvalue()

    def test_the_tree_of_laws(self):
        self.assertEqual(self.tree("law_high::headline"), (0, TREE))
        first = TREE.splitlines(True)[0]
        self.assertEqual(self.tree("headline", "--depth", "0"), (0, first))
        self.assertEqual(self.tree("--roots"), (0, first))

    def test_what_does_something_is_no_law(self):
        for name in ("doubled", "works", "rh_low::headline"):
            self.assertEqual(self.tree(name)[0], 1)


if __name__ == "__main__":
    unittest.main()
