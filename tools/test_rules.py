#!/usr/bin/env python3
"""Tests that the rules of tools/walking.py cite clauses that stand in the sources, and each of them.

A clause is a field of the record Claims, or a field of a record that such a field names, as in
ordered.in_order. The tables of docs/TESTS.md are compared with the rules as well.
"""
import functools
import pathlib
import re
import unittest

from walking import ALL, OVER_WORLDS

TOP = pathlib.Path(__file__).resolve().parent.parent
PAGE = TOP / "docs/TESTS.md"
CLAIMS = "Claims"


def records_in(text):
    """The records that are defined in a text, by their names, each as (field, its type) pairs."""
    plain = re.sub(r"^\s*--.*\n", "", text, flags=re.M)
    for name, body in re.findall(r"^pub record (\w+)(.*?)^(?=\S|\Z)", plain + "\n", re.M | re.S):
        parts = re.split(r"^  pub (\w+) :", body, flags=re.M)[1:]
        yield name, dict(zip(parts[::2], parts[1::2]))


@functools.lru_cache(maxsize=None)
def all_records():
    """The records of all crates, by their names; those that have one name together."""
    found = {}
    for file in sorted(TOP.glob("crates/*/specs/**/*.antt")):
        for name, fields in records_in(file.read_text()):
            found.setdefault(name, []).append(fields)
    return found


def fields_of(record):
    """The fields of the one record that has this name, each with its type."""
    found = all_records().get(record, [])
    return found[0] if len(found) == 1 else {}


def records_of(kind):
    """The records that a type names, each with its fields."""
    found = {name: fields_of(name) for name in re.findall(r"\b[A-Z]\w+", kind)}
    return {name: fields for name, fields in found.items() if fields}


def amiss(clauses, over_worlds):
    """What is wrong with the clauses that rules cite, and with the other fields of Claims."""
    claims = fields_of(CLAIMS)
    cited = {}
    for clause in clauses:
        field, _, inner = clause.partition(".")
        cited.setdefault(field, set()).add(inner)
    for field in sorted({*cited, *over_worlds} - set(claims)):
        yield f"{CLAIMS} has no field {field}"
    for field in sorted(set(claims) - {*cited, *over_worlds}):
        yield f"{CLAIMS}.{field} has no rule, and isn't said to be of worlds"
    for field in sorted(set(cited) & set(over_worlds)):
        yield f"{CLAIMS}.{field} has a rule, and is said to be of worlds"
    for field in sorted(set(cited) & set(claims)):
        yield from amiss_in(field, cited[field] - {""}, records_of(claims[field]))


def amiss_in(field, inner, records):
    """What is wrong with the fields that are cited of the records which a field of Claims names."""
    there = {name for fields in records.values() for name in fields}
    for name in sorted(inner - there):
        yield f"what {CLAIMS}.{field} says has no field {name}"
    for record, fields in records.items():
        for name in sorted(set(fields) - inner if inner & set(fields) else ()):
            yield f"{record}.{name} has no rule"


def rows(page, heading):
    """The rows of a table of a page whose first column has this heading, as cells."""
    lines = page.split("\n")
    begin = [at for at, line in enumerate(lines) if line.startswith(f"| {heading} |")]
    for line in lines[begin[0] + 2 :] if begin else ():
        if not line.startswith("|"):
            return
        yield [cell.strip() for cell in line.strip("|").split("|")]


class Rules(unittest.TestCase):
    def test_clauses(self):
        clauses = [rule.clause for rule in ALL.values() if rule.clause]
        self.assertEqual(list(amiss(clauses, OVER_WORLDS)), [])

    def test_reasons(self):
        for rule in ALL.values():
            self.assertEqual(rule.clause is None, rule.reason is not None, rule.name)

    def test_order(self):
        cited = {rule.clause for rule in ALL.values()}
        self.assertTrue(fields_of("IsOrdered"))
        self.assertLessEqual({f"ordered.{field}" for field in fields_of("IsOrdered")}, cited)

    def test_page(self):
        page = PAGE.read_text()
        wanted = [
            [f"`{rule.name}`", f"`{rule.clause}`" if rule.clause else "none", rule.sentence]
            for rule in ALL.values()
        ]
        self.assertEqual(list(rows(page, "Rule")), wanted)
        wanted = [[f"`{field}`", what] for field, what in OVER_WORLDS.items()]
        self.assertEqual(list(rows(page, "Clause")), wanted)


class Mistakes(unittest.TestCase):
    """What is told where a name has rotted."""

    def setUp(self):
        self.clauses = [rule.clause for rule in ALL.values() if rule.clause]

    def check(self, said, clauses, over_worlds=OVER_WORLDS):
        self.assertEqual(list(amiss(clauses, over_worlds)), said)

    def test_field_that_is_gone(self):
        self.check(["Claims has no field onc"], [*self.clauses, "onc"])
        self.check(["Claims has no field gone"], self.clauses, [*OVER_WORLDS, "gone"])

    def test_inner_field_that_is_gone(self):
        said = ["what Claims.ordered says has no field in_turn"]
        self.check(said, [*self.clauses, "ordered.in_turn"])
        self.check(["what Claims.once says has no field told"], [*self.clauses, "once.told"])

    def test_field_without_a_rule(self):
        rest = [it for it in self.clauses if it != "once"]
        self.check(["Claims.once has no rule, and isn't said to be of worlds"], rest)
        rest = [it for it in self.clauses if it != "ends.told"]
        self.check(["EndsForGood.told has no rule"], rest)

    def test_field_with_a_rule_and_of_worlds(self):
        said = ["Claims.once has a rule, and is said to be of worlds"]
        self.check(said, self.clauses, [*OVER_WORLDS, "once"])

    def test_fields(self):
        text = "pub record Fits : Type 0 where\n  -- its pub wrong : one\n  pub first : One\n"
        text += "      → Two\n  pub next : One\npub record Other : Type 0 where\n  pub more : One\n"
        found = dict(records_in(text))
        self.assertEqual(list(found), ["Fits", "Other"])
        self.assertEqual(found["Fits"], {"first": " One\n      → Two\n", "next": " One\n"})
        self.assertEqual({name: it.strip() for name, it in found["Other"].items()}, {"more": "One"})


if __name__ == "__main__":
    unittest.main()
