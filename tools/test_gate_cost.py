#!/usr/bin/env python3
"""Tests of what tools/gate_cost tells, with an rt that only plays its part."""
import json
import os
import pathlib
import subprocess
import tempfile
import unittest

import accounts

TOOLS = pathlib.Path(__file__).resolve().parent
# Its prover works for half a second of a processor, so that samples meet it on a busy machine too.
RT = """#!/usr/bin/env bash
prover() {
    cd -- "$1" && exec -a /kit/bin/rattle python3 -c '
import time
while time.process_time() < 0.5:
    pass
' build --crate-name "${@:2}"
}
echo '7 passed, 0 failed'
echo 'rt: other is kept: an earlier run proved it'
prover . low --empty-contracts &
mkdir -p "$TMPDIR/rt-edit-1-a" "$TMPDIR/rt-edit-1-b"
prover "$TMPDIR/rt-edit-1-a" low --incremental seeds/seed &
prover "$TMPDIR/rt-edit-1-b" high --incremental seeds/0 &
wait
printf 'a line that is no text: \\377\\n'
[ $# -eq 1 ] || echo 'rt: ok; done in this run: 1 of the 2 proofs and 1 of the 4 edits; the others'
echo '3 passed, 1 failed'
exit 5
"""


class GateCost(unittest.TestCase):
    def setUp(self):
        self.room = tempfile.TemporaryDirectory()
        self.addCleanup(self.room.cleanup)
        self.top = pathlib.Path(self.room.name)
        (self.top / "rt").write_text(RT)
        (self.top / "rt").chmod(0o755)
        self.log = self.top / "log"
        path = f"{self.top}:{TOOLS}:{os.environ['PATH']}"
        self.variables = {"PATH": path, "TMPDIR": str(self.top), "GATE_COST": str(self.log)}

    def call(self, command):
        how = {"capture_output": True, "cwd": self.top, "env": os.environ | self.variables}
        ran = subprocess.run(["bash", "-o", "pipefail", "-c", command], check=False, **how)
        self.assertEqual(ran.stderr, b"")
        return ran.returncode, ran.stdout.split(b"\n")

    def test_lines_pass_and_the_cost_stands_before_the_last(self):
        status, lines = self.call("rt ci | gate_cost --every 0.05; exit $?")
        self.assertEqual(status, 5)
        self.assertEqual(lines[:3], [
            b"7 passed, 0 failed", b"rt: other is kept: an earlier run proved it",
            b"a line that is no text: \xff"])
        self.assertEqual(lines[-2:], [b"3 passed, 1 failed", b""])
        self.assertTrue(all(line.startswith(b"cost: ") for line in lines[3:-2]), lines)
        self.assertIn(b"measured in this run", lines[3])
        self.assertIn(b"1 proofs of crates are kept", lines[3])

    def test_runs_are_kept_and_added_up(self):
        both = "for word in '' low; do rt ci $word | gate_cost --every 0.05; done; true"
        lines = self.call(both)[1]
        self.assertIn(b"1 of the 2 proofs and 1 of the 4 edits", b"\n".join(lines))
        one, two = map(json.loads, self.log.read_text().splitlines())
        self.assertEqual((one["words"][1:], two["words"][1:]), (["ci"], ["ci", "low"]))
        self.assertEqual(one["closing"], "3 passed, 1 failed")
        self.assertEqual(one["clone"], str(self.top.resolve()))
        took = {(crate, kind): seconds for crate, kind, seconds, _ in one["rows"]}
        for key in (("low", accounts.PROOFS), ("low", accounts.SEEDS), ("high", accounts.EDITS)):
            self.assertGreater(took[key], 0.1)
        self.assertLess(sum(took.values()), 10)
        total = self.call("gate_cost log")[1][0]
        self.assertIn(b"in 2 runs", total)
        self.assertEqual(self.call("gate_cost --of nothing log")[1][0][:9], b"cost: 0.0")
        self.assertRegex(self.call("gate_cost --proofs log")[1][0], rb"low \d+")

    def test_kinds(self):
        for words, folder, kind in [
            ("build --empty-contracts", "/a/crates/low", accounts.PROOFS),
            ("build --test --empty-contracts", "/a/crates/low", accounts.TESTS),
            ("check", "/tmp/rt-edit-7-x", accounts.EDITS),
            ("check --incremental /tmp/rt-edits-7-y/seed", "/tmp/rt-edit-7-x", accounts.SEEDS),
            ("check --incremental /tmp/rt-edits-7-y/12", "/tmp/rt-edit-7-x", accounts.EDITS),
            ("build --crate-checked x --empty-contracts", "/a/crates/app", accounts.REST),
            ("check --incremental out/incremental", "/a/crates/low", accounts.CHECKS),
        ]:
            self.assertEqual(accounts.kind_of(words.split(), folder), kind, words)


if __name__ == "__main__":
    unittest.main()
