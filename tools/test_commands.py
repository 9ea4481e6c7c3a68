#!/usr/bin/env python3
"""Tests of ./rh_cli, ./rh_roles and ./replay, with an rt and programs that only play parts."""
import os
import pathlib
import pty
import re
import shutil
import signal
import subprocess
import sys
import tempfile
import time
import unittest

import program_crates

TOP = pathlib.Path(__file__).resolve().parent.parent
SCRIPTS = ["launch", "run_program.py", "build_program.py", "prove_beside.py", "program_crates.py"]
SCRIPTS += ["given_input.py", "given_pieces.py", "teaching.py", "line_forms.py"]
PROGRAMS = ["rh_cli", "rh_roles"]
CRATES = """# crates
low: hex
middle: low hex
aside:
other: low
rh_cli: middle aside low hex
rh_roles: middle low
"""
PROGRAM = """#!/bin/sh
case "$*" in
replay | story | "story hex" | show | name | play | capture | audit)
    input="$(cat; echo .)"
    number="$(echo "$input" | grep -n bad | head -n 1 | cut -d : -f 1)"
    case "$input" in *long*) echo "input too long" >&2; exit 9 ;; esac
    [ -z "$number" ] || { echo "bad input $number" >&2; exit 2; }
    printf %s "${input%.}" ;;
"server here:1") exec cat ;;
--help) echo the page of the program ;;
--version) echo "$(basename "$0") of a test" ;;
*) echo usage >&2; exit 1 ;;
esac
"""
# An rt of which each proof takes as long as the crate's file 'slow' says, and fails at 'wrong'.
RT = """#!/usr/bin/env python3
import importlib.machinery
import importlib.util
import os
import pathlib
import shutil
import subprocess
import sys

HERE = os.path.dirname(os.path.realpath(__file__))
if os.path.isfile(f"{HERE}/rtlib.py"):
    loader = importlib.machinery.SourceFileLoader("rtlib", f"{HERE}/rtlib.py")
    rtlib = importlib.util.module_from_spec(importlib.util.spec_from_loader("rtlib", loader))
    loader.exec_module(rtlib)

def share_work(is_alone):
    pass

def prove(name):
    print(f"rt: chose --jobs 4 for {name}", flush=True)
    print("so far: 1 of 2 functions checked", flush=True)
    print(f"fn {name}::a: proved", file=sys.stderr, flush=True)
    crate = pathlib.Path(f"../{name}")
    open(f"{os.environ['TMPDIR']}/proof-of-{name}", "w").close()
    subprocess.run(["sleep", (crate / "slow").read_text() if (crate / "slow").exists() else "0"])
    if (crate / "wrong").exists():
        print((crate / "wrong").read_text(), end="", flush=True)
        sys.exit(1)
    os.remove(f"{os.environ['TMPDIR']}/proof-of-{name}")
    print(f"crate {name}: modules loaded=1 checked=1", flush=True)

if __name__ == "__main__":
    if sys.argv[1] == "try":
        print("run=ended status=0 proved=no", file=sys.stderr)
        os.execv("../../program", ["program", *sys.argv[3:]])
    for name in ["low", "middle", "aside"]:
        if not os.path.exists(f"../{name}/out/rlib/stamp"):
            prove(name)
            os.makedirs(f"../{name}/out/rlib")
            open(f"../{name}/out/rlib/stamp", "w").close()
    program = os.path.basename(os.getcwd())
    prove(program)
    shutil.copy("../../program", f"out/{program}")
    with open("../../proofs", "a") as file:
        file.write(f"{program}\\n")
"""
# What tools/prove_beside.py uses of the kit's own code.
RTLIB = """
import os
import pathlib
import time

def guarded():
    return []

def root_above(folder):
    return os.path.dirname(os.path.dirname(folder))

def lock(crates):
    return []

def fits(*needs):
    return True

class Crate:
    def __init__(self, folder, root, known):
        self.folder, self.name = folder, os.path.basename(folder)
        lines = pathlib.Path(root, "crates.txt").read_text().splitlines()
        listed = dict(line.split(":") for line in lines[1:])
        own = [it for it in listed[self.name].split() if it in listed]
        for it in own:
            known[it] = known.get(it) or Crate(f"{root}/crates/{it}", root, known)
        self.deps = [known[it] for it in own]
        self.stamp = pathlib.Path(folder, "out/rlib/stamp")

    def below(self):
        found = []
        for dep in self.deps:
            found += [it for it in [*dep.below(), dep] if it not in found]
        return found

    def is_built(self):
        return self.stamp.exists()

    def need(self):
        return 0

    def build_rlib(self, flags, anew):
        slow, wrong = pathlib.Path(self.folder, "slow"), pathlib.Path(self.folder, "wrong")
        print("so far: 3 of 4 functions checked", file=self.out, flush=True)
        pathlib.Path(os.environ["TMPDIR"], self.name).touch()
        if pathlib.Path(self.folder, "beside").exists():
            other = pathlib.Path(self.folder, "beside").read_text()
            while not pathlib.Path(os.environ["TMPDIR"], other).exists():
                time.sleep(0.05)
        time.sleep(float(slow.read_text()) if slow.exists() else 0)
        if wrong.exists():
            print(wrong.read_text(), end="", file=self.out)
            return 1
        self.stamp.parent.mkdir(parents=True)
        self.stamp.touch()
        with open(os.path.join(self.folder, "../../proofs"), "a") as file:
            file.write(self.name + "\\n")
        return 0
"""


class Commands(unittest.TestCase):
    def setUp(self):
        self.room = tempfile.TemporaryDirectory()
        self.addCleanup(self.room.cleanup)
        self.top = pathlib.Path(self.room.name).resolve() / "a top"
        for name in ("rh_cli", "rh_roles", "replay", *[f"tools/{it}" for it in SCRIPTS]):
            (self.top / name).parent.mkdir(parents=True, exist_ok=True)
            shutil.copy(TOP / name, self.top / name)
        (self.top / "crates.txt").write_text(CRATES)
        for crate in ("low", "middle", "aside", "other", "rh_cli", "rh_roles"):
            for name in ("src", "specs", "proofs"):
                (self.top / "crates" / crate / name).mkdir(parents=True)
            (self.top / "crates" / crate / "src/lib.rt").write_text(f"// {crate}\n")
        (self.top / "recording").write_text("rh 1 direct\n")
        (self.top / "tmp").mkdir()
        for name, text in (("program", PROGRAM), ("bin/rt", RT), ("bin/rtlib.py", RTLIB)):
            (self.top / name).parent.mkdir(exist_ok=True)
            (self.top / name).write_text(text)
            (self.top / name).chmod(0o755)
        path = f"{self.top / 'bin'}:{os.environ['PATH']}"
        self.variables = os.environ | {"PATH": path, "TMPDIR": str(self.top / "tmp")}

    def run_it(self, *words, text="", folder=None, **variables):
        how = {"input": text, "capture_output": True, "text": True, "check": False}
        return subprocess.run(words, **how, cwd=folder or self.top, env=self.variables | variables)

    def begin(self, *words, **how):
        how = {"cwd": self.top, "env": self.variables, "stdin": subprocess.DEVNULL} | how
        child = subprocess.Popen(words, **how)
        self.addCleanup(child.wait)
        self.addCleanup(child.kill)
        return child

    def check(self, done, output, error, status):
        self.assertEqual((done.stdout, done.stderr, done.returncode), (output, error, status))

    def build(self):
        self.assertEqual(self.run_it("./rh_cli", "--version").stdout, "rh_cli of a test\n")

    def crate(self, name, file, text=""):
        path = self.top / "crates" / name / file
        path.write_text(text)
        return path

    def proofs(self):
        """What was proved since the last call."""
        path = self.top / "proofs"
        found = path.read_text().split() if path.exists() else []
        path.unlink(missing_ok=True)
        return found

    def left_behind(self):
        """What a build left that is neither a library nor the program."""
        kept = {"rlib", "stamp", *(f"{it}{end}" for it in PROGRAMS for end in ("", ".sources"))}
        found = [*(self.top / "tmp").iterdir(), *self.top.glob("crates/*/out/**/*")]
        return [it for it in found if it.name not in kept]


class Build(Commands):
    def test_it_tells_what_it_does_and_how_far_it_is(self):
        done = self.run_it("./rh_cli", "--version")
        lines = done.stderr.split("\n")
        self.assertEqual(lines[0], "rh_cli: proving and building the program: 4 crates")
        self.assertRegex(lines[1], r"^rh_cli: this takes about 1 minute where \d+ processors? ha")
        self.assertTrue(lines[2].startswith("rh_cli: --unproved before the words "))
        steps = [re.sub(r" after .*", "", line) for line in lines[3:]]
        wanted = [f"rh_cli: {number} of 4 crates done" for number in (1, 2, 3, 4)]
        self.assertEqual(steps, [*wanted, ""])
        self.assertEqual(self.run_it("./rh_cli", "--version").stderr, "")
        self.assertEqual(self.left_behind(), [])

    def test_a_kit_of_another_form_proves_one_after_the_other(self):
        (self.top / "bin/rtlib.py").unlink()
        lines = self.run_it("./rh_cli", "--version").stderr.split("\n")
        self.assertEqual(lines[0], "rh_cli: proving and building the program: 4 crates")
        self.assertIn("rh_cli: 4 of 4 crates done", lines[-2])
        (self.top / "bin/rtlib.py").write_text(RTLIB.replace("def lock", "def locked"))
        self.crate("low", "src/lib.rt", "// changed\n")
        self.assertIn("4 of 4", self.run_it("./rh_cli", "--version").stderr)
        self.assertEqual(self.left_behind(), [])

    def test_independent_crates_are_proved_side_by_side(self):
        if program_crates.processors() < 2:
            self.skipTest("there is one processor")
        # Each ends only once the other has begun.
        self.crate("low", "beside", "aside")
        self.crate("aside", "beside", "low")
        self.build()
        self.assertEqual(sorted(self.proofs()), ["aside", "low", "middle", "rh_cli"])

    def test_progress_on_a_terminal_is_one_line_that_moves(self):
        main, side = pty.openpty()
        self.crate("middle", "slow", "1.5")
        child = self.begin("./rh_cli", "--version", stdout=subprocess.DEVNULL, stderr=side)
        os.close(side)
        self.assertEqual(child.wait(), 0)
        lines = os.read(main, 65_536).decode().replace("\r\n", "\n").rstrip("\n").split("\n")
        os.close(main)
        self.assertEqual(len(lines), 4)
        steps = [step.removesuffix("\x1b[K") for step in lines[3].split("\r")[1:]]
        self.assertTrue(any(it.endswith(": middle (3 of 4 functions)") for it in steps), steps)
        self.assertRegex(steps[-1], r"^rh_cli: 4 of 4 crates done after 0:\d\d; linking$")

    def test_the_first_line_comes_at_once_and_others_follow(self):
        self.crate("low", "slow", "11")
        begun = time.monotonic()
        how = {"stderr": subprocess.PIPE, "stdout": subprocess.DEVNULL, "text": True}
        child = self.begin("./rh_cli", "--version", **how)
        with child.stderr:
            child.stderr.readline()
            self.assertLess(time.monotonic() - begun, 5)
            times = [begun]
            for line in child.stderr:
                times.append(time.monotonic())
        waits = [two - one for one, two in zip(times, times[1:])]
        self.assertLess(max(waits), 10.5)
        self.assertIn("4 of 4", line)

    def stop_and_go_on(self, number):
        self.crate("middle", "slow", "60")
        how = {"stderr": subprocess.PIPE, "text": True, "start_new_session": True}
        child = self.begin("./rh_cli", "--version", **how)
        with child.stderr:
            for line in child.stderr:
                if "2 of 4" in line:
                    break
            # From the keyboard it comes to all that runs, else to the command alone.
            (os.killpg if number == signal.SIGINT else os.kill)(child.pid, number)
            last = child.stderr.read().split("\n")[-2]
        self.assertEqual(child.wait(), -number)
        self.assertEqual(last, "rh_cli: stopped; the next call goes on from here")
        self.assertEqual(self.left_behind(), [])
        self.assertEqual(sorted(self.proofs()), ["aside", "low"])
        self.crate("middle", "slow", "0")
        first = self.run_it("./rh_cli", "--version").stderr.split("\n")[0]
        self.assertTrue(first.endswith(": 4 crates, of which 2 are proved"), first)
        self.assertEqual(self.proofs(), ["middle", "rh_cli"])

    def test_an_interrupt_leaves_no_file_and_the_next_call_goes_on(self):
        self.stop_and_go_on(signal.SIGINT)

    def test_so_does_the_end_by_another_signal(self):
        self.stop_and_go_on(signal.SIGTERM)

    def test_two_calls_build_it_once(self):
        self.crate("low", "slow", "1")
        one = self.begin("./rh_cli", "--version", stdout=subprocess.PIPE, stderr=subprocess.PIPE)
        two = self.run_it("./rh_cli", "--version")
        told = one.communicate()
        self.assertEqual((two.stdout, told[0]), ("rh_cli of a test\n", b"rh_cli of a test\n"))
        self.assertEqual(self.proofs().count("rh_cli"), 1)


class Sources(Commands):
    def is_built_anew(self):
        self.proofs()
        self.build()
        return self.proofs() != []

    def test_a_touched_file_is_not_newer_and_a_changed_one_is(self):
        self.build()
        source = self.top / "crates/low/src/lib.rt"
        os.utime(source, (time.time() + 3600,) * 2)
        self.assertFalse(self.is_built_anew())
        before = source.stat()
        source.write_text("// LOW\n")
        os.utime(source, ns=(before.st_atime_ns, before.st_mtime_ns))
        self.assertTrue(self.is_built_anew())

    def test_files_that_come_and_go_count(self):
        self.build()
        new = self.crate("aside", "specs/New.antt")
        self.assertTrue(self.is_built_anew())
        new.rename(new.with_name("Other.antt"))
        self.assertTrue(self.is_built_anew())
        new.with_name("Other.antt").unlink()
        self.assertTrue(self.is_built_anew())
        self.assertFalse(self.is_built_anew())

    def test_what_is_not_below_the_program_does_not_count(self):
        self.build()
        self.crate("other", "src/lib.rt", "// changed\n")
        self.crate("low", "note.md", "beside the sources\n")
        (self.top / "crates.txt").write_text(CRATES.replace("other: low", "other: low hex"))
        self.assertFalse(self.is_built_anew())
        (self.top / "crates.txt").write_text(CRATES.replace("aside:", "aside: hex"))
        self.assertTrue(self.is_built_anew())

    def test_a_program_that_is_gone_is_built(self):
        self.build()
        (self.top / "crates/rh_cli/out/rh_cli").unlink()
        self.assertTrue(self.is_built_anew())

    def test_what_the_gate_built_is_taken_where_the_sources_are_the_same(self):
        total = self.run_it("tools/build_program.py", "--sources").stdout.strip()
        for name in PROGRAMS:
            out = self.top / "crates" / name / "out"
            out.mkdir()
            shutil.copy(self.top / "program", out / name)
        self.run_it("tools/build_program.py", "--built-from", total)
        self.assertEqual(self.run_it("./rh_roles", "--version").stdout, "rh_roles of a test\n")
        self.assertEqual(self.proofs(), [])
        self.assertFalse(self.is_built_anew())
        self.crate("low", "src/lib.rt", "// changed\n")
        self.run_it("tools/build_program.py", "--built-from", total)
        self.assertTrue(self.is_built_anew())


class Failures(Commands):
    def fails(self, crate, text="", **variables):
        if crate:
            errors = [f"line {number} of the error\n" for number in range(1, 23)]
            self.crate(crate, "wrong", "".join(errors) + text)
        done = self.run_it("./rh_cli", "--version", **variables)
        self.assertEqual((done.stdout, done.returncode), ("", 1))
        return done.stderr.split("\n")

    def log_in(self, line, where):
        self.assertTrue(line.startswith(where), line)
        return pathlib.Path(line.removeprefix(where)).read_text()

    def test_a_proof_that_fails_is_named_with_the_end_of_its_log(self):
        lines = self.fails("middle")
        wanted = [f"line {number} of the error" for number in range(3, 23)]
        self.assertEqual(lines[-22:-2], wanted)
        where = "rh_cli: middle was not proved, so the program was not built; the whole log is "
        self.assertIn("so far: 3 of 4", self.log_in(lines[-2], where))

    def test_a_program_that_fails_is_told_with_the_end_of_the_log(self):
        lines = self.fails("rh_cli")
        self.assertEqual(lines[-3], "line 22 of the error")
        where = "rh_cli: the program was not built; the whole log is "
        self.assertIn("line 1 of the error", self.log_in(lines[-2], where))

    def test_a_full_disk_is_told(self):
        lines = self.fails("low", "error: No space left on device (os error 28)\n")
        self.assertIn("was not built: the disk is full; the whole log is ", lines[-2])

    def test_no_rt_is_told(self):
        bare = self.top / "bare"
        bare.mkdir()
        for name in ("bash", "dirname", "readlink"):
            (bare / name).symlink_to(shutil.which(name))
        (bare / "python3").symlink_to(sys.executable)
        self.assertIn("rh_cli: no command rt", self.fails("", PATH=str(bare))[-2])
        done = self.run_it("./rh_cli", "--unproved", "show", PATH=str(bare))
        self.assertEqual((done.stdout, done.returncode), ("", 1))
        self.assertIn("no command rt", done.stderr)
        (bare / "python3").unlink()
        self.assertIn("no command python3", self.fails("", PATH=str(bare))[0])


class Words(Commands):
    def test_unproved(self):
        for words in ("./rh_cli --unproved replay".split(), "./replay --unproved recording".split()):
            done = self.run_it(*words, text="rh 1 direct\n")
            self.assertEqual((done.stdout, done.returncode), ("rh 1 direct\n", 0))
            told, end = done.stderr.splitlines()
            self.assertTrue(told.startswith("rh_cli: nothing of this is proved"))
            self.assertEqual(end, "run=ended status=0 proved=no")
        self.assertEqual([*self.top.glob("crates/*/out")], [])

    def test_links_and_cdpath(self):
        self.build()
        elsewhere = self.top / "elsewhere"
        elsewhere.mkdir()
        (elsewhere / "rh_cli").symlink_to("../rh_cli")
        (elsewhere / "replay").symlink_to(self.top / "replay")
        (elsewhere / "twice").symlink_to("rh_cli")
        cdpath = f"{self.top}:{elsewhere}"
        for command in ("./rh_cli", "./twice", "../rh_cli"):
            done = self.run_it(command, "show", text="05\n", folder=elsewhere, CDPATH=cdpath)
            self.check(done, "05\n", "", 0)
        for command in ("./replay", "../replay"):
            done = self.run_it(command, "../recording", folder=elsewhere, CDPATH=cdpath)
            self.check(done, "rh 1 direct\n", "", 0)
        done = self.run_it("bash", "elsewhere/replay", "recording", CDPATH=cdpath)
        self.check(done, "rh 1 direct\n", "", 0)

    def test_help(self):
        done = self.run_it("./replay", "--help")
        self.assertTrue(done.stdout.startswith("usage: ./replay [--unproved] FILE\n"))
        self.assertEqual((done.stderr, done.returncode), ("", 0))
        self.build()
        done = self.run_it("./rh_cli", "--help")
        self.check(done, "the page of the program\n", "", 0)

    def test_what_to_type_is_told_behind_usage(self):
        self.build()
        reading = "replay, story, show, name, play, capture or audit"
        types = f"type ./rh_cli WORD < FILE with {reading}, or ./rh_cli --help for more"
        cases = [
            ((), types),
            (("-h",), types),
            (("shew", "FILE"), types),
            (("show", "FILE"), "show reads standard input: type ./rh_cli show < FILE"),
            (("name", "FILE"), "name reads standard input: type ./rh_cli name < FILE"),
            (("play", "FILE"), "play reads standard input: type ./rh_cli play < FILE"),
            (("replay", "a", "b"), "replay reads standard input: type ./rh_cli replay < FILE"),
        ]
        for words, told in cases:
            done = self.run_it("./rh_cli", *words)
            self.check(done, "", f"usage\nrh_cli: {told}\n", 1)

    def test_roles(self):
        done = self.run_it("./rh_roles", "server", "here:1", text="a PDU")
        self.assertEqual((done.stdout, done.returncode), ("a PDU", 0))
        self.assertEqual(self.proofs(), ["low", "middle", "rh_roles"])
        self.check(self.run_it("./rh_roles", "--version"), "rh_roles of a test\n", "", 0)
        self.assertEqual(self.left_behind(), [])
        told = "usage\nrh_roles: type ./rh_roles --help for the words of the four roles\n"
        for words in ((), ("-h",), ("server",), ("client", "here:1")):
            self.check(self.run_it("./rh_roles", *words), "", told, 1)
        done = self.run_it("./rh_roles", "--unproved", "server", "here:1", text="a PDU")
        self.assertEqual((done.stdout, done.returncode), ("a PDU", 0))
        self.assertTrue(done.stderr.startswith("rh_roles: nothing of this is proved"))

    def test_a_signal_to_the_command_ends_the_role(self):
        self.run_it("./rh_roles", "--version")
        pipes = {"stdin": subprocess.PIPE, "stdout": subprocess.PIPE}
        role = self.begin("./rh_roles", "server", "here:1", bufsize=0, **pipes)
        with role.stdin, role.stdout:
            role.stdin.write(b"a PDU")
            self.assertEqual(role.stdout.read(5), b"a PDU")
            role.terminate()
            self.assertEqual(role.stdout.read(), b"")
        self.assertEqual(role.wait(), -signal.SIGTERM)

    def test_replay_wants_one_file(self):
        for words in ((), ("a", "b"), ("nowhere",), (".",), ("--unproved",)):
            done = self.run_it("./replay", *words)
            self.check(done, "", done.stderr, 1)
            self.assertIn("replay: ", done.stderr)


class Inputs(Commands):
    """What a word is given of standard input, and what is said of a line that is refused."""

    def setUp(self):
        super().setUp()
        self.build()

    def test_comments_and_crs_are_left_out_with_a_note(self):
        text = "rh 1 direct\r\n# a comment\r\ntake s # another\r\ntake c"
        done = self.run_it("./rh_cli", "replay", text=text)
        told = "rh_cli: left out of what replay reads: 2 comments and 3 CRs\n"
        self.check(done, "rh 1 direct\ntake s\ntake c", told, 0)
        done = self.run_it("./rh_cli", "show", text="05\n#\n")
        self.check(done, "05\n", "rh_cli: left out of what show reads: 1 comment\n", 0)

    def test_comments_of_a_script_are_its_own(self):
        text = "# one\ncase #2\nstate # three\n"
        told = "rh_cli: left out of what play reads: 1 comment\n"
        done = self.run_it("./rh_cli", "play", text=text)
        self.check(done, "# one\ncase #2\nstate\n", told, 0)

    def test_a_line_that_is_refused_is_told_with_its_place(self):
        text = "rh 1 roles\nset cwin 100 bad\n"
        said = "rh_cli: line 2: 'set cwin 100 bad': '100' is no window: 8,192 to 262,144 bytes\n"
        done = self.run_it("./rh_cli", "replay", text=text)
        self.check(done, "", "bad input 2\n" + said, 2)
        (self.top / "recording").write_text("# one\n\t# two\nrh 1 roles\n#\ntake bad\n")
        said = "rh_cli: left out of what replay reads: 3 comments\nbad input 2\n"
        said += "rh_cli: line 5: 'take bad': 'bad' is no end: c or s\n"
        self.check(self.run_it("./replay", "recording"), "", said, 2)
        done = self.run_it("./rh_cli", "--unproved", "replay", text=text)
        self.assertIn("bad input 2\nrh_cli: line 2: 'set cwin 100 bad': ", done.stderr)

    def test_contexts_stand_in_front_of_what_is_told(self):
        front = "2023-11-14T22:13:20.005000000Z 5 0 10.0.0.2:49152 > 10.0.0.9:80"
        text = f"{front} http 200 #1\n{front} 05\n0500 # of mine\n{front} 06\r\n{front} fin\n"
        wanted = f"{front} http 200 #1\n{front} 05\n0500\n{front} 06\n{front} fin\n"
        told = "rh_cli: left out of what show reads: 1 comment and 1 CR\n"
        self.check(self.run_it("./rh_cli", "show", text=text), wanted, told, 0)
        text += f"{front} rst\n{front} bad\n"
        said = f"{told}bad input 4\nrh_cli: line 7: 'bad': the line is no hex: an even number of "
        said += "hex digits, of 1 to 65,535 bytes\n"
        self.check(self.run_it("./rh_cli", "show", text=text), "", said, 2)
        with open("/dev/full", "w") as full:
            how = {"input": wanted, "stderr": subprocess.PIPE, "text": True, "check": False}
            words = ["./rh_cli", "show"]
            done = subprocess.run(words, stdout=full, cwd=self.top, env=self.variables, **how)
        self.assertEqual((done.stderr, done.returncode), ("write fault\n", 4))

    def test_inputs_of_many_pieces(self):
        line = "0" * 4_000 + "\n"
        text = line * 1_000
        self.check(self.run_it("./rh_cli", "show", text=text), text, "", 0)
        done = self.run_it("./rh_cli", "show", text=text.replace("\n", " #\r\n") + "05")
        told = "rh_cli: left out of what show reads: 1000 comments and 1000 CRs\n"
        self.check(done, text + "05", told, 0)

    def test_a_story_with_hex(self):
        told = "rh_cli: left out of what story reads: 1 comment and 1 CR\n"
        for option in "hex", "--hex":
            done = self.run_it("./rh_cli", "story", option, text="rh 1 direct # a story\r\n")
            self.check(done, "rh 1 direct\n", told, 0)
        done = self.run_it("./rh_cli", "story", "hexes", text="rh 1 direct\n")
        typed = "story reads standard input: type ./rh_cli story < FILE"
        self.check(done, "", f"usage\nrh_cli: {typed}\n", 1)

    def test_too_long_an_input_is_told_with_the_limit(self):
        hints = dict.fromkeys(("replay", "story", "capture"), "a recording is one run ")
        hints |= {"play": "cut the script in front ", "audit": "an audit is of all that was captured"}
        for word, hint in hints.items():
            done = self.run_it("./rh_cli", word, text="long\n")
            told = f"input too long\nrh_cli: {word} reads at most 67,108,864 bytes: {hint}"
            self.assertEqual((done.stdout, done.returncode), ("", 9))
            self.assertTrue(done.stderr.startswith(told), done.stderr)

    def test_a_capture_is_no_text(self):
        capture = (TOP / "examples/opening.pcap").read_bytes()
        how = {"input": capture + b"\r\n#bad", "capture_output": True, "check": False}
        done = subprocess.run(["./rh_cli", "show"], cwd=self.top, env=self.variables, **how)
        self.assertEqual((done.stdout, done.returncode), (b"", 2))
        self.assertNotIn(b"left out", done.stderr)

    def test_no_input(self):
        self.check(self.run_it("./rh_cli", "show"), "", "", 0)
        how = {"stdin": None, "stderr": subprocess.DEVNULL, "preexec_fn": lambda: os.close(0)}
        self.assertEqual(self.begin("./rh_cli", "show", **how).wait(), 0)

    def test_a_signal_ends_the_word(self):
        pipes = {"stdin": subprocess.PIPE, "stdout": subprocess.PIPE}
        child = self.begin("./rh_cli", "play", **pipes)
        with child.stdin, child.stdout:
            child.stdin.write(b"05\n")
            child.stdin.flush()
            time.sleep(1)
            child.terminate()
            self.assertEqual(child.stdout.read(), b"")
        self.assertEqual(child.wait(), -signal.SIGTERM)

    def test_the_version_has_the_commit_where_git_is_there(self):
        git = ["git", "-c", "user.name=a", "-c", "user.email=a@b", "-C", self.top]
        for words in (["init", "-q"], ["add", "rh_cli", "tools"], ["commit", "-q", "-m", "first"]):
            subprocess.run([*git, *words], check=True)
        told = self.run_it("./rh_cli", "--version").stdout
        self.assertRegex(told, r"^rh_cli of a test \([0-9a-f]{7,}\)\n$")
        with open(self.top / "rh_cli", "a") as file:
            file.write("# changed\n")
        self.assertEqual(self.run_it("./rh_cli", "--version").stdout, told.replace(")", "-dirty)"))
        # What lies in somebody else's repository has no commit of its own.
        (self.top / ".git").rename(self.top.parent / ".git")
        self.assertEqual(self.run_it("./rh_cli", "--version").stdout, "rh_cli of a test\n")


# Runs ./rh_cli with tiny pieces, of so many bytes at most.
TINY = """
import sys

import given_input
import given_pieces
import run_program

given_input.MOST_INPUT = given_pieces.MOST_INPUT = 24
given_pieces.Input.__init__.__defaults__ = (int(sys.argv[1]), 60)
sys.exit(run_program.main("rh_cli", sys.argv[2:]))
"""
FRONT = "2023-11-14T22:13:20.005000000Z 5 0 10.0.0.2:49152 > 10.0.0.9:80"


class Pieces(Commands):
    """Inputs of words that tell packets, in pieces."""

    def setUp(self):
        super().setUp()
        self.build()
        (self.top / "tools/tiny.py").write_text(TINY)
        # Each run of the program is a line of this file.
        program = self.top / "crates/rh_cli/out/rh_cli"
        program.write_text(program.read_text().replace("case", "echo >>runs\ncase", 1))

    def take_longer_lines(self):
        (self.top / "tools/tiny.py").write_text(TINY.replace("= 24", "= 1000"))

    def words(self, most):
        """The words that run it with pieces of so many bytes."""
        return [sys.executable, "-B", "tools/tiny.py", str(most)]

    def runs(self):
        """How often the program ran since the last call."""
        path = self.top / "runs"
        found = len(path.read_text().splitlines()) if path.exists() else 0
        path.unlink(missing_ok=True)
        return found

    def told(self, text, wanted, error, status, word="show"):
        """Checks what is told of a text in pieces of each size. The greatest number of runs."""
        runs = []
        for most in 1, 7, 24:
            done = self.run_it(*self.words(most), word, text=text)
            self.check(done, wanted, error, status)
            runs.append(self.runs())
        return max(runs)

    def test_what_is_told_is_that_of_one_run(self):
        text = "".join(f"{number:06}\n" for number in range(20))
        # 140 bytes, of which 24 at a time would be too long an input.
        self.assertEqual(self.told(text, text, "", 0), 20)
        self.told(text + "05", text + "05", "", 0, "name")
        self.assertEqual(self.told("", "", "", 0), 1)
        commented = text.replace("\n", " #\r\n#\n")
        note = "rh_cli: left out of what show reads: 40 comments and 20 CRs\n"
        self.told(commented, text, note, 0)
        self.told("#\n" * 3, "", "rh_cli: left out of what show reads: 3 comments\n", 0)

    def test_lines_that_are_refused_are_counted_over_all_pieces(self):
        said = "'bad': the line is no hex: an even number of hex digits, of 1 to 65,535 bytes\n"
        text = "#\n" + "05\n" * 9 + "#\n" + "bad\n" + "05\n" * 9
        note = "rh_cli: left out of what show reads: 2 comments\n"
        error = f"{note}bad input 10\nrh_cli: line 12: {said}"
        for most in 1, 3, 7, 24:
            done = self.run_it(*self.words(most), "show", text=text)
            # All in front of the piece with that line was told, and nothing behind it.
            self.assertEqual((done.stderr, done.returncode), (error, 2))
            self.assertTrue(("05\n" * 9).startswith(done.stdout or "none"))
        done = self.run_it(*self.words(4), "show", text=text)
        self.check(done, "05\n" * 9, error, 2)
        # The line is the first of its piece, and no first line of the input.
        for line, said in ("rh 1 bad", "'rh 1 bad': the line is no hex"), ("bad", "'bad': the line"):
            done = self.run_it(*self.words(3), "show", text=f"05\n{line}\n")
            self.assertEqual((done.stdout, done.returncode), ("05\n", 2))
            self.assertTrue(done.stderr.startswith(f"bad input 2\nrh_cli: line 2: {said}"))

    def test_contexts(self):
        self.take_longer_lines()
        text = f"{FRONT} http 200\n{FRONT} 05\n0500\n{FRONT} fin\n{FRONT} 06\n{FRONT} rst\n"
        for most in 1, 90, 1_000:
            self.check(self.run_it(*self.words(most), "show", text=text), text, "", 0)
        self.runs()
        done = self.run_it(*self.words(90), "show", text=f"{text}{FRONT} bad\n")
        self.assertEqual((done.stdout, done.returncode), (text, 2))
        self.assertTrue(done.stderr.startswith("bad input 4\nrh_cli: line 7: 'bad': "))
        # It isn't run where a piece has nothing for it.
        self.assertEqual(self.runs(), 4)

    def test_a_line_that_is_longer_than_the_limit(self):
        told = "input too long\nrh_cli: line {} is longer than the 24 bytes that show reads\n"
        line = "0" * 24
        for most in 1, 24:
            words = [*self.words(most), "show"]
            self.check(self.run_it(*words, text=line), line, "", 0)
            self.check(self.run_it(*words, text=f"{line}\n"), "", told.format(1), 9)
            done = self.run_it(*words, text=f"#\n05\n{line}0\n05\n")
            self.check(done, "05\n", told.format(3), 9)
            # Lines in front of a piece's end are told where the piece would be too long.
            text = f"{line[1:]}\n{line[2:]}\n"
            self.check(self.run_it(*words, text=text), text, "", 0)

    def test_lines_come_as_they_are_there(self):
        pipes = {"stdin": subprocess.PIPE, "stdout": subprocess.PIPE, "stderr": subprocess.PIPE}
        child = self.begin("./rh_cli", "show", bufsize=0, **pipes)
        with child.stdin, child.stdout, child.stderr:
            for text in b"05\n", b"0500\n06\n":
                child.stdin.write(text)
                self.assertEqual(child.stdout.read(len(text)), text)
            child.stdin.write(b"07\n0")
            self.assertEqual(child.stdout.read(3), b"07\n")
            child.terminate()
            self.assertEqual(child.stdout.read(), b"")
        self.assertEqual(child.wait(), -signal.SIGTERM)

    def test_a_signal_ends_a_run(self):
        program = self.top / "crates/rh_cli/out/rh_cli"
        program.write_text(program.read_text().replace("show |", "show) cat; exec sleep 60 ;;\n"))
        pipes = {"stdin": subprocess.PIPE, "stdout": subprocess.PIPE}
        child = self.begin("./rh_cli", "show", bufsize=0, **pipes)
        with child.stdin, child.stdout:
            child.stdin.write(b"05\n")
            self.assertEqual(child.stdout.read(3), b"05\n")
            child.terminate()
            # The program's end of the pipe is gone too.
            self.assertEqual(child.stdout.read(), b"")
        self.assertEqual(child.wait(), -signal.SIGTERM)

    def test_an_output_that_fails(self):
        self.take_longer_lines()
        with open("/dev/full", "w") as full:
            how = {"input": f"{FRONT} 05\n" * 3, "stderr": subprocess.PIPE, "text": True}
            words = [*self.words(80), "show"]
            done = subprocess.run(words, stdout=full, cwd=self.top, env=self.variables, **how)
        self.assertEqual((done.stderr, done.returncode), ("write fault\n", 4))
        self.assertEqual(self.runs(), 1)

    def test_an_input_that_fails(self):
        # Reading a process's memory at 0 fails.
        with open("/proc/self/mem", "rb") as memory:
            how = {"stdin": memory, "capture_output": True, "check": False, "text": True}
            done = subprocess.run(["./rh_cli", "show"], cwd=self.top, env=self.variables, **how)
        self.check(done, "", "read fault\n", 3)

    def test_unproved_it_runs_once(self):
        done = self.run_it("./rh_cli", "--unproved", "show", text="05\n" * 9)
        self.assertEqual((done.stdout, done.returncode), ("05\n" * 9, 0))
        self.assertEqual(done.stderr.count("run=ended"), 1)


class Durations(unittest.TestCase):
    BELOW = {"a": [], "b": [], "c": ["a"], "d": ["a", "b", "c"]}

    def order(self, processors, **seconds):
        return program_crates.Order(self.BELOW, seconds, processors)

    def test_more_processors_take_less(self):
        seconds = {"a": 10, "b": 40, "c": 20, "d": 5}
        self.assertEqual(self.order(1, **seconds).duration(), 75)
        self.assertEqual(self.order(2, **seconds).duration(), 45)
        self.assertEqual(self.order(2, **seconds).duration(["a", "b"]), 25)
        self.assertEqual(self.order(8, **seconds).duration(self.BELOW), 0)

    def test_the_longest_chain_goes_first(self):
        seconds = {"a": 10, "b": 15, "c": 20, "d": 5}
        self.assertEqual([*self.order(1, **seconds).next(set(), {})], [("a", 1)])
        seconds["b"] = 50
        self.assertEqual([*self.order(1, **seconds).next(set(), {})], [("b", 1)])

    def test_a_large_crate_gets_the_processors_that_are_idle(self):
        order = self.order(4, a=100, b=20, c=300, d=5)
        self.assertEqual([*order.next({"a"}, {"b": 1})], [("c", 3)])
        self.assertEqual([*order.next({"a", "b"}, {})], [("c", 4)])


if __name__ == "__main__":
    unittest.main()
