#!/usr/bin/env python3
"""Tests of what tools/terminal_files.py writes: that it is as it would be written, what completes,
what is coloured, and that man has nothing to say against the page.
"""
import json
import pathlib
import re
import shutil
import subprocess
import tempfile
import unittest

import terminal_files

TOP = terminal_files.TOP
BASH = TOP / "tools/completion/guddrino.bash"
ZSH = TOP / "tools/completion/_guddrino"
VIM = TOP / "tools/editors/vim"
TEXTMATE = TOP / "tools/editors/rh.tmLanguage.json"
PAGE = TOP / "docs/rh_cli.1"
# Lines of a recording and a report; each word with what it is.
LINES = {
    "rh 1 roles": ["Header"] * 3,
    "set cwin 8192 # a window": ["Line", "Key", "Number", "Comment", "Comment", "Comment"],
    "give c 05000003100000001800000001000000": ["Line", "", "Hex"],
    "open ci2 same": ["Line", "Leg", ""],
    "send cs u 65536": ["Line", "Leg", "", "Number"],
    "take s empty": ["Line", "", "Answer"],
    "closed i1 1 LegBroken ci1": ["Answer", "", "Number", "", "Leg"],
    "up given 3 taken 1": ["Answer", "Answer", "Number", "Answer", "Number"],
}
SCOPES = {
    "comment.line.number-sign.rh": "Comment",
    "keyword.control.rh": "Header",
    "keyword.operator.rh": "Line",
    "storage.type.rh": "Key",
    "variable.other.rh": "Leg",
    "string.unquoted.hex.rh": "Hex",
    "constant.numeric.rh": "Number",
    "constant.language.rh": "Answer",
}


def run(*words, **how):
    how = {"capture_output": True, "text": True, "check": False, "timeout": 60} | how
    return subprocess.run(words, **how)


def places(line):
    """Where each word of a line begins."""
    return [match.start() for match in re.finditer(r"\S+", line)]


def coloured(line):
    """What each word is by the grammar of TextMate: the first pattern that matches earliest."""
    patterns = json.loads(TEXTMATE.read_text())["patterns"]
    found, at = {}, 0
    while at < len(line):
        matches = [(re.compile(it["match"]).search(line, at), it["name"]) for it in patterns]
        matches = [(match, name) for match, name in matches if match and match.end() > at]
        if not matches:
            break
        match, name = min(matches, key=lambda it: it[0].start())
        found |= dict.fromkeys(range(match.start(), match.end()), SCOPES[name])
        at = match.end()
    return [found.get(place, "") for place in places(line)]


class Files(unittest.TestCase):
    def test_they_are_as_they_would_be_written(self):
        done = run("python3", "-B", TOP / "tools/terminal_files.py", "--check")
        self.assertEqual((done.stderr, done.returncode), ("", 0))

    def test_each_form_and_status_is_on_the_page(self):
        page = PAGE.read_text()
        for words, _ in terminal_files.help_page.forms():
            self.assertEqual(page.count(f".TP\n{terminal_files.words_bold(words)}\n"), 1, words)
        for number, name, _ in terminal_files.help_page.statuses():
            self.assertEqual(page.count(f".TP\n\\fB{number}\\fR {name}"), 1, name)

    @unittest.skipUnless(shutil.which("man"), "no man")
    def test_man_reads_it(self):
        done = run("man", "-l", "--warnings", PAGE, env={"LC_ALL": "C", "PATH": "/usr/bin:/bin"})
        self.assertEqual((done.stderr, done.returncode), ("", 0))
        self.assertIn("RH_CLI(1)", done.stdout)


class Completion(unittest.TestCase):
    def setUp(self):
        room = tempfile.TemporaryDirectory()
        self.addCleanup(room.cleanup)
        self.room = pathlib.Path(room.name)
        for name in ("one.rh", "other.txt"):
            (self.room / name).touch()

    def bash(self, *words):
        """What completes the last of these words."""
        text = f'. "{BASH}"; COMP_WORDS=({" ".join(map(repr, words))}); '
        text += f"COMP_CWORD={len(words) - 1}; _guddrino; printf '%s\\n' \"${{COMPREPLY[@]}}\""
        done = run("bash", "-c", text, cwd=self.room)
        self.assertEqual((done.stderr, done.returncode), ("", 0))
        return done.stdout.split()

    def test_bash(self):
        words = ["--unproved", *terminal_files.help_page.words_of("rh_cli")]
        self.assertEqual(self.bash("./rh_cli", ""), words)
        self.assertEqual(self.bash("./rh_cli", "re"), ["replay"])
        self.assertEqual(self.bash("rh_cli", "--unproved", "sh"), ["show"])
        self.assertEqual(self.bash("./rh_cli", "show", ""), [])
        self.assertEqual(self.bash("./rh_cli", "st"), ["story"])
        self.assertEqual(self.bash("./rh_cli", "story", ""), list(terminal_files.OF_STORIES))
        self.assertEqual(self.bash("./rh_cli", "--unproved", "story", "--h"), ["--hex"])
        self.assertEqual(self.bash("../rh_roles", "in"), ["inproxy"])
        self.assertEqual(self.bash("./replay", ""), ["--unproved", "--help", "one.rh"])
        self.assertEqual(self.bash("./replay", "--unproved", "o"), ["one.rh"])

    @unittest.skipUnless(shutil.which("zsh"), "no zsh")
    def test_zsh(self):
        self.assertEqual(run("zsh", "-n", ZSH).stderr, "")
        # Each describes what it would complete.
        text = "_describe() { print -l -- $forms }; _files() { print files }; "
        text += f'words=(./rh_cli ""); CURRENT=2; . {ZSH}'
        told = run("zsh", "-f", "-c", text).stdout
        for word in terminal_files.help_page.words_of("rh_cli"):
            self.assertRegex(told, rf"(?m)^{word}:\S")
        behind = text.replace('(./rh_cli ""); CURRENT=2', '(./rh_cli story ""); CURRENT=3')
        told = run("zsh", "-f", "-c", behind).stdout
        for word in terminal_files.OF_STORIES:
            self.assertRegex(told, rf"(?m)^{word}:\S")
        text = text.replace('(./rh_cli "")', '(./replay "")')
        self.assertEqual(run("zsh", "-f", "-c", text).stdout.split("\n")[0], "files")


class Grammars(unittest.TestCase):
    def test_textmate(self):
        for line, wanted in LINES.items():
            self.assertEqual(coloured(line), wanted, line)

    @unittest.skipUnless(shutil.which("vim"), "no vim")
    def test_vim(self):
        with tempfile.TemporaryDirectory() as room:
            file, told = pathlib.Path(room) / "some.rh", pathlib.Path(room) / "told"
            file.write_text("\n".join(LINES) + "\n")
            asked = [
                f"call add(told, synIDattr(synID({number}, {place + 1}, 1), 'name'))"
                for number, line in enumerate(LINES, start=1)
                for place in places(line)
            ]
            script = pathlib.Path(room) / "script.vim"
            script.write_text("\n".join([
                f"set nocompatible runtimepath^={VIM}", "filetype on", "syntax on", f"edit {file}",
                "let told = []", *asked, f"call writefile(told, '{told}')", "qall!", ""]))
            done = run("vim", "-es", "-u", "NONE", "-i", "NONE", "-S", script, stdin=subprocess.DEVNULL)
            self.assertTrue(told.is_file(), done.stdout + done.stderr)
            found = [name.removeprefix("rh") for name in told.read_text().split("\n")[:-1]]
        self.assertEqual(found, [it for names in LINES.values() for it in names])


if __name__ == "__main__":
    unittest.main()
