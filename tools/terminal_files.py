#!/usr/bin/env python3
"""Writes what terminals and editors read: the page for man, completions, grammars of recordings.

    tools/terminal_files.py            writes docs/rh_cli.1, tools/completion and tools/editors
    tools/terminal_files.py --check    tells which of these isn't as it would be written

Words and statuses are those of --help (help_page.py), when a status comes is that of
docs/RECORDINGS.md, and lines of recordings are those of line_forms.py.
"""
import json
import pathlib
import re
import sys

import help_page
import line_forms

TOP = pathlib.Path(__file__).resolve().parent.parent
PROGRAMS = "rh_cli", "rh_roles"
# What may stand behind `story`, as the scripts take it, and what comes of it.
OF_STORIES = {
    "--hex": "tells the bytes in hex too",
    "--chart": "draws a sequence chart as text",
    "--svg": "draws one as a picture",
}
# Words of reports that no line has.
ANSWERS = """ok no bad full empty pdu ended closed closing quiet spent given taken up down client server
    opening in out busy notopen last""".split()


# ---- the page for man


def roff(text):
    """Text as roff has it, with what stands in backticks in bold."""
    text = text.replace("\\", "\\e").replace("-", "\\-")
    text = re.sub(r"`([^`]*)`", r"\\fB\1\\fR", text)
    return "\\&" + text if text[:1] in (".", "'") else text


def term(front, text):
    return [".TP", front, roff(text)]


def words_bold(words):
    """The words of a form, and what stands for others in italics."""
    parts = [roff(it) for it in words.split()]
    named = [f"\\fI{it[1:-1]}\\fR" if it.startswith("<") else f"\\fB{it}\\fR" for it in parts]
    return " ".join(named)


def man_page():
    first, _, about, examples, *_ = help_page.help_page().split("\n\n")
    name, _, what = " ".join(first.split()).partition(" ")
    lines = [f'.TH RH_CLI 1 "" "{help_page.version()}" Guddrino', ".SH NAME"]
    lines += [f"{name} \\- {roff(what.rstrip('.'))}", ".SH SYNOPSIS"]
    for words, _ in help_page.forms():
        lines += [f"\\fBrh_cli\\fR {words_bold(words)}", ".br"]
    lines[-1:] = [".SH DESCRIPTION"]
    for words, told in help_page.forms():
        lines += term(words_bold(words), told[0].upper() + told[1:] + ".")
    lines += [".PP", roff(" ".join(about.split())), ".PP", ".nf"]
    lines += [roff(line) for line in examples.split("\n")] + [".fi", ".SH EXIT STATUS"]
    for number, text, when in help_page.rows_of_page():
        front = f"\\fB{number}\\fR" + (f" {roff(text.strip('`'))}" if text else "")
        lines += term(front, when)
    lines += [".SH SEE ALSO", "docs/RECORDINGS.md of the repository has lines, answers and causes."]
    lines += [".SH COPYING", "No licence is given."]
    return "\n".join(lines) + "\n"


# ---- completions


BASH = """# Completion for bash of ./rh_cli, ./rh_roles and ./replay: source this file.
# Written by tools/terminal_files.py.
_guddrino() {{
    local words word="${{COMP_WORDS[COMP_CWORD]}}"
    case "${{COMP_WORDS[0]##*/}}" in
{cases}
    replay) words="--unproved --help" ;;
    esac
    if [ "$COMP_CWORD" -ge 2 ]; then
        case "${{COMP_WORDS[COMP_CWORD-1]}}" in
        --unproved) ;;
        story) words="{of_stories}" ;;
        *) words= ;;
        esac
    fi
    mapfile -t COMPREPLY < <(compgen -W "$words" -- "$word")
    if [ "${{COMP_WORDS[0]##*/}}" = replay ]; then
        mapfile -t -O "${{#COMPREPLY[@]}}" COMPREPLY < <(compgen -f -X '!*.rh' -- "$word")
        compopt -o plusdirs 2>/dev/null
    else
        compopt -o default 2>/dev/null
    fi
}}
complete -F _guddrino rh_cli rh_roles replay
"""
ZSH = """#compdef rh_cli rh_roles replay
# Completion for zsh of ./rh_cli, ./rh_roles and ./replay: its folder goes into fpath.
# Written by tools/terminal_files.py.
local -a forms
case "${{words[1]:t}}" in
{cases}
replay)
    forms=('--unproved:runs the sources as they stand' '--help:tells what it does')
    _files -g '*.rh'
    ;;
esac
if (( CURRENT == 2 )) || {{ (( CURRENT == 3 )) && [[ "${{words[2]}}" == --unproved ]] }}; then
    _describe -t words word forms
elif [[ "${{words[CURRENT-1]}}" == story ]]; then
    forms=(
{of_stories}
    )
    _describe -t words word forms
else
    _files
fi
"""


def bash():
    cases = [
        f'    {program}) words="--unproved {" ".join(help_page.words_of(program))}" ;;'
        for program in PROGRAMS
    ]
    return BASH.format(cases="\n".join(cases), of_stories=" ".join(OF_STORIES))


def described(word, what):
    """A word, and what it does, as zsh describes it."""
    return "        '" + f"{word}:{what}".rstrip(":").replace("'", "'\\''") + "'"


def zsh_cases(program):
    # Of words that begin alike, what the first does.
    told = {words.split()[0]: what for words, what in reversed(help_page.forms())}
    yield f"{program})"
    yield "    forms=("
    for word in ["--unproved", *help_page.words_of(program)]:
        what = told.get(word, "") if program == "rh_cli" else ""
        what = "runs the sources as they stand" if word == "--unproved" else what
        yield described(word, what)
    yield "    )"
    yield "    ;;"


def zsh():
    cases = "\n".join(it for name in PROGRAMS for it in zsh_cases(name))
    return ZSH.format(cases=cases, of_stories="\n".join(map(described, *zip(*OF_STORIES.items()))))


# ---- grammars of editors


def first_words():
    return sorted({form[0] for form in [*line_forms.DIRECT, *line_forms.ROLES]})


LEG = r"(?:cs|(?:co|os|ci|is)[1-9][0-9]*)"


def any_of(words):
    """The pattern of vim for any of these."""
    return "\\%(" + "\\|".join(words) + "\\)"


def vim():
    answers = " ".join(it for it in ANSWERS if it not in first_words())
    return f'''" Syntax of recordings and their reports. Written by tools/terminal_files.py.
if exists("b:current_syntax")
  finish
endif
syntax case match
syntax match rhHeader /^{any_of(line_forms.HEADERS)}$/
syntax match rhLine /^{any_of(first_words())}\\>/
syntax match rhKey /\\%(^set \\)\\@<={any_of(line_forms.KEYS)}\\>/
syntax match rhLeg /\\<\\%(cs\\|\\%(co\\|os\\|ci\\|is\\)[1-9]\\d*\\)\\>/
syntax match rhNumber /\\<\\d\\+\\>/
syntax match rhHex /\\<\\%(\\x\\x\\)\\{{8,}}\\>/
syntax keyword rhAnswer {answers}
syntax match rhComment /#.*$/
highlight default link rhHeader PreProc
highlight default link rhLine Statement
highlight default link rhKey Type
highlight default link rhLeg Identifier
highlight default link rhNumber Number
highlight default link rhHex String
highlight default link rhAnswer Constant
highlight default link rhComment Comment
let b:current_syntax = "rh"
'''


def ftdetect():
    return '''" Recordings and their reports. Written by tools/terminal_files.py.
autocmd BufRead,BufNewFile *.rh,*.report setfiletype rh
'''


def textmate():
    patterns = [
        ("comment.line.number-sign", "#.*$"),
        ("keyword.control", f"^(?:{'|'.join(line_forms.HEADERS)})$"),
        ("keyword.operator", f"^(?:{'|'.join(first_words())})\\b"),
        ("storage.type", f"(?<=^set )(?:{'|'.join(line_forms.KEYS)})\\b"),
        ("variable.other", f"\\b{LEG}\\b"),
        ("string.unquoted.hex", r"\b(?:[0-9A-Fa-f]{2}){8,}\b"),
        ("constant.numeric", r"\b[0-9]+\b"),
        ("constant.language", f"\\b(?:{'|'.join(ANSWERS)})\\b"),
    ]
    grammar = {
        "name": "Recording of RPC over HTTP",
        "scopeName": "source.rh",
        "comment": "Written by tools/terminal_files.py.",
        "fileTypes": ["rh", "report"],
        "patterns": [{"name": f"{name}.rh", "match": match} for name, match in patterns],
    }
    return json.dumps(grammar, indent=2) + "\n"


FILES = {
    "docs/rh_cli.1": man_page,
    "tools/completion/guddrino.bash": bash,
    "tools/completion/_guddrino": zsh,
    "tools/editors/vim/syntax/rh.vim": vim,
    "tools/editors/vim/ftdetect/rh.vim": ftdetect,
    "tools/editors/rh.tmLanguage.json": textmate,
}


def main(words):
    is_check = words == ["--check"]
    if words and not is_check:
        print(__doc__, end="", file=sys.stderr)
        return 1
    status = 0
    for name, text in FILES.items():
        path = TOP / name
        if not is_check:
            path.parent.mkdir(parents=True, exist_ok=True)
            path.write_text(text())
        elif not path.is_file() or path.read_text() != text():
            print(f"{name}: tools/terminal_files.py writes another", file=sys.stderr)
            status = 1
    return status


if __name__ == "__main__":
    sys.exit(main(sys.argv[1:]))
