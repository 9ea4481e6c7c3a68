#!/usr/bin/env python3
"""Compares the names of crates, laws and files on the pages with the sources.

    tools/check_pages.py            checks README.md, CONTRIBUTING.md and docs/
    tools/check_pages.py PAGE..     checks these

On a page,
- a link leads to a file that is there, and to a heading of it;
- a path that begins with a folder of the top, or with ./, is there, where it stands in backticks or
  in a block of code (words in capitals, as NAME, and those with my_ stand for any name, and out/ is
  not looked at);
- a word in backticks that begins as crates do, with rh_, law_, test_, bench_ or example_, is a crate,
  or a name in the sources; so is each other such word that has an underscore;
- `CRATE::..::NAME` is declared in that crate, and so is each NAME or TYPE::NAME in a list behind
  it, as in `CRATE`: `NAME`, `TYPE::NAME`.

Each that isn't so is told with its page and line, and the status is 1.
"""
import functools
import pathlib
import re
import sys

TOP = pathlib.Path(__file__).resolve().parent.parent
PAGES = ["README.md", "CONTRIBUTING.md", *sorted(f"docs/{it.name}" for it in TOP.glob("docs/*.md"))]
CRATE = r"(?:rh|law|test|bench|example)_\w+"
WORD = re.compile(r"\w+")
NAME = re.compile(r"(?:\w+::)*\w+")
LINK = re.compile(r"\]\(([^)\s]+)\)")
SPAN = re.compile(r"`([^`]+)`")
OWNED = re.compile(rf"`({CRATE})`: (?=`)((?:[^`|.;]|`[^`]*`)*)")
STANDS_FOR_ANY = re.compile(r"(?:^|[/_.])[A-Z]{2,}(?:$|[/_.])|/my_|[<>${}]|\.\.")
DECLARED = r"\b(?:fn|struct|enum|trait|type|const|static|mod|macro_rules!)\s+{0}\b"
DEFINED = r"(?m)^\s*(?:\w+ )*{0}\s*:(?!:)"
EXPORTED = r"(?s)\bpub use [^;]*\b{0}\b"


@functools.cache
def crates():
    lines = (TOP / "crates.txt").read_text().splitlines()
    return {line.partition(":")[0].split()[0] for line in lines if ":" in line and line[0] != "#"}


@functools.cache
def code_of(crate):
    """All of a crate's code and definitions, without comments."""
    found = []
    for part, sign in (("src", "//"), ("specs", "--")):
        for file in (TOP / "crates" / crate / part).rglob("*"):
            if file.is_file():
                found.append(re.sub(rf"(?m)(?:^|\s){sign}.*$", "", file.read_text()))
    return "\n".join(found)


@functools.cache
def all_words():
    """Each word of the sources: crates, scripts and crates.txt."""
    texts = [code_of(crate) for crate in crates()]
    scripts = [*TOP.glob("tools/*"), *TOP.glob("bench/*"), TOP / "crates.txt"]
    texts += [it.read_text() for it in scripts if it.is_file()]
    return {word for text in texts for word in WORD.findall(text)}


@functools.cache
def headings(page):
    """The anchors of a page's headings."""
    found = []
    for line in prose(page.read_text()):
        title = re.match(r"#+ +(.*)", line)
        if title:
            plain = re.sub(r"\]\([^)]*\)", "", title[1]).lower()
            anchor = re.sub(r"[^\w\- ]", "", plain).strip().replace(" ", "-")
            found.append(f"{anchor}-{found.count(anchor)}" if anchor in found else anchor)
    return found


def prose(text):
    """The lines of a page, with blocks of code emptied."""
    is_code = False
    for line in text.splitlines():
        if line.lstrip().startswith("```"):
            is_code, line = not is_code, ""
        yield "" if is_code else line


def is_declared(crate, name):
    """Whether the last part of a name is declared in the crate, where all its parts stand."""
    *outer, last = name.split("::")
    code, word = code_of(crate), re.escape(last)
    if last[0].isupper():
        # A variant has no word before it.
        is_there = re.search(rf"\b{word}\b", code)
    else:
        is_there = any(re.search(it.format(word), code) for it in (DECLARED, DEFINED, EXPORTED))
    return bool(is_there) and all(re.search(rf"\b{it}\b", code) for it in outer)


def wrong_path(word):
    """What is wrong with a word that may be a path."""
    path = word.removeprefix("./").rstrip(".,:;")
    first = path.partition("/")[0]
    is_path = word.startswith("./") or "/" in path and first and (TOP / first).is_dir()
    if not is_path or STANDS_FOR_ANY.search(path) or "/out/" in f"/{path}/":
        return None
    is_there = any(TOP.glob(path)) if "*" in path else (TOP / path).exists()
    return None if is_there else "there is no such file"


def wrong_link(page, target):
    if re.match(r"\w+:", target):
        return None
    path, _, anchor = target.partition("#")
    file = page.parent / path if path else page
    if not file.exists():
        return "there is no such file"
    if anchor and file.suffix == ".md" and anchor not in headings(file):
        return "that page has no such heading"
    return None


def wrong_name(text):
    """What is wrong with a name in backticks."""
    if not NAME.fullmatch(text.removesuffix("()")):
        return None
    first, *inner = text.removesuffix("()").split("::")
    if inner and re.fullmatch(CRATE, first):
        if first not in crates():
            return "there is no such crate"
        return None if is_declared(first, "::".join(inner)) else "that crate declares no such name"
    is_ours = not inner and re.fullmatch(r"[a-z]\w*_\w*", first)
    if is_ours and first not in crates() and first not in all_words():
        is_crate = re.fullmatch(CRATE, first)
        return "no such crate or name in the sources" if is_crate else "no source has such a name"
    return None


def wrong_owned(line):
    """(name, what is wrong) for names that stand behind a crate."""
    for cell in line.split("|"):
        for owned in OWNED.finditer(cell):
            crate = owned[1]
            for name in SPAN.findall(owned[2]):
                plain = name.removesuffix("()")
                if crate in crates() and NAME.fullmatch(plain) and plain not in crates():
                    if not is_declared(crate, plain):
                        yield name, f"{crate} declares no such name"


def wrong_in(page):
    """(line, name, what is wrong) for all of a page."""
    text = page.read_text()
    for number, (line, plain) in enumerate(zip(text.splitlines(), prose(text)), start=1):
        found = [(it, wrong_link(page, it)) for it in LINK.findall(plain)]
        for span in SPAN.findall(plain):
            found.append((span, wrong_name(span)))
            found += [(it, wrong_path(it)) for it in span.split()]
        if not plain:
            found += [(it, wrong_path(it)) for it in line.split()]
        found += wrong_owned(plain)
        yield from ((number, name, why) for name, why in found if why)


def main(names):
    pages = [pathlib.Path(it).resolve() for it in names] or [TOP / it for it in PAGES]
    is_wrong = False
    for page in pages:
        for number, name, why in wrong_in(page):
            is_wrong = True
            print(f"{page.relative_to(TOP)}:{number}: `{name}`: {why}", file=sys.stderr)
    return int(is_wrong)


if __name__ == "__main__":
    sys.exit(main(sys.argv[1:]))
