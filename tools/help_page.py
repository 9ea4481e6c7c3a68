"""What `rh_cli --help` writes, put together from its sources: the rows of statuses and the macro that
makes the page of them. No program is run.
"""
import pathlib
import re

TOP = pathlib.Path(__file__).resolve().parent.parent
SOURCES = TOP / "crates/rh_words/src"
PAGE = TOP / "docs/RECORDINGS.md"
# A form of words, what it does, and the lines that this goes on in.
FORM = re.compile(r"^  rh_cli (\S+(?: \S+)?)  +(.*(?:\n {6,}\S.*)*)$", re.MULTILINE)


def statuses():
    """The rows of the program's statuses: number, text, and what --help tells behind it."""
    text = (SOURCES / "status.rt").read_text()
    rows = re.search(r"\$rows! \{(.*?)\}", text, re.DOTALL)[1]
    return re.findall(r'^\s*\w+ (\d+) "(.*)" "(.*)";$', rows, re.MULTILINE)


def help_page():
    """What --help writes."""
    text = (SOURCES / "help.rt").read_text()
    front, row = re.search(r'concat!\(\s*"(.*?)",\s*\$\((.*?)\)\*', text, re.DOTALL).groups()
    if row.split() != ['"', '",', "$number,", '"', '",', "$name,", "$more,", '"\\n",']:
        raise ValueError(f"a row of a status is made otherwise: {row}")
    rows = (f"  {number}  {name}{more}\n" for number, name, more in statuses())
    return front.replace("\\\\", "\\") + "".join(rows)


def forms():
    """The forms of words, each with what it does."""
    return [(words, " ".join(told.split())) for words, told in FORM.findall(help_page())]


def words_of(program):
    """The first words of a program, as its own page has them."""
    if program == "rh_cli":
        return list(dict.fromkeys(words.split()[0] for words, _ in forms()))
    text = (TOP / "crates/rh_roles/src/main.rt").read_text()
    return re.findall(r"^  rh_roles (\S+) ", text, re.MULTILINE)


def version():
    """What --version writes."""
    text = (SOURCES / "running.rt").read_text()
    return re.search(r'const VERSION: &str = "(.*)\\n";', text)[1]


def rows_of_page():
    """The statuses in docs/RECORDINGS.md: number, text, and when."""
    table = PAGE.read_text().split("\n| Status | Standard error | When |\n|---|---|---|\n")[1]
    for line in table.split("\n\n")[0].split("\n"):
        yield [cell.strip() for cell in line.strip("|").split("|")]
