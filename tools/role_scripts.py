#!/usr/bin/env python3
"""Writes the script of the roles' cases, and what is to be answered to it, for crates/test_roles.

    tools/role_scripts.py            writes crates/test_roles/stdin and stdout
    tools/role_scripts.py --check    fails where they are others than it would write

The cases stand in role_cases_*.py. What is to be answered is worked out there from the standard and
the tables of docs/PROFILE.md, and never taken from the program.
"""
import pathlib
import sys

import role_cases_client
import role_cases_in_proxy
import role_cases_names
import role_cases_out_proxy
import role_cases_pairs
import role_cases_server
from role_script import Script

CASES = [
    role_cases_client,
    role_cases_server,
    role_cases_in_proxy,
    role_cases_out_proxy,
    role_cases_pairs,
    role_cases_names,
]
FOLDER = pathlib.Path(__file__).resolve().parent.parent / "crates" / "test_roles"


def texts():
    script = Script()
    for cases in CASES:
        cases.write(script)
    return {
        "stdin": "\n".join(script.lines) + "\n",
        "stdout": "\n".join(script.wanted) + "\n",
    }


def main():
    check = sys.argv[1:] == ["--check"]
    if sys.argv[1:] and not check:
        sys.exit(__doc__)
    for name, text in texts().items():
        path = FOLDER / name
        if not check:
            path.write_text(text)
        elif path.read_text() != text:
            sys.exit(f"{path} is not what {sys.argv[0]} writes: failed")


main()
