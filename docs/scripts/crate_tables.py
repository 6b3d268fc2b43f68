#!/usr/bin/env python3
"""Writes what each crate depends on into the tables of docs/architecture.md, from crates.txt.

    docs/scripts/crate_tables.py [--check]

The words of each row stay. With --check nothing is written: the exit status is 1 if a row is missing, is of no crate, is in
another group or order than in crates.txt, or names other crates."""
import os
import re
import sys

sys.dont_write_bytecode = True
ROOT = os.path.dirname(os.path.dirname(os.path.dirname(os.path.realpath(__file__))))
sys.path.insert(0, f"{ROOT}/scripts")

from arguments import arguments_or_exit  # noqa: E402
from crates_list import LIST, dependencies  # noqa: E402

PAGE = f"{ROOT}/docs/architecture.md"
ROW = re.compile(r"\| `(\w+)` \| (.*) \|([^|]*)\|$")


def groups():
    """The headings of crates.txt, each with its crates and what these depend on."""
    headings, used = [], dependencies()
    with open(LIST) as file:
        for line in map(str.strip, file):
            if line.startswith("# ") and not line.startswith("# Each line"):
                headings.append((line[2:], []))
            elif name := re.match(r"\w+", line):
                headings[-1][1].append((name[0], used[name[0]]))
    return headings


def cell_of(used, own):
    """The last cell of a row: crates of this repository, then those of the kit."""
    names = [f"`{crate}`" for crate in used if crate in own] + [f"*{crate}*" for crate in used if crate not in own]
    return f" {' '.join(names)} " if names else "  "


def page(text):
    """The page with its tables made anew, and the names of crates that have no words yet."""
    rows = {name: words for name, words, _ in (match.groups() for match in map(ROW.match, text.split("\n")) if match)}
    own = dependencies()
    missing = [name for name in own if not rows.get(name, '').strip()]
    for heading, crates in groups():
        new_table = "\n".join(f"| `{name}` | {rows.get(name, '')} |{cell_of(used, own)}|" for name, used in crates)
        table = re.compile(rf"(### {re.escape(heading)}\n\n\| crate [^\n]*\n\|---[^\n]*\n)(?:\|[^\n]*\n)*")
        if not table.search(text):
            missing.append(heading)
        text = table.sub(lambda found: f"{found.group(1)}{new_table}\n", text)
    return text, missing


def main(options):
    with open(PAGE) as file:
        text = file.read()
    new, missing = page(text)
    for name in missing:
        print(f"docs/architecture.md has no words for {name}")
    if options:
        if new != text:
            print("docs/architecture.md does not agree with crates.txt: docs/scripts/crate_tables.py mends it")
        return 1 if missing or new != text else 0
    with open(PAGE, "w") as file:
        file.write(new)
    return 1 if missing else 0


if __name__ == "__main__":
    sys.exit(main(arguments_or_exit(__doc__, lambda arguments: arguments in ([], ["--check"]))))
