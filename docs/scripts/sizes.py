#!/usr/bin/env python3
"""Prints how many lines each group of crates has in its code, its definitions and its proofs, as the table of docs/DECISIONS.md.

    docs/scripts/sizes.py [--check]

The lines are all lines, with comments, imports and blank ones, rounded to hundreds. With --check the exit status is 1 if a number
of the page is off by more than 200 lines and by more than a fiftieth."""
import os
import re
import sys

sys.dont_write_bytecode = True
ROOT = os.path.dirname(os.path.dirname(os.path.dirname(os.path.realpath(__file__))))
sys.path[:0] = [f"{ROOT}/scripts", os.path.dirname(os.path.realpath(__file__))]

from arguments import arguments_or_exit  # noqa: E402
from crate_tables import groups  # noqa: E402
from crates_list import files_of  # noqa: E402

PAGE = f"{ROOT}/docs/DECISIONS.md"
PARTS = ("src", "specs", "proofs")
HEAD = "| group of crates | code | definitions | proofs | all |\n|---|---|---|---|---|\n"


def lines_in(crates, part):
    """How many lines the files of these crates have in this folder."""
    total = 0
    for crate in crates:
        for path in files_of(crate):
            if path.startswith(f"crates/{crate}/{part}/"):
                with open(f"{ROOT}/{path}", encoding="utf-8") as file:
                    total += sum(1 for _ in file)
    return total


def rows():
    """Each group with its lines of code, definitions and proofs, and all of them; and then the sum of the groups."""
    of_groups = []
    for heading, crates in groups():
        sizes = [lines_in([name for name, _ in crates], part) for part in PARTS]
        of_groups.append((heading.partition(":")[0], [*sizes, sum(sizes)]))
    return [*of_groups, ("all", [sum(column) for column in zip(*(sizes for _, sizes in of_groups))])]


def row_text(heading, sizes):
    return f"| {heading} | {' | '.join(f'{round(size, -2):,}' for size in sizes)} |\n"


def strange_rows():
    """The rows of the page whose numbers are off, or that are missing."""
    with open(PAGE, encoding="utf-8") as file:
        text = file.read()
    strange = []
    for heading, sizes in rows():
        match = re.search(rf"^\| {re.escape(heading)} \|([\d,| ]+)\|$", text, re.M)
        told = [int(cell.replace(",", "")) for cell in match[1].split("|")] if match else []
        if len(told) != len(sizes) or any(abs(size - number) > max(200, size / 50) for size, number in zip(sizes, told)):
            strange.append(row_text(heading, sizes))
    return strange


def main(options):
    if options:
        strange = strange_rows()
        print("".join(strange), end="")
        return 1 if strange else 0
    print(HEAD + "".join(row_text(heading, sizes) for heading, sizes in rows()), end="")
    return 0


if __name__ == "__main__":
    sys.exit(main(arguments_or_exit(__doc__, lambda arguments: arguments in ([], ["--check"]))))
