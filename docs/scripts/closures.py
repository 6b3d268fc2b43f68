#!/usr/bin/env python3
"""Counts what the verifier and the bench are made of: their crates, and the lines of these in src, specs and proofs.

    docs/scripts/closures.py [--write | --check]

Without an option the counts are printed. With --write they are written into README.md and docs/gate.md, and the crates by their groups
into docs/architecture.md, between two comments of which the first names this script. With --check the exit status is 1 if a page has
another number of crates, a number of lines that is off by more than 200 and by more than a fiftieth, or other crates."""
import os
import re
import sys

sys.dont_write_bytecode = True
ROOT = os.path.dirname(os.path.dirname(os.path.dirname(os.path.realpath(__file__))))
sys.path[:0] = [f"{ROOT}/scripts", os.path.dirname(os.path.realpath(__file__))]

from arguments import arguments_or_exit  # noqa: E402
from crate_tables import groups  # noqa: E402
from crates_list import CRATES, with_below  # noqa: E402
from sizes import PARTS, lines_in  # noqa: E402

# What a page has between the comments.
MARKED = re.compile(r"(<!-- made by docs/scripts/closures.py -->\n).*?(<!-- end -->\n)", re.S)
HEAD = "| proved program | crates | code | definitions | proofs | all lines |\n|---|---|---|---|---|---|\n"
HEAD_OF_CRATES = "| group | in both programs | only in the verifier | only in the bench |\n|---|---|---|---|\n"
ROW = re.compile(r"^\| (.*?) \| ([\d,| ]+) \|$", re.M)


def shares():
    """The crates that both programs have, those of the verifier alone, and those of the bench alone."""
    verifier, bench = (set(with_below(CRATES[program])) for program in ("verifier", "bench"))
    return verifier & bench, verifier - bench, bench - verifier


def rows():
    """The rows of the table: what is counted, the number of crates, and their lines of code, definitions and proofs, and all."""
    both, verifier, bench = shares()
    for name, crates in (("the verifier", both | verifier), ("the bench", both | bench), ("of these only in the bench", bench)):
        sizes = [lines_in(crates, part) for part in PARTS]
        yield name, [len(crates), *sizes, sum(sizes)]


def counts_table():
    """The table of counts, the lines rounded to hundreds."""
    return HEAD + "".join(
        f"| {name} | {crates} | {' | '.join(f'{round(size, -2):,}' for size in sizes)} |\n" for name, (crates, *sizes) in rows()
    )


def crates_table():
    """The table of the crates, by their groups in crates.txt."""
    table = HEAD_OF_CRATES
    for heading, crates in groups():
        cells = [" ".join(f"`{name}`" for name, _ in crates if name in share) for share in shares()]
        if any(cells):
            table += f"| {heading.partition(':')[0]} | {' | '.join(cells)} |\n"
    return table


def is_near(told, counts):
    """Whether these are the counts, those of lines about so."""
    is_each_near = all(abs(size - number) <= max(200, size / 50) for size, number in zip(counts[1:], told[1:]))
    return len(told) == len(counts) and told[0] == counts[0] and is_each_near


def has_counts(marked):
    """Whether a text has the table of counts, the lines about so."""
    told = {name: [int(cell.replace(",", "")) for cell in cells.split("|")] for name, cells in ROW.findall(marked)}
    return all(is_near(told.get(name, []), counts) for name, counts in rows())


# Of each page its table, and whether what it has is that table.
PAGES = {
    "README.md": (counts_table, has_counts),
    "docs/gate.md": (counts_table, has_counts),
    "docs/architecture.md": (crates_table, lambda marked: f"\n{crates_table()}\n" in marked),
}


def main(options):
    if not options:
        print(counts_table(), end="")
        return 0
    status = 0
    for page, (table, is_right) in PAGES.items():
        with open(f"{ROOT}/{page}", encoding="utf-8") as file:
            text = file.read()
        marked = MARKED.search(text)
        if not marked:
            print(f"{page} has no place for what docs/scripts/closures.py writes")
            status = 1
        elif options == ["--write"]:
            with open(f"{ROOT}/{page}", "w", encoding="utf-8") as file:
                file.write(text[: marked.start()] + f"{marked[1]}\n{table()}\n{marked[2]}" + text[marked.end() :])
        elif not is_right(marked[0]):
            print(f"{page}: docs/scripts/closures.py --write mends it:\n{table()}", end="")
            status = 1
    return status


if __name__ == "__main__":
    sys.exit(main(arguments_or_exit(__doc__, lambda arguments: arguments in ([], ["--write"], ["--check"]))))
