#!/usr/bin/env python3
"""Prints the clauses of public functions that a commit has and this tree does not have, word for word. Each was lost, renamed, or is said
otherwise now: a reader has to say which. With "added" before it, it prints each requires that this tree has and the commit does not, of a
function whose name the commit has too.

    docs/scripts/lost_clauses.py COMMIT [FUNCTION..]     of the functions of these names, or of all

The exit status is 0, or 4 if git cannot read the commit."""
import collections
import os
import subprocess
import sys
import tempfile

sys.dont_write_bytecode = True
ROOT = os.path.dirname(os.path.dirname(os.path.dirname(os.path.realpath(__file__))))
sys.path[:0] = [f"{ROOT}/scripts", os.path.dirname(os.path.realpath(__file__))]

from arguments import arguments_or_exit  # noqa: E402
from contract_list import functions  # noqa: E402


def contracts(root):
    """The clauses of each public function of the crates in a folder, by its name without its type."""
    clauses = {}
    for crate in sorted(os.listdir(f"{root}/crates")):
        if not crate.endswith("_tests") and os.path.isfile(f"{root}/crates/{crate}/src/lib.rt"):
            for name, _, its_clauses in functions(crate, root):
                clauses.setdefault(name.split("::")[-1], []).extend((crate, kind, label, text) for kind, label, _, text in its_clauses)
    return clauses


def beyond(clauses, others):
    """The clauses that others have not, or less often: several functions may have one name."""
    left = collections.Counter((kind, text) for _, kind, _, text in others)
    for crate, kind, label, text in clauses:
        if left[kind, text]:
            left[kind, text] -= 1
        else:
            yield crate, kind, label, text


def main(commit, *names):
    now = contracts(ROOT)
    with tempfile.TemporaryDirectory(prefix="lost-clauses-") as folder:
        archive = subprocess.run(["git", "-C", ROOT, "archive", commit, "crates"], stdout=subprocess.PIPE)
        if archive.returncode or subprocess.run(["tar", "-x", "-C", folder], input=archive.stdout).returncode:
            return 4
        before = contracts(folder)
    count, lost, added = 0, 0, 0
    for name, clauses in sorted(before.items()):
        if names and name not in names:
            continue
        count += len(clauses)
        for crate, kind, label, text in beyond(clauses, now.get(name, ())):
            lost += 1
            print(f"{crate}::{name}: {kind} {label or ''} {{ {text} }}")
        for crate, kind, label, text in beyond(now.get(name, ()), clauses):
            if kind == "requires":
                added += 1
                print(f"added {crate}::{name}: {kind} {label or ''} {{ {text} }}")
    print(f"{count} clauses of {commit}, {lost} of which are not here word for word; {added} new requires")
    return 0


if __name__ == "__main__":
    sys.exit(main(*arguments_or_exit(__doc__, lambda arguments: arguments and not arguments[0].startswith("-"))))
