"""The crates that crates.txt lists, their dependencies, their files, and what each is built of, in this repository or in a copy of it."""
import re

from building import TOP, fail, files_in, sums

LIST = f"{TOP}/crates.txt"
# The crate of each program, and of the proved half of the library.
CRATES = {"verifier": "verifier", "bench": "fcbench", "library": "embedding"}
# The file that says which version it is, and which logic proves it.
VERSION = "crates/history_commands/src/version.rt"


def line_of_each_crate(top=TOP):
    """Returns the line of each crate of the repository, by its name, in the order of crates.txt."""
    with open(f"{top}/crates.txt") as file:
        return {line.partition(":")[0].split()[0]: line.strip() for line in file if line.strip() and not line.startswith("#")}


def dependencies(top=TOP):
    """Returns the names of the libraries that each crate uses, by the name of the crate, in the order of crates.txt."""
    return {crate: line.partition(":")[2].split() for crate, line in line_of_each_crate(top).items()}


def with_below(*names, top=TOP):
    """Returns these crates and the crates of the repository that they depend on, each after those that it uses itself."""
    used, crates = dependencies(top), []

    def add(crate):
        if crate in used and crate not in crates:
            for library in used[crate]:
                add(library)
            crates.append(crate)

    for name in names:
        add(name)
    return crates


def files_of(crate, top=TOP):
    """Returns the paths, from `top`, of the files that prove, build and run a crate."""
    return files_in(top, f"crates/{crate}", "out", "must-fail")


def logic(top=TOP):
    """Returns the logic that proves the crates, as the programs say it."""
    with open(f"{top}/{VERSION}") as file:
        found = re.search(r'^pub const VERSION: &str = "fcbench [\d.]+, proved by Rattle logic ([0-9a-f]+)";$', file.read(), re.M)
    return found[1] if found else fail(f"{VERSION} says in another way which logic proves it")


def sources_of(crate, top=TOP):
    """Returns what a crate is built of: the sums of its files, of those of the crates below, and of the handles that are allowed, the lines of
    these crates in crates.txt, and the logic."""
    crates, lines = with_below(crate, top=top), line_of_each_crate(top)
    paths = [path for name in crates for path in files_of(name, top)]
    return sums(top, ["HANDLES", *paths]) + "".join(f"{lines[name]}\n" for name in crates) + f"logic {logic(top)}\n"
