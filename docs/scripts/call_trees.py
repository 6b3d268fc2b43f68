#!/usr/bin/env python3
"""Compares the call trees of docs/architecture.md with the code.

    docs/scripts/call_trees.py [--list]

A tree is a block of code whose first line begins with main. A line of it names functions, and then, after two spaces or more, says
what they do. A name is that of a function or method, maybe after its type or its crate; after the names a crate or a file may be
in brackets. Without any the functions are of the same crate as the line above them. Each has to be defined there, and its name has
to be in the body of a function above, or of one that this calls in the same file. The exit status is 1 if that is not so.
With --list each line is printed with the files where its functions are defined."""
import glob
import os
import re
import sys

sys.dont_write_bytecode = True
ROOT = os.path.dirname(os.path.dirname(os.path.dirname(os.path.realpath(__file__))))
sys.path.insert(0, f"{ROOT}/scripts")

from arguments import arguments_or_exit  # noqa: E402

PAGE = f"{ROOT}/docs/architecture.md"
# A function with its body, which ends with a brace in the column where it begins.
FUNCTION = re.compile(r"^( *)(?:pub(?:\([a-z]+\))? )?(?:unsafe )?fn (\w+)(?:(?!^ *(?:pub )?fn ).)*?^\1\}", re.M | re.S)
LINE = re.compile(r"( +)([\w:-]+(?:, [\w:-]+)*)(?: \(([\w/.-]+)\))?(?:  +.*)?$")


def trees(text):
    """The trees of the page: of each line how deep it is, its names, the place in brackets, and the line itself."""
    for block in re.findall(r"(?:^    .*\n)+", text, re.M):
        if block.startswith("    main "):
            lines = [(line, LINE.match(line)) for line in block.splitlines()]
            yield [(line, found and (len(found[1]), found[2].split(", "), found[3])) for line, found in lines]


def files_of_crate(crate):
    """The files with the code of a crate, of the proved half or of the tools."""
    return sorted(path for path in glob.glob(f"{ROOT}/crates/{crate}/src/**/*.rt", recursive=True)
                  or glob.glob(f"{ROOT}/tools/{crate}/src/**/*.rs", recursive=True))


def bodies(path):
    """The functions of a file, each with its body. Those of one name are one."""
    with open(path, encoding="utf-8") as file:
        text = file.read().partition("#[cfg(test)]")[0]
    found = {}
    for match in FUNCTION.finditer(text):
        body = re.sub(r"//.*", "", match[0].partition("\n")[2])
        found[match[2]] = found.get(match[2], "") + body
    return found


def defining(crate, place, name):
    """The files of a crate that define a function, after its type if there is one."""
    owner, _, function = name.rpartition("::")
    for path in files_of_crate(crate):
        is_there = not place.endswith((".rt", ".rs")) or path.endswith(f"/{place}")
        if is_there and function in bodies(path):
            with open(path, encoding="utf-8") as file:
                if not owner or re.search(rf"^(?:impl|(?:pub )?trait)\b.*\b{owner}\b", file.read(), re.M):
                    yield path


def reached(path, function):
    """The body of a function, and those of the functions of its file that are called there, and there, and so on."""
    own, seen, left = bodies(path), {}, [function]
    while left:
        name = left.pop()
        if name in own and name not in seen:
            seen[name] = own[name]
            left += set(re.findall(r"\w+", own[name])) & own.keys()
    return "\n".join(seen.values())


def crate_of(name, place, above):
    """The crate that a line names, or that of the line above it; and the name without it."""
    head, _, rest = name.partition("::")
    if rest and files_of_crate(head):
        return head, rest
    return (place if place and files_of_crate(place) else above), name


def check(tree):
    """What is wrong with the lines of a tree, and each line with its files."""
    above, faults, lists = [], [], []
    for line, read in tree:
        if not read:
            faults.append(f"this line is not read: {line.strip()}")
            continue
        depth, names, place = read
        above = [level for level in above if level[0] < depth]
        parent = above[-1] if above else None
        crate, files = parent and parent[1], []
        for name in names:
            crate, own = crate_of(name, place, parent and parent[1])
            function, defined = own.rpartition("::")[2], list(defining(crate, place or "", own))
            if not defined:
                faults.append(f"{name} is not defined in {crate}: {line.strip()}")
            if parent and not any(re.search(rf"\b{function}\b", reached(path, called)) for called, path in parent[2]):
                faults.append(f"{name} is not called in what is above it, {', '.join(called for called, _ in parent[2])}: {line.strip()}")
            files += [(function, path) for path in defined]
        above.append((depth, crate, files))
        lists.append(f"{line.rstrip()}\n{' ' * depth}  {' '.join(os.path.relpath(path, ROOT) for _, path in files)}")
    return faults, lists


def main(options):
    with open(PAGE, encoding="utf-8") as file:
        found = list(trees(file.read()))
    checked = [check(tree) for tree in found]
    for faults, lists in checked:
        if options:
            print("\n".join(lists), end="\n\n")
        for fault in faults:
            print(f"docs/architecture.md: {fault}")
    if not found:
        print("docs/architecture.md has no call tree")
    return 1 if not found or any(faults for faults, _ in checked) else 0


if __name__ == "__main__":
    sys.exit(main(arguments_or_exit(__doc__, lambda arguments: arguments in ([], ["--list"]))))
