#!/usr/bin/env python3
"""Prints the contracts: of each library crate its public functions, and of each function its clauses.

    docs/scripts/contract_list.py [CRATE..]     of these crates, or of all

All of it comes from the source: what a crate is from the first lines of its lib.rt, what a function does from its doc comment, and what a
clause says from the comment before it and from the clause itself. A clause that the script cannot read ends it with an error."""
import os
import re
import sys

sys.dont_write_bytecode = True
ROOT = os.path.dirname(os.path.dirname(os.path.dirname(os.path.realpath(__file__))))
sys.path[:0] = [f"{ROOT}/scripts", os.path.dirname(os.path.realpath(__file__))]

from arguments import arguments_or_exit  # noqa: E402
from crate_tables import groups  # noqa: E402
from crates_list import dependencies  # noqa: E402

HEAD = """# The contracts, crate by crate

Each public function is listed with its clauses: what it asks of its caller (*asks*), and what it promises. A clause has a name, except
where a function has only one, and its text, after the comment that the source has before it. The text is in the words of
docs/definitions.md: `IfOk result P` says that P holds of the result where it is Ok, and so `IfErr`, `IfSome`, `OnOk`.
`x.now` is what an argument refers to, `x.old` and `x.new` what it referred to before and after.
docs/guarantees.md says what follows for a user of the program.
"""
FN = re.compile(r"^( *)(pub )?(?:const )?(?:unsafe )?(extern \"C\" )?fn (\w+)")
CLAUSE = re.compile(r"^ *(ensures|requires)(?: ([a-z_]\w*))? \{")


def lines_of(path):
    with open(path) as file:
        return file.read().split("\n")


def exported(crate, root):
    """Returns the names that the lib.rt of a crate makes public, and the public modules."""
    text = "\n".join(lines_of(f"{root}/crates/{crate}/src/lib.rt"))
    names, modules = set(), set(re.findall(r"^pub mod (\w+)", text, re.M))
    for statement in re.finditer(r"^pub use ([\w:]+?)(?:::\{([^}]*)\})?;", text, re.M):
        path, many = statement.groups()
        names |= {name.strip() for name in many.split(",")} if many else {path.split("::")[-1]}
    return names, modules


def about(crate):
    """What the crate is: the first lines of its lib.rt."""
    paragraph = []
    for line in lines_of(f"{ROOT}/crates/{crate}/src/lib.rt"):
        if not line.startswith("//!") or line == "//!":
            break
        paragraph.append(line[3:].strip())
    return " ".join(paragraph)


def comment_before(lines, at, mark):
    """The lines of the comment that ends right before a line."""
    first = at
    while first and (lines[first - 1].strip().startswith(mark) or mark == "///" and lines[first - 1].strip().startswith("#[")):
        first -= 1
    return [line.strip()[len(mark):].strip() for line in lines[first:at] if line.strip().startswith(mark)]


def closed(lines, at, opening):
    """The text of a block that begins at a column of a line, and the line after it."""
    depth, text = 0, ""
    for number in range(at, len(lines)):
        for character in lines[number][opening if number == at else 0:]:
            depth += (character == "{") - (character == "}")
            text += character
            if not depth:
                return text[1:-1], number + 1
        text += " "
    return text, len(lines)


def clauses(lines, at):
    """The clauses after a function's signature: kind, name, comment and text of each."""
    found = []
    while at < len(lines):
        line = lines[at]
        match = CLAUSE.match(line)
        if match:
            text, after = closed(lines, at, match.end() - 1)
            found.append((match.group(1), match.group(2), " ".join(comment_before(lines, at, "//")), " ".join(text.split())))
            at = after
        elif re.match(r"^ *\{", line) or line.rstrip().endswith(("{", "{}", ";")) and not found and FN.match(line):
            break
        elif found and line.strip() and not line.strip().startswith("//"):
            # Only the next method of a trait may follow here. A clause that is not read would be left out in silence.
            if re.search(r"\b(ensures|requires)\b", line):
                sys.exit(f"contract_list.py: this clause is not read: {line}")
            break
        else:
            at += 1
            if line.rstrip().endswith((";", " {", " {}")):
                break
    return found


def functions(crate, root=ROOT):
    """The public functions of a crate of the repository in `root`: the name, doc comment and clauses of each."""
    names, modules = exported(crate, root)
    folder = f"{root}/crates/{crate}/src"
    for base, folders, files in os.walk(folder):
        folders.sort()
        for file in sorted(files):
            lines, owner, is_trait = lines_of(f"{base}/{file}"), "", False
            for at, line in enumerate(lines):
                head = re.match(r"^(?:pub )?(?:unsafe )?(impl|trait)(?:<.*?>)? (?:[\w:<>', ]+ for )?(\w+)", line)
                if head:
                    owner, is_trait = head.group(2), head.group(1) == "trait"
                elif re.match(r"^\}", line):
                    owner = ""
                function = FN.match(line)
                if not function or not (function.group(2) or owner and is_trait):
                    continue
                indent, for_c, name = function.group(1), function.group(3), function.group(4)
                if not for_c and (owner if indent else name) not in names and file != "lib.rt" and file[:-3] not in modules:
                    continue
                doc = comment_before(lines, at, "///")
                yield f"{owner}::{name}" if indent and owner else name, doc, clauses(lines, at + 1 if not CLAUSE.match(line) else at)


def first_paragraph(doc):
    return " ".join(doc[: doc.index("")] if "" in doc else doc)


def page(chosen):
    """Returns the text with the contracts of these crates, or of all if there are none."""
    sections = [HEAD]
    for heading, crates in groups():
        if heading.startswith("Tests"):
            continue
        rows = []
        for crate, _ in crates:
            if chosen and crate not in chosen or not os.path.isfile(f"{ROOT}/crates/{crate}/src/lib.rt"):
                continue
            rows.append(f"\n### `{crate}`\n\n{about(crate)}")
            with_clauses = ((name, doc, its_clauses) for name, doc, its_clauses in functions(crate) if its_clauses)
            for name, doc, its_clauses in with_clauses:
                rows.append(f"\n**`{name}`** {first_paragraph(doc)}\n")
                for kind, label, comment, text in its_clauses:
                    mark = "*asks*" if kind == "requires" else ""
                    label = f"`{label}`" if label else ""
                    head = " ".join(filter(None, (mark, label)))
                    rows.append("- " + " ".join(filter(None, (head and f"{head}:", comment, f"`{text}`"))))
        if rows:
            sections.append(f"\n## {heading}\n" + "\n".join(rows) + "\n")
    return "".join(sections)


if __name__ == "__main__":
    print(page(arguments_or_exit(__doc__, lambda arguments: set(arguments) <= set(dependencies()))), end="")
