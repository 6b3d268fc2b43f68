#!/usr/bin/env python3
"""Writes the manual page fcbench(1), which is three pages of docs/ in roff, to standard output.

    docs/scripts/man_page.py > fcbench.1
    docs/scripts/man_page.py | man -l -"""
import os
import re
import sys

sys.dont_write_bytecode = True
ROOT = os.path.dirname(os.path.dirname(os.path.dirname(os.path.realpath(__file__))))
sys.path.insert(0, f"{ROOT}/scripts")

from arguments import arguments_or_exit  # noqa: E402

HEAD = """.\\" Made by docs/scripts/man_page.py from docs/commands.md, docs/formats.md and docs/import.md
.TH FCBENCH 1 "" "fcbench" "User Commands"
.SH NAME
fcbench \\- judges histories of concurrent objects
.SH SYNOPSIS
"""
# The inline marks: code, bold, italics, a link, a break. What a code has in it is no mark.
MARKS = re.compile(r"`([^`]+)`|\*\*(.+?)\*\*|\*([^*\s][^*]*)\*|\[([^\]]+)\]\([^)\s]+\)|(<br>)")


def plain(text):
    """Text that roff prints as it is."""
    text = text.replace("\\|", "|").replace("\\", "\\e").replace("-", "\\-").replace("'", "\\(aq").replace("^", "\\(ha").replace("~", "\\(ti")
    return text.replace("`", "\\(ga")


def inline(text):
    """A text with its marks, as roff."""
    out, at = [], 0
    for mark in MARKS.finditer(text):
        out.append(plain(text[at : mark.start()]))
        code, bold, italic, link, is_break = mark.groups()
        if code or bold:
            out.append("\\fB" + (plain(code) if code else inline(bold).replace("\\fR", "\\fB")) + "\\fR")
        elif italic:
            out.append(f"\\fI{plain(italic)}\\fR")
        else:
            out.append("; " if is_break else inline(link))
        at = mark.end()
    return "".join(out) + plain(text[at:])


def line(text):
    """A line of text, which must not be taken for a request."""
    text = inline(text)
    return "\\&" + text if text.startswith((".", "'")) else text


def cells(row):
    return [cell.strip() for cell in re.split(r"(?<!\\)\|", row.strip().strip("|"))]


def table(rows):
    """Each row is a tag, and what belongs to it: the cell after it as it is, and the others with the heads of their columns. A head that is a number
    is there in any case."""
    heads = cells(rows[0])
    for row in rows[2:]:
        tag, *rest = cells(row)
        filled = [(number, head, cell) for number, (head, cell) in enumerate(zip(heads[1:], rest)) if cell not in ("", "-")]
        parts = [f"{head}: {cell}" if number or head.isdigit() else cell for number, head, cell in filled]
        yield from (".TP", line(tag) or "\\&", line(". ".join(parts)) or "\\&")


def code(rows):
    yield from (".PP", ".RS 4", ".nf")
    for row in rows:
        row = plain(row)
        yield "\\&" + row if row.startswith((".", "\\(aq")) else row
    yield from (".fi", ".RE")


def blocks(text):
    """The blocks of the page: each a kind and its lines."""
    kind, rows = None, []
    for row in text.split("\n"):
        is_code = row.startswith("    ") and kind in (None, "code")
        new = "head" if row.startswith("#") else "table" if row.startswith("|") else "item" if row.startswith("- ") else "code" if is_code else "text"
        if not row.strip():
            new = "code" if kind == "code" and rows else None
        elif new == "text" and kind in ("text", "item"):
            new = kind
            rows.append(row)
            continue
        if new == kind and new in ("code", "table"):
            rows.append(row)
            continue
        if rows:
            yield kind, rows
        kind, rows = new, [row] if new else []
    if rows:
        yield kind, rows


def roff(kind, rows):
    """A block as lines of roff."""
    if kind == "head":
        marks, _, title = rows[0].partition(" ")
        yield (".SH " if len(marks) == 2 else ".SS ") + f'"{inline(title)}"'
    elif kind == "table":
        yield from table(rows)
    elif kind == "code":
        yield from code([row[4:] for row in "\n".join(rows).rstrip().split("\n")])
    elif kind == "item":
        yield from (".IP \\(bu 2", line(" ".join(row.strip().removeprefix("- ") if n == 0 else row.strip() for n, row in enumerate(rows))))
    else:
        yield from (".PP", line(" ".join(row.strip() for row in rows)))


# The pages, the first of which begins with all commands. What another one begins with is a section with its title.
PAGES = ("commands", "formats", "import")


def text_of(name):
    with open(f"{ROOT}/docs/{name}.md") as file:
        text = file.read()
    return text.partition("\n")[2] if name == PAGES[0] else f"#{text}"


def page():
    text = "\n".join(map(text_of, PAGES))
    synopsis = re.findall(r"^    (fcbench .*)$", text.partition("\n## ")[0], re.M)
    out = [HEAD.rstrip("\n")]
    for number, words in enumerate(synopsis):
        out += ([".br"] if number else []) + [f"\\fB{plain(words)}\\fR"]
    out.append(".SH DESCRIPTION")
    for kind, rows in blocks(text):
        out += roff(kind, rows)
    return "\n".join(out) + "\n"


if __name__ == "__main__":
    arguments_or_exit(__doc__, lambda arguments: not arguments)
    sys.stdout.write(page())
