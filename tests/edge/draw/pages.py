"""Reads pages that the program draws: their sentences, tables and bars."""
import re
import xml.etree.ElementTree as ElementTree

# What a sentence says of an operation, in its text here: its number and its label.
REF = r"⟨(\d+)\|([^⟩]*)⟩"


def element_of(page):
    """The page as an element. It is well formed, except for its tags without an end."""
    text = page.decode()
    if not text.startswith("<!DOCTYPE html>\n<html lang=\"en\">"):
        raise ValueError("no beginning of a page")
    text = re.sub(r"<meta [^>]*>", "", text.removeprefix("<!DOCTYPE html>\n"))
    return ElementTree.fromstring(text)


def classes(element):
    return element.get("class", "").split()


def found(element, tag, name=None):
    """The elements of this tag, and of this class if one is given, in the order of the page."""
    return [inner for inner in element.iter(tag) if name is None or name in classes(inner)]


def spelled(element):
    """The text of an element, in which an operation is its number and its label, and code is in backquotes."""
    text = element.text or ""
    for child in element:
        if "ref" in classes(child):
            number, label = child.find("b").text, child.find("code").text
            if not number.startswith("#"):
                raise ValueError(f"an operation is {number}")
            text += f"⟨{number[1:]}|{label}⟩"
        elif child.tag == "code":
            text += f"`{child.text or ''}`"
        else:
            text += spelled(child)
        text += child.tail or ""
    return text


class Drawn:
    """A page that was drawn."""

    def __init__(self, page):
        self.root = element_of(page)
        self.body = self.root.find("body")
        self.answer = self.body.get("class")
        self.title = self.root.find("head/title").text
        self.said = [spelled(sentence) for sentence in found(self.body, "p", "say")]
        self.facts = "".join(found(self.body, "p", "facts")[0].itertext())
        self.lines = "".join(found(self.body, "pre", "verdict")[0].itertext())

    def by_id(self, name):
        return next((element for element in self.body.iter() if element.get("id") == name), None)

    def lost_links(self):
        """The links that lead to no place of the page."""
        places = {f"#{element.get('id')}" for element in self.body.iter() if element.get("id")}
        return sorted({link.get("href") for link in found(self.body, "a")} - places)

    def bars(self, figure):
        """The numbers of the operations that have a bar in the figure with this name."""
        element = self.by_id(figure)
        bars = found(element, "g", "op") if element is not None else []
        return sorted({int(bar.get("data-op")) for bar in bars if bar.get("data-op")})

    def orders(self):
        """The orders in the tables, by their objects, of those that have all entries."""
        tables = [table.get("id") for table in self.body.iter("table") if "order" in classes(table)]
        whole = [table for table in tables if not any("skip" in name for name, _ in self.rows(table))]
        return {int(name[1:]): [int(re.match(r"⟨(\d+)", cells[1])[1]) for _, cells in self.rows(name)] for name in whole}

    def rows(self, table):
        """The rows of a table: its class, and the texts of its cells."""
        element = self.by_id(table)
        rows = element.findall("tbody/tr") if element is not None else []
        return [(row.get("class", ""), [spelled(cell) for cell in row]) for row in rows]
