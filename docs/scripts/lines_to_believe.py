#!/usr/bin/env python3
"""Counts the lines of definitions that a clause of a contract names, itself or through another definition.

    docs/scripts/lines_to_believe.py [--list] [NAME]
    docs/scripts/lines_to_believe.py --twice

NAME is a definition of specs/, as reading.Texts.IsLinearizableText. With no NAME it prints the counts that README.md and
docs/definitions.md give. Comments, blank lines and imports do not count, nor do enums and structs of the code, which it counts
apart, nor the words of the standard library. Words that come from proofs/ do not count either: those that are met are listed.
With --list each definition follows with the number of its lines, and then each type of the code. With --twice it lists the names
that several crates define, each with these crates."""
import collections
import glob
import os
import re
import sys

sys.dont_write_bytecode = True
ROOT = os.path.dirname(os.path.dirname(os.path.dirname(os.path.realpath(__file__))))
sys.path.insert(0, f"{ROOT}/scripts")

from arguments import arguments_or_exit  # noqa: E402

WORD = re.compile(r"[^\s(){}\[\],;.λ]+")
# What a yes says of a history in memory, and what judge says of a text.
CLAUSES = {"history": ("model.Linearizable.IsLinearizable", "events.Events.denoted", "events.Events.kind_of_object", "model.Orders.events"),
           "judge": ("reading.Texts.IsLinearizableText",),
           # What the lines of verify say of an object that is impossible.
           "reason": ("verifying.Decisions.IsShownReason",)}


class Module:
    """One file of specs/: its definitions, each with its lines, and where its words come from."""

    def __init__(self, path):
        self.crate, _, file = os.path.relpath(path, f"{ROOT}/crates").partition("/specs/")
        self.name = file.removesuffix(".antt").replace("/", ".")
        self.lines, self.used, self.whole, self.constructors = collections.defaultdict(list), {}, {}, {}
        with open(path) as file:
            self.read(file.read())

    def read(self, text):
        for statement in re.finditer(r"^(?:pub )?use Rattle\.([\w.]+?)(?:\.\{([^}]*)\}| as (\w+))\s*$", text, re.M):
            path, names, other = statement.groups()
            if other:
                self.whole[other] = path
            for name in (names or "").replace("\n", " ").split(","):
                self.used[name.strip()] = path
        body = re.sub(r"^(?:pub )?use [^\n]*(?:\n    [^\n]*)*", "", text, flags=re.M)
        current, is_data, in_mutual = None, False, False
        for line in body.split("\n"):
            bare = line.strip()
            if not bare or bare.startswith(("--", "module _")) or bare == "where":
                continue
            indent = len(line) - len(line.lstrip())
            if indent == 0:
                in_mutual = bare in ("mutual", "abbrev mutual")
                if in_mutual:
                    continue
            begins = re.match(r"(?:abbrev |unfoldable )?(?:pub )?(record |data )?([^\s(:{]+)(?= |$)", bare)
            marked = re.match(r"(?:abbrev|unfoldable|record(?! \{)|data|pub) ", bare)
            is_field = indent > 0 and bare.startswith("pub ") and not begins.group(1) and not in_mutual
            if marked and not is_field and (indent == 0 or in_mutual):
                current, is_data = begins.group(2), begins.group(1) == "data "
            elif is_data and re.match(r"[^\s(:{]+ : ", bare):
                self.constructors[bare.split(" ")[0]] = current
            self.lines[current].append(line)

    def target(self, word, definition):
        """Where a word of a definition is defined: a pair of a module's name and a definition, or none."""
        head, _, rest = word.partition(".")
        if head in self.whole and rest:
            return self.whole[head], rest.split(".")[0]
        if word in self.used:
            return self.used[word], word
        if head in self.used:
            return self.used[head], head
        word = self.constructors.get(word, word)
        return (f"{self.crate}.specs.{self.name}", word) if word in self.lines and word != definition else None


def modules():
    by_path = {}
    for path in glob.glob(f"{ROOT}/crates/*/specs/**/*.antt", recursive=True):
        module = Module(path)
        by_path[f"{module.crate}.specs.{module.name}"] = module
    return by_path


NAMES = r"[^\s(){}\[\],;:λ]+"
TOKEN = re.compile(rf"[(){{}}]|λ|{NAMES}|:")


def parts_of(module, name):
    """The parts of a definition that bind their own names: its head, each clause of a function, each field of a record."""
    parts = [""]
    for line in module.lines[name]:
        code, bare = line.split(" -- ")[0], line.strip()
        is_field = line.startswith(" ") and re.match(rf"(?:pub )?{NAMES} : ", bare)
        if parts[-1] and (is_field or bare.startswith((f"{name} ", "pub "))):
            parts.append("")
        parts[-1] += code + "\n"
    return parts


def words_of(module, name):
    """What the words of a definition refer to, except for those that it binds: its parameters and fields, and names in λ and (x : A)."""
    targets, shared = [], set()

    def refer(word, bound):
        for spelled in {word, word.strip(".")}:
            target = None if spelled.partition(".")[0] in bound else module.target(spelled, name)
            if target:
                targets.append(target)

    for place, part in enumerate(parts_of(module, name)):
        bound = set(shared)
        if part.startswith(f"{name} ") and re.search(r" =\s", part):
            # The names on the left of a clause are bound, except for constructors.
            left, part = re.split(r" =\s", part, maxsplit=1)
            for word in re.findall(NAMES, left):
                path, of = module.target(word, name) or ("", "")
                if word in module.constructors or "declared" in path:
                    targets.append((path, of))
                else:
                    bound.add(word)
        bound |= walk(part, bound, refer)
        field = re.match(rf"\s+(?:pub )?({NAMES}) : ", part)
        if place == 0 and not field:
            shared |= bound  # The parameters.
        elif field:
            shared.add(field.group(1))
    return targets


def walk(part, bound, refer):
    """Says what the words refer to, each with the names that are bound at its place, and returns those that the outermost level binds."""
    levels, tokens, place = [set(bound)], TOKEN.findall(part), 0
    while place < len(tokens):
        token = tokens[place]
        end = place + 1
        if token == "λ":
            while end < len(tokens) and not tokens[end - 1].endswith("."):
                levels[-1].add(tokens[end].rstrip("."))
                end += 1
        elif token in "({":
            while end < len(tokens) and re.fullmatch(NAMES, tokens[end]):
                end += 1
            if end > place + 1 and end < len(tokens) and tokens[end] == ":":
                levels[-1] |= set(tokens[place + 1:end])
            else:
                end = place + 1
            levels.append(set(levels[-1]))
        elif token in ")}":
            levels.pop() if len(levels) > 1 else None
        elif token != ":" and tokens[end:end + 1] != ["="]:
            refer(token, levels[-1])
        place = end
    return levels[0]


def closure(known, names):
    """The definitions that these name, the types of the code among them, and the words that come from proofs/."""
    left = [(f"{crate}.specs.{module}", name) for crate, module, name in (dotted.split(".") for dotted in names)]
    seen, declared, unread = set(), set(), set()
    while left:
        path, name = left.pop()
        if "declared" in path:
            declared.add(path.split(".TheVariants")[0])
            continue
        if ".proofs." in path:
            unread.add(f"{path}.{name}")
        if path not in known:
            continue
        name = known[path].constructors.get(name, name)
        if name not in known[path].lines and name in known[path].used:
            # A name that the file passes on from another.
            left.append((known[path].used[name], name))
        if (path, name) in seen or name not in known[path].lines:
            continue
        seen.add((path, name))
        module = known[path]
        left += words_of(module, name)
    return seen, declared, unread


def crates_of_names():
    """The public names of specs/, each with the crates that define it."""
    crates = collections.defaultdict(set)
    for path, module in modules().items():
        for name in module.lines.keys() - {None, "mod"}:
            if re.search(rf"\bpub (?:record |data )?{re.escape(name)}(?= |$)", module.lines[name][0]):
                crates[name].add(path.partition(".")[0])
    return crates


def print_twice():
    """Prints the names that several crates define, each with these crates."""
    for name, those in sorted(crates_of_names().items()):
        if len(those) > 1:
            print(f"{name}: {', '.join(sorted(those))}")


def print_counts(names, lists):
    """Prints the counts for these names, or for the clauses if there are none, and the definitions too if asked for."""
    known = modules()
    for clause, begin in ({"": names} if names else CLAUSES).items():
        for name in begin:
            if not closure(known, [name])[0]:
                sys.exit(f"lines_to_believe.py: no definition has the name {name}")
        seen, declared, unread = closure(known, begin)
        lines = sum(len(known[path].lines[name]) for path, name in seen)
        print(f"{clause or ' '.join(names)}: {lines} lines in {len(seen)} definitions, and {len(declared)} types of the code")
        if unread:
            print(f"  not counted, from proofs: {', '.join(sorted(unread))}")
        if lists:
            for path, name in sorted(seen):
                print(f"  {path}.{name}: {len(known[path].lines[name])}")
            for path in sorted(declared):
                print(f"  {path}: a type of the code")


def are_known(arguments):
    """Whether these are arguments of the script."""
    names = arguments[1:] if arguments[:1] == ["--list"] else arguments
    return arguments == ["--twice"] or not names or len(names) == 1 and names[0].count(".") == 2


def main(arguments):
    if arguments == ["--twice"]:
        print_twice()
    else:
        lists = arguments[:1] == ["--list"]
        print_counts(arguments[1:] if lists else arguments, lists)


if __name__ == "__main__":
    main(arguments_or_exit(__doc__, are_known))
