"""Checks that documents agree with the code: tables of crates, call trees, contracts, counts of lines to believe, names that several crates define,
links, words to avoid, widths of lines, and scripts. And that no code is there twice that was not accepted."""
import glob
import io
import os
import re
import subprocess
import sys
import tokenize

from .running import PROGRAM_OF, ROOT
from .words import ABOUT

sys.path[:0] = [f"{ROOT}/scripts", f"{ROOT}/docs/scripts", f"{ROOT}/bench"]

import contract_list  # noqa: E402
import lines_to_believe  # noqa: E402
import reasons  # noqa: E402
from crates_list import dependencies, with_below  # noqa: E402

PAGES = [
    f"{base}/{file}"
    for folder in ("", "docs", "bench", "examples")
    for base, _, files in os.walk(f"{ROOT}/{folder}".rstrip("/"))
    for file in sorted(files)
    if file.endswith(".md") and (folder or base == ROOT)
]


def read(path):
    with open(path, errors="replace") as file:
        return file.read()


def is_in_python(name, text):
    """Whether a file is in Python, by its ending or its first line."""
    return name.endswith(".py") or "python3" in text.partition("\n")[0]


def names_in_python():
    """The files of the repository that are in Python, modules and scripts."""
    listed = subprocess.run(["git", "ls-files"], cwd=ROOT, capture_output=True, text=True, check=True).stdout.split("\n")
    may_be = [name for name in listed if re.fullmatch(r"[^.]+(\.py)?", name)]
    return [name for name in may_be if is_in_python(name, read(f"{ROOT}/{name}"))]


def documents(program, report):
    """What scripts of docs/ find is what the pages say. CONTRIBUTING names each file of tests/edge."""
    ran = subprocess.run([f"{ROOT}/docs/scripts/crate_tables.py", "--check"], capture_output=True, text=True)
    report.equal("documents: docs/architecture.md agrees with crates.txt", 0, ran.returncode, ran.stdout + ran.stderr)
    ran = subprocess.run([f"{ROOT}/docs/scripts/sizes.py", "--check"], capture_output=True, text=True)
    report.equal("documents: the sizes in docs/DECISIONS.md are right", 0, ran.returncode, ran.stdout + ran.stderr)
    ran = subprocess.run([f"{ROOT}/docs/scripts/closures.py", "--check"], capture_output=True, text=True)
    report.equal("documents: what both proved programs are made of", 0, ran.returncode, ran.stdout + ran.stderr)
    ran = subprocess.run([f"{ROOT}/docs/scripts/contract_list.py"], capture_output=True, text=True)
    report.equal("documents: docs/scripts/contract_list.py reads each clause", (0, ""), (ran.returncode, ran.stderr))
    ran = subprocess.run([f"{ROOT}/docs/scripts/lost_clauses.py", "HEAD"], capture_output=True, text=True)
    counts = re.search(r"^\d{3} clauses of HEAD, \d+ of which are not here word for word; \d+ new requires$", ran.stdout, re.M)
    report.holds("documents: docs/scripts/lost_clauses.py reads the clauses of the last commit", ran.returncode == 0 and counts, ran)
    ran = subprocess.run([f"{ROOT}/docs/scripts/lines_to_believe.py", "--twice"], capture_output=True, text=True)
    twice = [line.partition(":")[0] for line in ran.stdout.splitlines()]
    part = read(f"{ROOT}/docs/definitions.md").partition("Several crates may define one name")[2].partition("\n## ")[0]
    unexplained = [name for name in twice if f"`{name}`" not in part]
    report.equal("documents: docs/definitions.md explains each name that several crates define", (True, []), (bool(twice), unexplained))
    ran = subprocess.run([f"{ROOT}/docs/scripts/lines_to_believe.py"], capture_output=True, text=True)
    counted = re.findall(r"^(\w+)\D+(\d+)", ran.stdout, re.M)
    report.equal("documents: three counts of lines to believe", ["history", "judge", "reason"], [name for name, _ in counted], ran.stderr)
    for page in ("README.md", "docs/definitions.md", "docs/guarantees.md"):
        text = read(f"{ROOT}/{page}")
        for name, count in counted:
            if name == "reason" and page != "docs/definitions.md":
                continue
            report.holds(f"documents: {page} has the count for {name}, {count}", re.search(rf"\b{count}\b", text))
    index = read(f"{ROOT}/docs/CONTRIBUTING.md").partition("## The tests in `tests/edge`\n")[2].partition("\n## ")[0]
    files = sorted(glob.glob(f"{ROOT}/tests/edge/**/*.py", recursive=True))
    lacks = [file for file in map(os.path.basename, files) if file != "__init__.py" and not re.search(rf"[`/]{re.escape(file)}`", index)]
    report.equal("documents: files of tests/edge that CONTRIBUTING does not name", [], lacks)


def call_trees(program, report):
    """The functions that the call trees of docs/architecture.md name are defined where they say, and called where they say."""
    ran = subprocess.run([f"{ROOT}/docs/scripts/call_trees.py"], capture_output=True, text=True)
    report.equal("call_trees: docs/architecture.md agrees with the code", (0, ""), (ran.returncode, ran.stdout + ran.stderr))


def anchors(text):
    """The anchors of the headings of a page, as GitHub makes them."""
    headings = re.findall(r"^#+ (.*)$", text, re.M)
    return {re.sub(r"[^\w\- ]", "", heading.lower()).replace(" ", "-") for heading in headings}


def links(program, report):
    """Each link of a page to a file of the repository leads to one, to a heading of it where it names one, and is named as the page that it names."""
    for page in PAGES:
        for label, target in re.findall(r"(?:\[([^\[\]]*)|)\]\(([^)\s]+)\)", read(page)):
            if "://" in target:
                continue
            path, _, anchor = target.partition("#")
            path = os.path.normpath(f"{os.path.dirname(page)}/{path}") if path else page
            there = os.path.exists(path) and (not anchor or anchor in anchors(read(path)))
            report.holds(f"links: {os.path.relpath(page, ROOT)}: {target}", there)
            if label.endswith(".md"):
                named = f"links: {os.path.relpath(page, ROOT)}: the label of {target}"
                report.equal(named, os.path.basename(path), os.path.basename(label))


def rows_of_several():
    """The rows of the table of docs/definitions.md on names that mean different things: the names, and the crates."""
    crates = set(os.listdir(f"{ROOT}/crates"))
    table = read(f"{ROOT}/docs/definitions.md").partition("| name | what it is, by crate |\n|---|---|\n")[2].partition("\n\n")[0]
    for names, cell in re.findall(r"^\| (.*?) \| (.*) \|$", table, re.M):
        yield re.findall(r"`(\w+)`", names), crates & set(re.findall(r"`(\w+)`", cell))


def definition_of(name):
    """The pattern of a definition in specs/, maybe in a module with parameters or in a mutual block. There its clauses distinguish it from a
    field."""
    return rf"^ *(?:(?:abbrev|unfoldable) pub (?:\w+ )?|pub (?:record|data) ){name}(?= |$)|^( *)pub {name} : .*\n(?:\1 .*\n)*\1{name} "


def is_defined_in(crate, name, file="**/*"):
    """Whether a file of specs/ of a crate defines a name, or any of them or a type of its code."""
    sources = [(definition_of(name), f"specs/{file}.antt")]
    if file == "**/*":
        sources.append((rf"^pub(?:\(crate\))? (?:struct|enum) {name}\b", "src/**/*.rt"))
    paths = ((pattern, path) for pattern, files in sources for path in glob.glob(f"{ROOT}/crates/{crate}/{files}", recursive=True))
    return any(re.search(pattern, read(path), re.M) for pattern, path in paths)


def names_of_several(program, report):
    """Of each name that docs/definitions.md says several crates define, these crates define one of the row, and no other crate does."""
    defined = lines_to_believe.crates_of_names()
    rows = list(rows_of_several())
    report.holds("names_of_several: the table has rows", len(rows) >= 10, rows)
    for names, crates in rows:
        own = set().union(*(defined.get(name, set()) for name in names))
        own |= {crate for crate in crates if any(is_defined_in(crate, name) for name in names)}
        report.equal(f"names_of_several: the crates of {', '.join(names)}", sorted(own), sorted(crates))


def names_of_rows(program, report):
    """Each name in the first column of a table of docs/definitions.md is defined: `File.name` and the names after it in that file, and others in a
    crate that the heading or the row names. In any page `File.name` is defined in a file of that name."""
    every, (crates, strange, count) = set(os.listdir(f"{ROOT}/crates")), (set(), [], 0)
    text = read(f"{ROOT}/docs/definitions.md")
    for line in text[text.index("\n## `model`") :].split("\n"):
        if line.startswith("#"):
            crates = every & set(re.findall(r"`(\w+)`", line))
        own = crates
        # A cell of several groups, each after its crate or file. A crate is named once.
        for group in line.partition(" | ")[0].split("; ") if line.startswith("| `") and "| in words |" not in line else ():
            crate, _, names = group.rpartition("`: ")
            own, file = every & {crate.removeprefix("| `")} or own, ""
            for before, name in re.findall(r"`((?:\w+\.)*)(\w+)`", names):
                file, count = before[:-1].replace(".", "/") or file, count + 1
                if name != "antt" and not any(is_defined_in(crate, name, file or "**/*") for crate in own):
                    strange.append(f"{file} {name}".strip())
    report.holds("names_of_rows: there are some", count >= 900, count)
    report.equal("names_of_rows: not defined where docs/definitions.md says", [], strange)
    for page in PAGES:
        named = [(module[:-1].replace(".", "/"), name) for module, name in re.findall(r"`((?:[A-Z]\w*\.)+)(\w+)`", read(page)) if name != "antt"]
        files = {module for module, _ in named if glob.glob(f"{ROOT}/crates/*/specs/{module}.antt")}
        strange = [f"{module} {name}" for module, name in named if module in files and not is_defined_in("*", name, module)]
        report.equal(f"names_of_rows: not defined where {os.path.relpath(page, ROOT)} says", [], strange)


def clauses_by_function():
    """The names of the clauses of each public function, by the name of the function."""
    clauses_of = {}
    for crate in sorted(os.listdir(f"{ROOT}/crates")):
        if not os.path.exists(f"{ROOT}/crates/{crate}/src/lib.rt"):
            continue
        for name, _, clauses in contract_list.functions(crate):
            clauses_of.setdefault(name.rpartition("::")[2], set()).update(clause[1].rstrip() for clause in clauses if clause[1])
    return clauses_of


def definitions_of_clauses(program, report):
    """Each definition in specs/ whose name begins with a capital, and that is in a clause of a public function, is on docs/definitions.md."""
    defined, page = lines_to_believe.crates_of_names(), read(f"{ROOT}/docs/definitions.md")
    explained = {name for quoted in re.findall(r"`([^`\n]+)`", page) for name in re.findall(r"\w+", quoted)}
    used = set()
    for crate in dependencies():
        if not crate.endswith("_tests") and os.path.exists(f"{ROOT}/crates/{crate}/src/lib.rt"):
            texts = [clause[3] for _, _, clauses in contract_list.functions(crate) for clause in clauses]
            words = {word for text in texts for word in re.findall(r"\b[A-Z]\w*", text)}
            used |= {word for word in words if defined.get(word, set()) & set(with_below(crate))}
    report.holds("definitions_of_clauses: there are some", len(used) >= 200, len(used))
    report.equal("definitions_of_clauses: not on docs/definitions.md", [], sorted(used - explained))


def is_part_of(record, part):
    """Whether a definition in specs/ has a part of this name."""
    for path in glob.glob(f"{ROOT}/crates/*/specs/**/*.antt", recursive=True):
        body = re.search(rf"^pub record {record} .*?(?=^\S|\Z)", read(path), re.M | re.S)
        if body and re.search(rf"^ +pub {part} :", body[0], re.M):
            return True
    return False


def named_clauses(program, report):
    """Where a page says `CLAUSE` of `FUNCTION`, the contract has the clause; `RECORD.PART` of `FUNCTION` is a part of a definition."""
    clauses = clauses_by_function()
    crates = set(os.listdir(f"{ROOT}/crates"))
    sources = glob.glob(f"{ROOT}/crates/*/src/**/*.rt", recursive=True)
    named = {name for path in sources for name in re.findall(r"\b(?:ensures|requires) (\w+) \{", read(path))}
    # The changelog tells what was there.
    for page in [page for page in PAGES if not page.endswith("CHANGELOG.md")]:
        for names, function in re.findall(r"((?:`[\w.]+`(?: \([^()]*\))?(?:, | and )?)+) of `(\w+)`", read(page)):
            for name in re.findall(r"`([\w.]+)`", re.sub(r"\([^()]*\)", "", names)):
                record, _, part = name.rpartition(".")
                # Of a crate a page names files and definitions, and beside a function types.
                if function not in clauses or function in crates or not record and name[0].isupper():
                    continue
                there = is_part_of(record, part) if record else name in clauses[function] | clauses.keys()
                report.holds(f"named_clauses: {os.path.relpath(page, ROOT)}: `{name}` of `{function}`", there)
        for name in re.findall(r"\bclauses? `(\w+)`", read(page)):
            report.holds(f"named_clauses: {os.path.relpath(page, ROOT)}: the clause `{name}`", name in named)


def words_to_avoid():
    """The words in the first columns of the two tables of CONTRIBUTING."""
    tables = read(f"{ROOT}/docs/CONTRIBUTING.md").split("| avoid | write |\n")[1:]
    return [re.findall(r"^\| ([^|]+?) \|", table.partition("\n\n")[0], re.M) for table in tables]


def said_in_python(text):
    """The comments and the strings of a text in Python: its names may be any."""
    kinds = (tokenize.COMMENT, tokenize.STRING)
    return "\n".join(token.string for token in tokenize.generate_tokens(io.StringIO(text).readline) if token.type in kinds)


def strings(lines):
    """What is in double quotes in each line. A line whose quotes are not in pairs is part of a longer string, and counts as a whole."""
    return "\n".join(" ".join(re.findall(r'"(?:[^"\\]|\\.)*"', line)) if line.count('"') % 2 == 0 else line for line in lines)


def said_in_code(text):
    """The lines of a text in another language that are comments, and its strings in double quotes."""
    comments = re.findall(r"^ *(?://|#|;|/?\*).*", text, re.M)
    return "\n".join([*comments, strings(text.split("\n"))])


def scripts():
    """What the scripts, callers and headers of the repository say."""
    for base, folders, files in os.walk(ROOT):
        top = os.path.relpath(base, ROOT)
        others = {".git", "out", "target", "__pycache__"} | ({"crates", "examples"} if top == "." else set())
        folders[:] = [folder for folder in folders if folder not in others]
        for file in (os.path.relpath(f"{base}/{name}", ROOT) for name in files):
            if not file.endswith((".md", ".png", ".edit", ".pyc")) and file != "tests/edge/documents.py":
                text = read(f"{ROOT}/{file}")
                yield file, said_in_python(text) if is_in_python(file, text) else said_in_code(text)


def messages_and_comments():
    """Of each file of the libraries and programs its messages, or None, and its comments. Tests have no messages."""
    for base, _, files in os.walk(f"{ROOT}/crates"):
        for file in sorted(file for file in files if "/src" in base and file.endswith(".rt") or "/specs" in base and file.endswith(".antt")):
            name = os.path.relpath(f"{base}/{file}", ROOT)
            text = read(f"{ROOT}/{name}")
            lines = [line for line in text.split("\n") if re.match(r" *(//|--)", line)]
            is_message = name.endswith(".rt") and not name.split("/")[1].endswith("_tests")
            yield name, strings(line for line in text.split("\n") if not re.match(r" *//", line)) if is_message else "", "\n".join(lines)


def names_in_code():
    """Each name in the code of the crates, in small letters with a line between its words, and where it is."""
    for path in sorted(glob.glob(f"{ROOT}/crates/*/src/**/*.rt", recursive=True)):
        text = re.sub(r"//.*|\"(?:[^\"\\]|\\.)*\"", "", read(path))
        for name in sorted(set(re.findall(r"[A-Za-z_]\w*", text))):
            yield "_" + re.sub(r"(?<=[a-z0-9])(?=[A-Z])", "_", name).lower() + "_", f"{os.path.relpath(path, ROOT)}: {name}"


def without_what_may_stay(texts):
    """The texts without two phrases that may stay, in which words to avoid are."""
    return {name: re.sub("there is none|is none of", "", text) for name, text in texts.items()}


def has_word(text, word):
    """Whether a text has a word to avoid. Most have not even its letters after the first, up to a number."""
    pattern = rf"\b[{word[0]}{word[0].upper()}]{word[1:].replace('N', '[0-9]+')}\b"
    return word[1:].partition("N")[0] in text and re.search(pattern, text)


def plain_words(program, report):
    """No page, comment, message or script has one of the words to avoid, and no name in the code of the crates one of the first table."""
    tables = words_to_avoid()
    report.holds("plain_words: CONTRIBUTING has two tables of words to avoid", len(tables) == 2 and all(len(table) > 5 for table in tables))
    texts = {os.path.relpath(page, ROOT): read(page) for page in PAGES if not page.endswith("CONTRIBUTING.md")}
    texts.update(scripts())
    comments = {}
    for name, messages, remarks in messages_and_comments():
        texts[name], comments[name] = messages, remarks
    texts, comments = without_what_may_stay(texts), without_what_may_stay(comments)
    for words, looked_at in zip(tables, ([texts, comments], [texts])):
        for word in words:
            where_said = {name for group in looked_at for name, text in group.items() if has_word(text, word)}
            report.equal(f"plain_words: '{word}' is in no text", [], sorted(where_said))
    names = list(names_in_code())
    for word in tables[0]:
        where_said = [where for name, where in names if f"_{word.replace(' ', '_')}_" in name]
        report.equal(f"plain_words: '{word}' is in no name", [], where_said)


# The most characters of a line of these files: of proofs, of definitions, of code, of comments of the tools, and of prose.
WIDTHS = {
    "crates/*/proofs/**/*.antt": 120, "crates/*/specs/**/*.antt": 100, "crates/*/src/**/*.rt": 100, "tools/*/src/**/*.rs": 100,
    "tools/*/tests/**/*.rs": 100, "docs/*.md": 150, "README.md": 150, "CHANGELOG.md": 150,
}
# And of files in Python, some of which have names without an ending.
WIDTH_OF_PYTHON = 150
# What cannot be divided: a name that the kit made, an attribute, which rt fmt writes on one line, and a text.
ONE_NAME = re.compile(r"use \S+\{\S+\}$| *#\[tactic\(.*\)\]$| *b?\"([^\"\\]|\\.)*\"[,;]?$")
# A row of a table, or a line that is one link.
NO_PROSE = re.compile(r"\|| *(?:[-*] )?\[[^\[\]]*\]\(\S+\)\W?$")
# What is no comment of the tools: rustfmt lays out their code.
NO_COMMENT = re.compile(r" *(?!//)\S|$")


def lines_with_numbers(path):
    """The lines of a file, counted from 1: of a page those of prose, and of a file of the tools its comments."""
    is_fenced, is_code, before = False, False, ""
    left_out = {".md": NO_PROSE, ".rs": NO_COMMENT}.get(os.path.splitext(path)[1], ONE_NAME)
    for number, line in enumerate(read(path).split("\n"), 1):
        if path.endswith(".md"):
            is_fenced ^= line.startswith("```")
            is_code = line.startswith("    ") and (is_code or not before)
            before = line
        if not (is_fenced or is_code or left_out.match(line)):
            yield number, line


def files_with_widths():
    """The names of the sorts of files, each with its files and the most characters of their lines."""
    for files, most in WIDTHS.items():
        yield files, sorted(glob.glob(f"{ROOT}/{files}", recursive=True)), most
    yield "in Python", [f"{ROOT}/{name}" for name in names_in_python()], WIDTH_OF_PYTHON


def widths(program, report):
    """No line of a proof has more than 120 characters, of a definition, of code or of a comment of the tools more than 100, and of prose or of Python
    more than 150."""
    for files, paths, most in files_with_widths():
        report.holds(f"widths: there are files {files}", paths)
        counted = ((path, number, len(line)) for path in paths for number, line in lines_with_numbers(path))
        wide = [f"{os.path.relpath(path, ROOT)}:{number}: {width}" for path, number, width in counted if width > most]
        report.equal(f"widths: lines of files {files} with more than {most} characters", [], wide)


def head_of(text):
    """The comment that a file of proofs begins with, as one line."""
    return " ".join(re.match(r"(?:-- .*\n)*", text)[0].replace("-- ", "").split("\n"))


# What a head has that also says how: a second sentence, or the rest of one after a colon or the word by.
HOW = re.compile(r"[.:] \S|, by ")
# The heading of a section of a file of proofs.
SECTION = re.compile(r"^ *-- ---- \S", re.M)


def heads_of_proofs(program, report):
    """Each file of proofs with 40 lines or more begins with a comment, which says what is proved and how: it has 60 characters or more, and two
    sentences, or the how after a colon or the word by. Each with 200 lines or more has at least two sections with headings."""
    texts = {os.path.relpath(path, ROOT): read(path) for path in glob.glob(f"{ROOT}/crates/*/proofs/**/*.antt", recursive=True)}
    report.holds("heads_of_proofs: there are files", texts)
    long = {path: text for path, text in sorted(texts.items()) if text.count("\n") >= 40 and not path.endswith("/Lib.antt")}
    short = [path for path, text in long.items() if len(head_of(text)) < 60 or not HOW.search(head_of(text).strip())]
    report.equal("heads_of_proofs: files whose head is missing, or does not say how", [], short)
    lacks = [path for path, text in long.items() if text.count("\n") >= 200 and len(SECTION.findall(text)) < 2]
    report.equal("heads_of_proofs: files of 200 lines or more without two headings", [], lacks)


def like_lines(program, report):
    """No two places of the code have 12 or more like lines, except for those that tests/like_lines.accepted has."""
    ran = subprocess.run([sys.executable, f"{ROOT}/tests/like_lines", "--check"], capture_output=True, text=True)
    report.equal("like_lines: pairs of places that are not accepted", (0, "", ""), (ran.returncode, ran.stdout, ran.stderr))


# Of each recorder how a line of the example in its comments begins, and its tests.
RECORDERS = {
    "c/recorder.h": (r" \*     (.+)", ["c/test_recorder.c"]),
    "cpp/recorder.hpp": (r"//     (.+)", ["cpp/test_recorder.cpp"]),
    "rust/src/recorder.rs": (r" *//[/!] ((?:let |journal\.).+)", ["rust/tests/copied.rs", "rust/tests/recorder.rs"]),
    "go/recorder.go": (r"//\t(.+)", ["go/example_test.go"]),
    "python/recorder.py": (r"    ((?:recorder|journals?|text)\b.+)", ["python/test_recorder.py"]),
}


def code(text):
    """The lines of a text without the space around them."""
    return [line.strip() for line in text.strip("\n").split("\n")]


def snippets(program, report):
    """The snippets of docs/embedding.md and docs/tutorial.md, and the examples of the recorders, are code that the gate compiles and runs."""
    snippets_of_page = re.findall(r"^```(c|cpp|rust|go|python)\n(.*?)^```$", read(f"{ROOT}/docs/embedding.md"), re.M | re.S)
    report.holds("snippets: docs/embedding.md has some", len(snippets_of_page) >= 5)
    for language, snippet in snippets_of_page:
        folder = f"{ROOT}/callers/{language}"
        files = [
            "\n".join(code(read(f"{base}/{file}")))
            for base, _, files in os.walk(folder)
            for file in files
            if "test" in f"{base}/{file}"[len(ROOT) :]
        ]
        report.holds(f"snippets: a test in {language} has {code(snippet)[0]}", any("\n".join(code(snippet)) in text for text in files), snippet)
    page = read(f"{ROOT}/docs/tutorial.md")
    own = code(read(f"{ROOT}/docs/record_queue.py")) + code(read(f"{ROOT}/callers/python/test_recorder.py"))
    for line in re.findall(r"^    ((?:journal\.|answer = |assert ).+)$", page, re.M):
        report.holds(f"snippets: docs/tutorial.md: {line}", line in own)
    for recorder, (line, tests) in RECORDERS.items():
        example = re.findall(f"^{line}$", read(f"{ROOT}/callers/{recorder}").partition("\nclass ")[0], re.M)
        own = {own_line for test in tests for own_line in code(read(f"{ROOT}/callers/{test}"))}
        lacks = [example_line for example_line in example if example_line.strip() not in own and not example_line.startswith(("//", "#"))]
        report.holds(f"snippets: {recorder} has an example", len(example) >= 5, example)
        report.equal(f"snippets: lines of {recorder} that no test has", [], lacks)


# Those that a user copies or is shown.
OF_USERS = ("callers/python/", "callers/dask/", "docs/record_queue.py")


def usages(program, report):
    """Each script in Python says its usage, so that what it imports is there, and refuses another word. Those with argparse do so with 2."""
    texts = {name: read(f"{ROOT}/{name}") for name in names_in_python() if not name.startswith(OF_USERS)}
    by_argparse = [name for name, text in texts.items() if re.search("^import argparse", text, re.M)]
    run_by_name = [name for name, text in texts.items() if "python3" in text.partition("\n")[0]]
    programs = sorted({*by_argparse, *run_by_name})
    report.holds("usages: there are some", len(programs) >= 20, programs)
    for script in programs:
        for word, status in (("--help", 0), ("-h", 0), ("--no-such-word", 2 if script in by_argparse else 64)):
            ran = subprocess.run([sys.executable, f"{ROOT}/{script}", word], capture_output=True, text=True)
            report.equal(f"usages: {script} {word}", (status, status == 0, status != 0), (ran.returncode, bool(ran.stdout), bool(ran.stderr)), ran)


def lists_of_commands(program, report):
    """The scripts that choose a program read the table of commands. The rows of the command lines say what it says, and pages have each command."""
    report.holds("lists_of_commands: each is of a program", PROGRAM_OF and set(PROGRAM_OF.values()) == {"tools", "verifier", "bench"}, PROGRAM_OF)
    for script in ("fcbench", "tools/fcbench.sh", "install"):
        report.holds(f"lists_of_commands: {script} names the table", "commands.txt" in read(f"{ROOT}/{script}"))
    rows = {"tools": "tools/fcbench-tools/src/command_line/syntax.rs"}
    overview, _, statuses = read(f"{ROOT}/docs/commands.md").partition("\n## Exit statuses\n")
    readme = read(f"{ROOT}/README.md").partition("| command | what it does | proved |\n")[2].partition("\n\n")[0]
    for command, own in PROGRAM_OF.items():
        file = rows.get(own, "crates/command_line/src/table.rt")
        is_same = re.search(rf'"{command}",\s+(?:about: )?"{re.escape(ABOUT[command])}"', read(f"{ROOT}/{file}"))
        report.holds(f"lists_of_commands: {file} says of {command} what the table says", is_same, ABOUT[command])
        report.holds(f"lists_of_commands: README.md has {command}", re.search(rf"`{command}\b", readme))
        report.holds(f"lists_of_commands: docs/commands.md has {command}", re.search(rf"^    fcbench {command}\b", overview, re.M))
        report.holds(f"lists_of_commands: docs/commands.md has the exit statuses of {command}", f"\n| `{command}` |" in statuses)


def sizes_of_reasons(program, report):
    """bench/reasons.py reads from a judgement how many operations it tells."""
    example = f"{ROOT}/examples/postgres_queue"
    judged = read(f"{example}.judged").removesuffix("status 1\n")
    report.equal("sizes_of_reasons: of a queue in PostgreSQL", 2, reasons.size_of(f"{example}.history.edn", judged.encode()))


PARTS = (
    documents, call_trees, links, names_of_several, names_of_rows, named_clauses, definitions_of_clauses, plain_words, widths, heads_of_proofs,
    snippets, usages, like_lines, lists_of_commands, sizes_of_reasons,
)
