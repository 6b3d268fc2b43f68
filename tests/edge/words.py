"""Command lines: what they ask for, help, and words that are refused."""
import os
import re
import shutil
import subprocess

from . import worked_rows
from .worked_rows import CERTIFICATES, HISTORY
from .running import OF_BENCH, OF_TOOLS, OF_VERIFIER, ROOT

# The commands of the proved programs.
COMMANDS = OF_VERIFIER + OF_BENCH
# What each command does, as the table of all commands says it.
COMMANDS_TABLE = "tools/fcbench-tools/commands.txt"
with open(f"{ROOT}/{COMMANDS_TABLE}") as file:
    ABOUT = {line.split("\t")[0]: line.rstrip("\n").split("\t")[2] for line in file}
# The script that sends each command to the program whose command it is.
DISPATCH = f"{ROOT}/tools/fcbench.sh"

# Command lines that are refused, after the program's name. None of the files is there.
REFUSED_LINES = """
    jump
    --jump
    -- run
    check
    check h.edn
    check h.edn c.edn d.edn
    check --workers 0 h.edn c.edn
    check h.edn c.edn --workers 0
    check h.edn c.edn --workers 17
    check --workers 17 h.edn c.edn
    check h.edn c.edn --workers x
    check h.edn c.edn --workers
    check --workers
    check --workers 2 h.edn
    check h.edn c.edn --workers 2 --workers 2
    check --steps 5 h.edn c.edn
    search
    search h.edn c.edn
    search h.edn --steps
    search --steps 1000000001 h.edn
    search h.edn --steps 1000000001
    search h.edn --steps -1
    search --steps -1 h.edn
    search h.edn --steps many
    search h.edn --steps 1 --steps 2
    search h.edn --first value
    search --first last h.edn
    find
    find h.edn c.edn
    find -e.edn
    find h.edn --steps
    find h.edn --steps -1
    find --steps 1000000001 h.edn
    find --workers 0 h.edn
    find h.edn --workers 17
    find h.edn --workers 2 --workers 2
    find h.edn --first return
    find h.edn --seconds 0
    find --seconds 1000001 h.edn
    find h.edn --seconds
    find h.edn --places
    find h.edn --places p.places --places p.places
    judge
    judge h.edn c.edn
    judge -e.edn
    judge h.edn --steps
    judge h.edn --steps 1000000001
    judge --steps 1000000001 h.edn
    judge h.edn --steps -1
    judge h.edn --steps=7 --steps=7
    judge h.edn --first return
    judge h.edn --workers 0
    judge h.edn --workers=17
    judge h.edn --workers many
    judge h.edn --object 0
    judge h.edn --seconds 0
    judge --seconds soon h.edn
    judge h.edn --seconds 1 --seconds 1
    judge --progress h.edn
    judge h.edn --places p.places
    refute
    refute h.edn
    refute h.edn r.edn c.edn
    refute h.edn r.edn --steps 1000000001
    refute --steps 1000000001 h.edn r.edn
    refute --steps many h.edn r.edn
    refute h.edn r.edn --first return
    refute h.edn r.edn --workers 2
    verify
    verify h.edn
    verify h.edn e.edn c.edn
    verify h.edn -e.edn
    verify h.edn e.edn --steps
    verify h.edn e.edn --steps 1000000001
    verify --steps 1000000001 h.edn e.edn
    verify --steps many h.edn e.edn
    verify --steps -1 h.edn e.edn
    verify h.edn e.edn --steps 1 --steps 2
    verify h.edn e.edn --first return
    verify --workers 0 h.edn e.edn
    verify h.edn e.edn --workers 17
    verify h.edn e.edn --workers=many
    verify h.edn e.edn --workers
    verify h.edn e.edn --workers 2 --workers 2
    verify --workers 2 h.edn
    split
    split h.edn
    split h.edn folder c.edn
    split h.edn folder --shards 0
    split --shards 10001 h.edn folder
    split h.edn folder --shards many
    split h.edn folder --shards
    split h.edn folder --shards 2 --shards 2
    split h.edn folder --steps 5
    split h.edn folder --workers 2
    split h.edn -folder
    merge
    merge folder c.edn
    merge folder --steps
    merge folder --steps 1000000001
    merge --steps many folder
    merge folder --steps 1 --steps 2
    merge folder --shards 2
    merge folder --workers 2
    merge --trust-statuses
    merge folder --trust-statuses 3
    merge folder --trust-statuses=true
    merge folder --trust-statuses --trust-statuses
    merge folder --trust-statuses --steps 1000000001
    merge folder --trust
    split h.edn folder --trust-statuses
    verify h.edn e.edn --trust-statuses
    judge h.edn --trust-statuses
    draw
    draw h.edn c.edn d.edn
    draw --object -1 h.edn
    draw --object 4294967296 h.edn
    draw --from 4294967296 h.edn
    draw --to end h.edn
    draw --steps 1000000001 h.edn
    draw --from 5 --to 2 h.edn
    draw --workers 2 h.edn c.edn
    draw --seconds 1 h.edn
    draw --from 1 --from 2 h.edn
    import
    import h.edn c.edn
    import --initial [ h.edn
    import h.edn --fail-is-reply=(
    import h.edn --independent=yes
    import h.edn --workers 2
    check --version h.edn c.edn
    run --clients 33
    run --clients 0
    run --objects 17
    run --objects 0
    run --calls 10001
    run --calls -1
    run --seed -1
    run --seed 18446744073709551616
    run --kind tree
    run --kind Queue
    run --kind
    run --clients two
    run --clients 2 --clients 3
    run --workers 2
    run h.edn
    run -- --
    simulate
    simulate s.edn t.edn
    simulate -s.edn
    simulate s.edn --steps 7
"""
REFUSED = (
    (),
    ("check", "h.edn", "c.edn", "--workers", ""),
    ("run", "--kind", ""),
    *[tuple(line.split()) for line in REFUSED_LINES.strip().splitlines()],
)

# Words by which the tools refuse a command line, for the words that are wrong in it.
NAMED = {
    (): "a command is missing",
    "jump": "'jump'",
    "find": "<HISTORY> is missing",
    "find h.edn c.edn": "unexpected argument 'c.edn'",
    "find -e.edn": "'-e.edn'",
    "find h.edn --steps": "--steps needs a value",
    "find h.edn --steps -1": "--steps takes a number from 0 to 1000000000, not '-1'",
    "find --workers 0 h.edn": "--workers takes a number from 1 to 16, not '0'",
    "find h.edn --workers 2 --workers 2": "--workers is given twice",
    "find h.edn --places": "--places needs a value, <FILE>",
    "judge": "<HISTORY> is missing",
    "judge --json h.edn": "'--json'",
    "judge h.edn c.edn": "unexpected argument 'c.edn'",
    "judge h.edn --workers many": "--workers takes a number from 1 to 16, not 'many'",
    "judge h.edn --seconds": "--seconds needs a value",
    "judge h.edn --seconds 0": "--seconds takes a number from 1 to 1000000, not '0'",
    "judge h.edn --all=yes": "--all takes no value",
    "judge --progress h.edn": "'--progress'",
    "draw": "<HISTORY> is missing",
    "draw h.edn c.edn d.edn": "unexpected argument 'd.edn'",
    "draw --to end h.edn": "--to takes a number from 0 to 4294967295, not 'end'",
    "draw --from 5 --to 2 h.edn": "--from 5 is after --to 2, so no event is drawn",
    "import": "<HISTORY> is missing",
    "import h.edn c.edn": "unexpected argument 'c.edn'",
    "import --initial [ h.edn": "--initial takes one form of EDN, not '['",
    "import h.edn --fail-is-reply=(": "--fail-is-reply takes one form of EDN, not '('",
}

# What the files of command lines hold, and the answer for them.
CHECKED = (worked_rows.OVERLAPPING, worked_rows.order(1, 0, 4)), worked_rows.THREE_YES, 0
FOUND = (worked_rows.OVERLAPPING,), worked_rows.order(1, 0, 4), 0
JUDGED = (worked_rows.OVERLAPPING,), worked_rows.THREE_YES, 0
# Each of its 23 operations returned, so no order is found in fewer steps than these.
SEARCHED = (worked_rows.FIRST_WRITE_LAST,), worked_rows.yes(23, 1, "register: 1 objects, 23 operations"), 0
REFUTED = (
    (worked_rows.THREE_VALUES, worked_rows.TWO_OF_THREE),
    worked_rows.refutation(3, 4, worked_rows.ENQUEUE_1, worked_rows.ENQUEUE_2, worked_rows.DEQUEUE_2),
    1,
)
VERIFIED = (worked_rows.OVERLAPPING, worked_rows.order(1, 0, 4)), worked_rows.THREE_YES, 0
SIMULATED = (worked_rows.SERVED_BY_ANOTHER,), worked_rows.SERVED_LINES, 0


def out_of_steps(steps):
    return (worked_rows.FIRST_WRITE_LAST,), f"; object 0: out of steps after {steps}\n", 3


# What merge believes of one shard without a status.
BELIEVED_OF_ONE = "; not checked: the exit statuses of 1 shards are believed\n; shard 0: no status\n"

# Command lines with the texts of their files in order, the output and the status. An option is anywhere before `--`, and its
# value may be after `=`.
ACCEPTED = (
    ("check h.edn c.edn", *CHECKED),
    ("check -- -h.edn c.edn", *CHECKED),
    ("check --workers 16 h.edn c.edn", *CHECKED),
    ("check h.edn --workers=1 c.edn", *CHECKED),
    ("check h.edn c.edn --workers +4", *CHECKED),
    ("check --workers 2 -- h.edn c.edn", *CHECKED),
    ("search h.edn", *FOUND),
    ("search h.edn --steps 7", *out_of_steps(7)),
    ("search --steps=7 h.edn", *out_of_steps(7)),
    ("search --steps 7 -- h.edn", *out_of_steps(7)),
    ("search h.edn --steps 1000000000", *FOUND),
    ("search h.edn --first number", (worked_rows.RETURNS_CROSSED,), worked_rows.order(0, 1), 0),
    ("search h.edn --first return", (worked_rows.RETURNS_CROSSED,), worked_rows.order(1, 0), 0),
    ("find h.edn", *FOUND),
    ("find --workers 16 --steps=0 h.edn", *FOUND),
    ("find -- -h.edn", *FOUND),
    ("judge h.edn", *SEARCHED),
    ("judge h.edn --steps 7", *out_of_steps(7)),
    ("judge --steps=0 h.edn", *out_of_steps(0)),
    ("judge h.edn --steps 1000000000", *SEARCHED),
    ("judge --workers=1 h.edn --steps +7", *out_of_steps(7)),
    ("judge --workers 16 -- h.edn", *SEARCHED),
    ("judge -- -e.edn", *JUDGED),
    ("judge h.edn --seconds 1000000", *SEARCHED),
    ("find --seconds=1000000 h.edn --progress", *FOUND),
    ("find h.edn --places p.edn", (worked_rows.OVERLAPPING, "2\n3\n5\n7\n11\n13\n"), worked_rows.order(3, 2, 11), 0),
    ("refute h.edn r.edn", *REFUTED),
    (
        "refute h.edn --steps 7 r.edn",
        (worked_rows.FIRST_WRITE_LAST, "{:object 0}"),
        "object 0: not shown: out of steps after 7\n",
        3,
    ),
    ("refute --steps=1000000000 h.edn r.edn", *REFUTED),
    ("refute -- -h.edn r.edn", *REFUTED),
    ("verify h.edn e.edn", *VERIFIED),
    ("verify h.edn --steps 7 e.edn", (worked_rows.FIRST_WRITE_LAST, "{:object 0}"), "; object 0: out of steps after 7\n", 3),
    ("verify --steps=1000000000 h.edn e.edn", *VERIFIED),
    ("verify h.edn e.edn --workers 16", *VERIFIED),
    ("verify --workers=1 h.edn --steps 0 e.edn", *VERIFIED),
    ("verify h.edn --workers +4 -- e.edn", *VERIFIED),
    ("verify -- -h.edn e.edn", *VERIFIED),
    ("split h.edn into.64", (worked_rows.OVERLAPPING,), "6 maps in 64 shards\n", 0),
    ("split h.edn --shards 1 into.1", (worked_rows.OVERLAPPING,), "6 maps in 1 shards\n", 0),
    ("split --shards=+10000 -- h.edn -into", (worked_rows.OVERLAPPING,), "6 maps in 10000 shards\n", 0),
    ("merge into.64", (), "; object 0: open\n", 3),
    ("merge into.1 --steps 7", (), "; object 0: open\n", 3),
    ("merge --steps=1000000000 -- into.1", (), "; object 0: open\n", 3),
    ("merge into.1 --trust-statuses", (), BELIEVED_OF_ONE, 3),
    ("merge --trust-statuses --steps +7 -- into.1", (), BELIEVED_OF_ONE, 3),
    ("run --kind=mutex --objects 1 --clients 1 --calls 0 --seed 0", (), "; yes: 0 operations, 0 objects\n", 0),
    ("simulate s.edn", *SIMULATED),
    ("simulate -- -s.edn", *SIMULATED),
)


# A command with its files in a page, in a line of code or in backquotes.
WITH_FILES = re.compile(r"(?:`|^    )(?:fcbench )?([a-z]+)((?: \[?[A-Z]{3,}\]?)+)(?=[`\n]| >)", re.M)


def files_in_pages(program, report):
    """If a page names the files of a command, it uses the names of the help."""
    for page in sorted(("README.md", *[f"docs/{name}" for name in os.listdir(f"{ROOT}/docs") if name.endswith(".md")])):
        with open(f"{ROOT}/{page}") as file:
            named = [words for words in WITH_FILES.findall(file.read()) if words[0] in (*COMMANDS, *OF_TOOLS)]
        for command, files in named:
            usage = re.search(rf"Usage: fcbench {command}(?: \[OPTIONS\])?([^\n]*)", program.run(command, "--help").out.decode())[1]
            all_of_them, needed = re.findall(r"[A-Z]+", usage), re.findall(r"<([A-Z]+)>", usage)
            report.holds(f"{page}: {command}{files}: the files of its help", re.findall("[A-Z]+", files) in (all_of_them, needed), usage)


def help_texts(program, report):
    """Help goes to standard output, names each command, and ends with 0."""
    for words in (("--help",), ("-h",)):
        ran = program.run(*words)
        is_well = ran.status == 0 and ran.err == b"" and ran.out.endswith(b"\n")
        report.holds(f"{words[0]} is help", is_well, ran)
        lacks = [command for command in (*COMMANDS, *OF_TOOLS) if f"\n  {command} ".encode() not in ran.out]
        report.equal(f"{words[0]} names each command", [], lacks, ran.out)
    for own, path in ((OF_VERIFIER, program.path), (("check", "search", *OF_BENCH), program.bench)):
        ran = subprocess.run([path, "--help"], capture_output=True, text=True)
        named = re.findall(r"^  ([a-z]+)  ", ran.stdout, re.M)
        report.equal(f"{os.path.basename(path)} --help names its commands", (0, {*own, "help"}), (ran.returncode, set(named)), ran.stdout)
    options = {"check": ("--workers",), "search": ("--steps", "--first"), "refute": ("--steps",)}
    options["run"] = ("--kind", "--objects", "--clients", "--calls", "--seed")
    options.update(
        verify=("--steps", "--workers"),
        split=("--shards",),
        merge=("--steps", "--trust-statuses"),
        find=("--seconds", "--steps", "--workers", "--summary"),
        draw=("--object", "--from", "--to", "--steps"),
    )
    options["judge"] = (*options["find"], "--names")
    options["find"] = (*options["find"], "--places")
    options["import"] = ("--names", "--independent", "--fail-is-reply", "--check-owners", "--owners", "--by-time", "--initial")
    for command in (*COMMANDS, *OF_TOOLS):
        ran = program.run(command, "--help")
        lacks = [option for option in options.get(command, ()) if option.encode() not in ran.out]
        is_well = (ran.status, ran.err, lacks) == (0, b"", [])
        report.holds(f"{command} --help names its options", is_well, ran)
        report.equal(f"{command} --help says what {COMMANDS_TABLE} says", ABOUT[command], ran.out.decode().partition("\n")[0])


def version(program, report):
    """The version is that of the changelog, and the logic is that of the kit that is installed."""
    with open(f"{ROOT}/CHANGELOG.md", encoding="utf-8") as changelog:
        newest = re.search(r"^## (\d+\.\d+\.\d+), .*\n\nProved by Rattle logic `([0-9a-f]+)`", changelog.read(), re.M)
    report.holds("version: the changelog has one", newest)
    line = f"fcbench {newest[1]}, proved by Rattle logic {newest[2]}\n"
    for words in (("--version",), ("-V",)):
        report.answers(f"version: {words[0]}", program.run(*words), line, 0)
    with open(f"{os.path.dirname(os.path.realpath(shutil.which('rt')))}/../KIT-ID", encoding="utf-8") as kit:
        report.holds("version: the kit", newest[2] in kit.read())


def accepted(program, report):
    """An accepted command line does what its words say, on the files that it names."""
    for line, texts, out, status in ACCEPTED:
        words = line.split()
        files = [word for word in words if word.endswith(".edn")]
        for name, text in zip(files, texts):
            program.write(name, text)
        report.answers(line, program.run(*words), out, status)
        for name in files:
            os.remove(f"{program.folder}/{name}")


def refused(program, report):
    """A command line that is refused ends with 64, and what is wrong is on standard error alone."""
    for words in REFUSED:
        ran = program.run(*words)
        is_well = (ran.status, ran.out) == (64, b"") and ran.err.endswith(b"\n")
        report.holds(f"refused: {' '.join(words) or 'no word'}", is_well, ran)


def refused_words_are_named(program, report):
    """If the tools refuse a command line, the first line of standard error says what is wrong and in which word; then comes the usage."""
    for line, says in NAMED.items():
        words = line.split() if line else ()
        ran = subprocess.run([program.tools, *words], cwd=program.folder, capture_output=True, text=True)
        first, *more = ran.stderr.splitlines()
        usage = f"Usage: fcbench {words[0]} [OPTIONS] <HISTORY>" if words and words[0] in OF_TOOLS else "Usage: fcbench <COMMAND>"
        is_well = first.startswith("error: ") and says in first and any(further.startswith(usage) for further in more)
        report.holds(f"refused: {line or 'no word'}: {says}", (ran.returncode, ran.stdout) == (64, "") and is_well, ran)


def bad_words_are_told(program, report):
    """If an option takes one of some words, and is given another, the error names the option and the words that it takes."""
    kinds = "queue, stack, heap, register, map, mutex, set, counter, lock, mixed"
    for words, message in (
        (("run", "--kind", "tree"), f"error: --kind takes one of the words {kinds}\n"),
        (("search", "h.edn", "--first", "value"), "error: --first takes one of the words number, return\n"),
    ):
        report.answers(f"refused: {' '.join(words)}: what it says", program.run(*words), "", 64, message)


def not_utf_8(program, report):
    """Words that are no UTF-8 are refused."""
    message = "fcbench: an argument is not UTF-8\n"
    for words in ((b"\xff",), (b"check", b"h\xc3.edn", b"c.edn"), (b"search", b"\xed\xa0\x80"), ("judge", b"\xff"), ("draw", b"h\xc3.edn")):
        report.answers(f"refused: {words}", program.run(*words), "", 64, message)


def limits(program, report):
    """The least and the greatest number of each option are taken."""
    taken = (
        ("run", "--clients", "32", "--calls", "0"),
        ("run", "--objects", "16", "--calls", "0"),
        ("run", "--seed", str(2**64 - 1), "--calls", "0"),
    )
    for words in taken:
        report.answers(" ".join(words), program.run(*words), "; yes: 0 operations, 0 objects\n", 0)
    program.write("empty.edn", "")
    for steps in ("0", "1000000000"):
        report.answers(f"search --steps {steps}", program.run("search", "--steps", steps, "empty.edn"), "", 0)
    program.write("one.edn", worked_rows.OVERLAPPING)
    ran = program.run("draw", "--object", "4", "one.edn")
    is_told = ran.err == b"fcbench: warning: --object 4: the history has no such object\n"
    report.holds("draw --object 4, which is not there", (ran.status, is_told) == (0, True) and ran.out, ran.err)
    report.equal("draw --object 0 warns of nothing", b"", program.run("draw", "--object", "0", "one.edn").err)
    for first in ("number", "return"):
        report.answers(f"search --first {first}", program.run("search", "--first", first, "empty.edn"), "", 0)


def dispatched(program, report):
    """The script that is installed as fcbench sends each command line to the program whose command it is."""
    program.write(HISTORY, worked_rows.OVERLAPPING)
    program.write(CERTIFICATES, worked_rows.order(1, 0, 4))
    env = {**os.environ, "FCBENCH": program.path, "FCBENCH_BENCH": program.bench, "FCBENCH_TOOLS": program.tools}
    script = lambda *words: subprocess.run([DISPATCH, *words], cwd=program.folder, env=env, capture_output=True)  # noqa: E731
    lines = [("judge", HISTORY), ("find", HISTORY), ("draw", HISTORY), ("search", HISTORY), ("verify", HISTORY, CERTIFICATES)]
    lines += [("check", HISTORY, CERTIFICATES), ("judge",), ("check",), ("--version",)]
    lines += [(command, "--help") for command in (*COMMANDS, *OF_TOOLS)]
    for words in lines:
        direct, ran = program.run(*words), script(*words)
        report.equal(f"fcbench.sh {' '.join(words)}", (direct.status, direct.out, direct.err), (ran.returncode, ran.stdout, ran.stderr))
    for words in (("--help",), ("-h",), ("help",)):
        ran = script(*words)
        lacks = [command for command in (*COMMANDS, *OF_TOOLS) if f"\n  {command} ".encode() not in ran.stdout]
        report.equal(f"fcbench.sh {words[0]} names each command", (0, []), (ran.returncode, lacks), ran.stdout)
    ran = script()
    is_refused = (ran.returncode, ran.stdout) == (64, b"") and ran.stderr.startswith(b"error: a command is missing\n")
    report.holds("fcbench.sh without a word", is_refused, ran)
    shown = script("--help").stdout
    report.holds("fcbench.sh --help begins with judge", 0 < shown.find(b"\n  judge ") < shown.find(b"\n  check "), shown)
    for word, near in (("jugde", "judge"), ("chek", "check"), ("simulte", "simulate")):
        ran = script(word)
        is_told = ran.stderr.startswith(f"error: no such command: '{word}'; the nearest is {near}\n".encode())
        report.holds(f"fcbench.sh {word} names the nearest command", (ran.returncode, ran.stdout) == (64, b"") and is_told, ran)
    for command in (*COMMANDS, *OF_TOOLS):
        report.equal(f"fcbench.sh help {command}", program.run(command, "--help").out, script("help", command).stdout)


PARTS = (help_texts, files_in_pages, accepted, version, refused, refused_words_are_named, bad_words_are_told, not_utf_8, limits, dispatched)
