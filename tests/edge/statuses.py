"""The table of exit statuses in docs/commands.md: each of its cells has an example here that ends so, and no other status has one."""
import os
import re

from . import worked_rows
from .worked_rows import CERTIFICATES, EVIDENCE, HISTORY, REASONS, SCHEDULE
from .running import ROOT

# The text of each file.
FILES = {
    HISTORY: worked_rows.OVERLAPPING,
    CERTIFICATES: worked_rows.order(1, 0, 4),
    EVIDENCE: worked_rows.order(1, 0, 4),
    SCHEDULE: worked_rows.SERVED_BY_ANOTHER,
    "refused.edn": worked_rows.OUT_OF_ORDER,
    "malformed.edn": worked_rows.AFTER_INFO,
    "long.edn": worked_rows.FIRST_WRITE_LAST,
    "wrong_order.edn": worked_rows.order(0, 1, 4),
    "empty.edn": "",
    "three.edn": worked_rows.THREE_VALUES,
    REASONS: worked_rows.TWO_OF_THREE,
    "waits.edn": worked_rows.lines(worked_rows.ONE_CLIENT),
    "wide.edn": worked_rows.lines(worked_rows.invoke(0, "read", None, 65_536)),
    "names.edn": "{:value 1, :is :a} {:value 2, :is :a}",
}


def shard(folder, history, evidence):
    """The files of a folder with one shard, whose places are those of the whole."""
    places = "".join(f"{number}\n" for number in range(history.count("{")))
    texts = {"shards": f"1\n{history.count('{')}\n", "0.edn": history, "0.places": places, "0.evidence": evidence}
    return {f"{folder}/{name}": text for name, text in texts.items()}


FILES.update(shard("valid", worked_rows.OVERLAPPING, worked_rows.order(1, 0, 4)))
FILES.update(shard("refuted", worked_rows.THREE_VALUES, worked_rows.TWO_OF_THREE))
FILES.update(shard("faulty", worked_rows.AFTER_INFO, ""))
FILES.update(shard("open", worked_rows.OVERLAPPING, ""))
# A folder for each status that a worker may have: the fast form of a merge believes it.
FILES.update({f"believed.{number}/{name}": text for number in range(4) for name, text in (("shards", "1\n2\n"), ("0.status", f"{number}\n"))})
FULL = "/dev/full"
NO_VERIFIER = {"env": {"FCBENCH": "/not/there"}}
NO_MEMORY = {"faults": {"REFUSE_AT": 1}}


def of_files(command, *others):
    """The examples that each command on a history has: a malformed one, files that are not there, an output that fails, and wrong words."""
    yield 2, (command, "malformed.edn", *others)
    yield 4, (command, "missing.edn", *others)
    yield 4, (command, HISTORY, *others), {"stdout": FULL}
    yield 64, (command,)
    yield 64, (command, HISTORY, *others, "--no-such-option")


# Of each command of the table its examples: the status, the words, and how they are run.
EXAMPLES = {
    "judge": [
        (0, ("judge", HISTORY)),
        (1, ("judge", "refused.edn")),
        (2, ("judge", "--names", "names.edn", HISTORY)),
        (3, ("judge", "long.edn", "--steps", "0")),
        (70, ("judge", HISTORY), NO_VERIFIER),
        *of_files("judge"),
    ],
    # That the finder fails is a fault of its own, of which tools/fcbench-tools/src/find.rs has a test.
    "find": [(0, ("find", HISTORY)), (3, ("find", "refused.edn")), (70, None), *of_files("find")],
    "verify": [
        (0, ("verify", HISTORY, EVIDENCE)),
        (1, ("verify", "three.edn", REASONS)),
        (3, ("verify", HISTORY, "empty.edn")),
        (3, ("verify", HISTORY, "malformed.edn")),
        (3, ("verify", HISTORY, EVIDENCE), NO_MEMORY),
        *of_files("verify", EVIDENCE),
    ],
    "check": [
        (0, ("check", HISTORY, CERTIFICATES)),
        (1, ("check", HISTORY, "wrong_order.edn")),
        (2, ("check", HISTORY, REASONS)),
        (3, ("check", HISTORY, CERTIFICATES), NO_MEMORY),
        (4, ("check", HISTORY, "missing.edn")),
        *of_files("check", CERTIFICATES),
    ],
    "refute": [
        (1, ("refute", "three.edn", REASONS)),
        (2, ("refute", "three.edn", "names.edn")),
        (3, ("refute", "three.edn", "empty.edn")),
        (3, ("refute", "three.edn", REASONS), NO_MEMORY),
        *of_files("refute", REASONS),
    ],
    "search": [
        (0, ("search", HISTORY)),
        (1, ("search", "refused.edn")),
        (3, ("search", "long.edn", "--steps", "0")),
        (3, ("search", HISTORY), NO_MEMORY),
        *of_files("search"),
    ],
    "split": [
        (0, ("split", HISTORY, "made")),
        (2, ("split", "malformed.edn", "made.2")),
        (3, ("split", HISTORY, "made.3"), NO_MEMORY),
        (3, ("split", "wide.edn", "made.7", "--shards", "1")),
        (4, ("split", HISTORY, "made")),
        (4, ("split", "missing.edn", "made.4")),
        (4, ("split", HISTORY, "made.5"), {"stdout": FULL}),
        (64, ("split", HISTORY)),
        (64, ("split", HISTORY, "made.6", "--no-such-option")),
    ],
    "merge": [
        (0, ("merge", "valid")),
        (1, ("merge", "refuted")),
        (2, ("merge", "faulty")),
        (3, ("merge", "open")),
        (3, ("merge", "valid"), NO_MEMORY),
        (4, ("merge", "missing")),
        (4, ("merge", "valid"), {"stdout": FULL}),
        (64, ("merge",)),
        (64, ("merge", "valid", "--no-such-option")),
    ],
    "merge --trust-statuses": [
        *((number, ("merge", f"believed.{number}", "--trust-statuses")) for number in range(4)),
        (3, ("merge", "valid", "--trust-statuses")),
        (3, ("merge", "believed.0", "--trust-statuses"), NO_MEMORY),
        (4, ("merge", "missing", "--trust-statuses")),
        (4, ("merge", "believed.0", "--trust-statuses"), {"stdout": FULL}),
        (64, ("merge", "--trust-statuses")),
    ],
    "draw": [
        (0, ("draw", HISTORY)),
        (0, ("draw", HISTORY, CERTIFICATES)),
        (1, ("draw", "refused.edn")),
        (1, ("draw", HISTORY, "wrong_order.edn")),
        (3, ("draw", "long.edn", "--steps", "0")),
        (70, ("draw", HISTORY), NO_VERIFIER),
        *of_files("draw"),
    ],
    "import": [
        (0, ("import", HISTORY)),
        (4, ("import", "--names", "missing/names.edn", HISTORY)),
        *(row for row in of_files("import") if row[0] != 2),
        (2, ("import", REASONS)),
    ],
    "run": [
        (0, ("run", "--calls", "2")),
        (3, ("run", "--calls", "2"), NO_MEMORY),
        (4, ("run", "--calls", "2"), {"stdout": FULL}),
        (64, ("run", "h.edn")),
    ],
    "simulate": [
        (0, ("simulate", SCHEDULE)),
        (2, ("simulate", "waits.edn")),
        (3, ("simulate", SCHEDULE), NO_MEMORY),
        *of_files("simulate"),
    ],
    "--help": [
        *((0, (word,)) for word in ("--help", "help", "--version", "-V")),
        (3, ("--version",), NO_MEMORY),
        (4, ("--help",), {"stdout": FULL}),
    ],
}


def in_table():
    """The statuses of each command that docs/commands.md has, by the first name in its row."""
    with open(f"{ROOT}/docs/commands.md", encoding="utf-8") as file:
        text = file.read().partition("\n## Exit statuses\n")[2].partition("\n## ")[0]
    head, _, *those = re.findall(r"^\|(.*)\|$", text, re.M)
    statuses = [int(cell) for cell in head.split("|")[1:]]
    for row in those:
        name, *cells = (cell.strip() for cell in row.split("|"))
        yield name.partition("`")[2].partition("`")[0], {status for status, cell in zip(statuses, cells, strict=True) if cell != "-"}


def ended(program, words, stdout=None, **how):
    """The run of these words. A file may take its output."""
    if stdout is None:
        return program.run(*words, **how)
    with open(stdout, "wb") as file:
        return program.run(*words, stdout=file, **how)


def each_status(program, report):
    """Each cell of the table of exit statuses has an example that ends with its status. With 4, 64 and 70 nothing is printed, and with 64
    standard error says why."""
    for name, text in FILES.items():
        os.makedirs(os.path.dirname(f"{program.folder}/{name}"), exist_ok=True)
        program.write(name, text)
    table = dict(in_table())
    report.equal("statuses: the commands of the table", list(EXAMPLES), list(table))
    for command, examples in EXAMPLES.items():
        report.equal(f"statuses: those of {command} that have an example", table.get(command), {row[0] for row in examples})
        for status, words, *how in examples:
            if words is None:
                continue
            ran = ended(program, words, **(how[0] if how else {}))
            is_well = ran.status == status and (status < 4 or not ran.out) and (status != 64 or ran.err.startswith(b"error: "))
            report.holds(f"statuses: {status}: {' '.join(words)} {how or ''}", is_well, ran)


PARTS = (each_status,)
