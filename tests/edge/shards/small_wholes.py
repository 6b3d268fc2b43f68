"""Small histories that are split, found and merged: what merge says of the shards is what verify says of the whole."""
from . import wholes
from .dividing import NAMES, Folder, divided, evidence_in_shards, judged
from ..running import at_once
from ..text_writers import lines

WHOLES, SHARDS = 1_000, 3
# The least number of answers with each status.
FEWEST = {0: 400, 1: 60, 2: 60}


def whole(number):
    """The text of a whole, and what was done to it. One in three is damaged."""
    maps, damage = wholes.damaged(number) if number % 3 == 0 else (wholes.made(number), "none")
    return lines(*maps), damage


def faults_of_split(folder, history, expected, ran):
    """What is wrong with a split, or None: of a malformed history it prints the line that verify prints, and the folder is left empty."""
    if expected.status == 2:
        is_well = (ran.status, ran.out, ran.err) == (2, expected.out, b"") and folder.files() == {}
        return None if is_well else f"split of a malformed history: {ran}"
    files = divided(history, folder.shards)
    count = sum(text.count(b"\n") for name, text in files.items() if name.endswith(".edn"))
    if (ran.status, ran.out, ran.err) != (0, b"%d maps in %d shards\n" % (count, folder.shards), b""):
        return f"split: {ran}"
    came = folder.files()
    others = sorted(file for file in {*came, *files} if came.get(file) != files.get(file))
    return f"split: other files: {[(file, came.get(file)) for file in others]}" if others else None


def faults_of_answer(folder, evidence, expected):
    """What is wrong with what find and merge say of the shards, or None: find prints this evidence of each, and merge is to answer this."""
    found = folder.find_all()
    merged = folder.merge()
    if found != evidence:
        return f"find: other evidence: {found} and not {evidence}"
    if (merged.status, merged.out, merged.err) != (expected.status, expected.out, expected.err):
        return f"merge: {merged} and not {expected}"
    return None


def look(program, number):
    """Splits, finds and merges one whole. Returns the status of the whole, its damage, and what is wrong, or None."""
    history, damage = whole(number)
    expected, found = judged(program, f"whole.{number}", history)
    folder = Folder(program, f"shards.{number}", SHARDS)
    wrong = faults_of_split(folder, history, expected, folder.split(f"whole.{number}.edn"))
    if wrong is None and expected.status != 2:
        wrong = faults_of_answer(folder, evidence_in_shards(found, range(NAMES), SHARDS), expected)
    return expected.status, damage, wrong


def on_all(report, name, look_at):
    """Looks at each whole, and says how many have each status."""
    came = {}
    for number, (status, damage, wrong) in enumerate(at_once(look_at, range(WHOLES))):
        report.equal(f"{name} {number}, damage: {damage}", None, wrong)
        came[status] = came.get(status, 0) + 1
    too_few = {both: came.get(both, 0) for both, least in FEWEST.items() if came.get(both, 0) < least}
    report.equal(f"{name}: of these statuses there are too few", {}, too_few)
    return ", ".join(f"{count} of status {status}" for status, count in sorted(came.items()))


def small_wholes(program, report):
    """merge says of the shards of a thousand small histories, line for line, what verify says of the whole. split names the first fault."""
    return on_all(report, "shards of whole", lambda number: look(program, number))


def evidence_of_shards(program, report):
    """find, on the shards with their places, prints the same line for each object as on the whole."""

    def look_at(number):
        history = lines(*wholes.made(number))
        folder = Folder(program, f"found.{number}", 1 + number % 4)
        folder.make(history)
        whole_found = program.run("find", program.write(f"found.{number}.edn", history)).out
        return evidence_in_shards(whole_found, range(NAMES), folder.shards), folder.find_all()

    for number, (expected, came) in enumerate(at_once(look_at, range(100))):
        report.equal(f"find --places: the shards of whole {number}", expected, came)


PARTS = (evidence_of_shards, small_wholes)
