"""Pages that draw writes: what is on them, also in a browser, and whether what they say of a history is true."""
import collections
import itertools
import json
import os
import re
import shutil
import subprocess
from dataclasses import replace

from . import fault_places, pages, sentences, tables_and_boxes
from .. import histories, text_writers, worked_rows
from .pages import Drawn
from .drawn_inputs import (
    COUNTER_PAST_ITS_END, COUNTER_TELLS_ANOTHER, LOCK_OF_ANOTHER, LOCK_UNLOCKED_AGAIN, SET_ANSWERS_WRONGLY,
    OF_EACH, OF_EACH_FORM, Case, checked, comes_too_late, example, extreme, forty_objects, generated, hostile,
    many_objects, never_put, of_two_values, old_values, options_and_faults, orders_of, situations,
)
from ..judge.like_recorded import played
from ..running import EXAMPLES, SECONDS, at_once
from ..timing import processor_seconds

CHECKS = f"{os.path.dirname(os.path.realpath(__file__))}/check_pages.mjs"
PAGES = f"{EXAMPLES}/pages"
MOST_BYTES = 1_000_000
# The most lines of judge or check on a page, and the most bytes of one that is not cut.
MOST_LINES, LONGEST_LINE = 60, 2_000
VERDICTS = ("yes", "impossible", "open", "C1", "C2", "C3", "C4", "C5", "C6", "C7", "C9")
HISTORY, CERTIFICATES = worked_rows.HISTORY, worked_rows.CERTIFICATES


def text_of(history):
    return history.decode(errors="replace") if isinstance(history, bytes) else history


def run(program, case):
    """Draws a case, and judges or checks it: the two runs, and the orders that it is checked by or that are found."""
    files = [program.write(f"{case.stem()}.{HISTORY}", case.history)]
    if case.certificates is not None:
        files.append(program.write(f"{case.stem()}.{CERTIFICATES}", case.certificates))
    drawn = program.run("draw", *case.options, *files)
    steps = case.options if "--steps" in case.options else ()
    told = program.run("judge" if case.certificates is None else "check", *steps, *files)
    orders = orders_of(case.certificates)
    if case.reads and case.certificates is None and told.status == 0:
        orders = orders_of(program.run("find", *files).out)
    return drawn, told, orders


# ---- what a page must have


ANSWERS = {0: "yes", 1: "no", 2: "malformed", 3: "open"}


def answer_of(case, told):
    """The class that the page must have, by what judge or check says."""
    if told.status == 1 and case.certificates is None:
        return "impossible"
    return "memory" if told.out == b"out of memory\n" else ANSWERS[told.status]


def code_of(told):
    match = re.match(rb"no: (C\d)", told.out)
    return match[1].decode() if match else None


def refused_rank(case, told):
    """The rank of the entry that check refuses, by the order that it was given."""
    line = told.out.decode()
    match = re.match(r"no: C[34569] object (\d+): (-?\d+)", line)
    if not match:
        return None
    order, number = orders_of(case.certificates)[int(match[1])], int(match[2])
    first = order.index(number)
    return (order.index(number, first + 1) if "C4" in line else first) + 1


def wanted_of(case, told, path):
    """What check_pages.mjs is to find on the page."""
    answer = answer_of(case, told)
    return {
        "file": path,
        "most": MOST_BYTES,
        "answer": answer,
        "code": None if case.options else code_of(told),
        "rank": refused_rank(case, told) if answer == "no" and not case.options else None,
        "reason": sorted(tables_and_boxes.reason_of(told.out.decode())[0]) if answer == "impossible" else [],
        "shows": list(case.shows),
        "isWhole": not case.options,
        "loads": case.loads,
    }


def lines_of(told):
    """The lines of judge or check as the page has them: of very many the first ones, and of a very long one the beginning."""
    lines = told.out.decode().removesuffix("\n").split("\n")
    more = len(lines) - MOST_LINES
    shown = [line if len(line.encode()) <= LONGEST_LINE else line[:LONGEST_LINE] + "…" for line in lines[:MOST_LINES]]
    return "\n".join(shown + ([f"… {sentences.grouped(more)} more line{'' if more == 1 else 's'}"] if more > 0 else []))


REASON_LINE = "The line with `{:object` is the reason, for a program: `fcbench refute` checks it."
COUNTED_AS = " What follows “counted as” is all that it uses of the operation; the value there may stand for any other."


def why_note_false(page):
    """What is false of the note that says what the lines of a reason are, or None."""
    notes = [pages.spelled(note) for note in page.body.find("header").findall("p") if "note" in pages.classes(note)]
    has_reason = "\n; {:object " in page.lines
    wanted = [REASON_LINE + (COUNTED_AS if ", counted as :" in page.lines else "")] if has_reason else []
    return None if notes == wanted else f"the notes on its lines are {notes}, and not {wanted}"


# The heading of an answer, and the sentences for a history whose order is missing (C1) or refused.
HEADINGS = {"impossible": "Not linearizable", "no": "Order refused", "C1": "Order missing"}
NO_ORDER, REFUSED = "This says nothing of the history", "This refuses the order, and not the history"


def why_heading_false(page, code):
    """What is false of the heading, and of the sentence for a missing or refused order, or None."""
    heading = "".join(page.body.find("header/h1").itertext())
    if not heading.endswith(HEADINGS["C1"] if code == "C1" else HEADINGS.get(page.answer, "")):
        return f"the heading is {heading}"
    wanted = NO_ORDER if code == "C1" else REFUSED
    is_said = any(sentence.startswith(wanted) for sentence in page.said)
    return None if is_said or code in (None, "C2") else f"it does not say {wanted}: {page.said}"


def why_links_false(page):
    """The links that lead nowhere, or None."""
    lost = page.lost_links()
    return f"links lead nowhere: {lost}" if lost else None


def checks_of(case, page, told, orders):
    """What is checked on a page, each by its name, as a function that tells what is wrong, or None."""
    yield "answer", lambda: None if page.answer == answer_of(case, told) else f"it is {page.answer}"
    yield "lines", lambda: None if page.lines == lines_of(told) else f"its lines are {page.lines}"
    yield "says", lambda: None if set(case.says) <= set(sentences.forms_of(page)) else f"it says {page.said}"
    yield "note", lambda: why_note_false(page)
    yield "heading", lambda: why_heading_false(page, code_of(told))
    yield "links", lambda: why_links_false(page)
    if not case.reads or page.answer in ("malformed", "memory"):
        return
    history, shown = text_of(case.history), shown_of(case, page, told, orders)
    yield "sentences", lambda: sentences.why_false(page, history, orders)
    yield "vague", lambda: sentences.why_vague(page)
    yield "first", lambda: sentences.why_first_false(page)
    yield "counts", lambda: sentences.why_counts_false(page, history)
    yield from ((name, lambda check=check: check(shown)) for name, check in tables_and_boxes.CHECKS.items())
    if page.answer == "open":
        yield "open", lambda: sentences.why_open_false(page, history, told.out.decode())
    if page.answer == "yes":
        yield "order", lambda: sentences.why_order_false(page, history)


def absent_object(case):
    """What draw says of an object that is asked for and has no operation, or nothing."""
    named = dict(zip(case.options[::2], case.options[1::2])).get("--object")
    if named is None or int(named) in {call.on for call in histories.calls_of(text_of(case.history))[0].values()}:
        return b""
    return f"fcbench: warning: --object {named}: the history has no such object\n".encode()


def why_wrong(case, drawn, told, orders):
    """What is wrong with a page, or None."""
    if drawn.err and drawn.err != absent_object(case):
        return f"it says {drawn.err}"
    return tables_and_boxes.first_of(check() for _, check in checks_of(case, Drawn(drawn.out), told, orders))


def shown_of(case, page, told, orders):
    """A page with all that it is checked on."""
    options = dict(zip(case.options[::2], case.options[1::2]))
    if page.answer == "open":
        # The longest order is that of the table, which is checked.
        orders = page.orders()
    stretch = [int(options[option]) if option in options else None for option in ("--from", "--to")]
    return tables_and_boxes.Shown(page, text_of(case.history), orders, told.out.decode(), stretch)


def look(program, report, case):
    """Draws a case and reads its page. Returns what the browser is to find, or None."""
    drawn, told, orders = run(program, case)
    report.equal(f"draw: {case.name}: the status of {'judge' if case.certificates is None else 'check'}", told.status, drawn.status, drawn.err)
    report.holds(f"draw: {case.name}: at most {MOST_BYTES} bytes", len(drawn.out) <= MOST_BYTES, len(drawn.out))
    try:
        report.equal(f"draw: {case.name}: the page", None, why_wrong(case, drawn, told, orders), drawn.out[-3000:])
    except Exception as error:  # A page that can't be read is wrong.
        report.holds(f"draw: {case.name}: the page can be read", False, f"{type(error).__name__}: {error} {drawn.out[:300]}")
        return None
    path = f"{program.folder}/{case.stem()}.html"
    with open(path, "wb") as file:
        file.write(drawn.out)
    return wanted_of(case, told, path)


# ---- in a browser


def is_in_browser():
    """Whether there is a browser to ask."""
    is_there = bool(shutil.which("chromium") and shutil.which("node"))
    if not is_there:
        print("  drawn pages: skipped in a browser, since chromium or node is not installed")
    return is_there


def in_browser(program, report, wanted):
    """Whether the browser finds nothing wrong with the pages, but with one that has all that a page must not have."""
    if not is_in_browser():
        return
    broken = f"{program.folder}/broken.html"
    with open(broken, "w") as file:
        file.write(
            '<body class="yes" style="color:#777;background:#888"><script>1</script><a href="#nowhere">x</a><p id="a">text</p><p id="a">x</p></body>'
        )
    # The name of no file is markup on a page.
    for file, bad in found_in_browser(program, report, [*wanted, {"file": broken, "answer": "yes"}]):
        if file == broken:
            report.holds("draw: the browser finds what is wrong", len(bad) >= 4, bad)
        else:
            report.equal(f"draw: {os.path.basename(file)}: in the browser", [], bad[:6])


def found_in_browser(program, report, wanted):
    """What the browser finds wrong with each of the pages."""
    cases = program.write("cases.json", json.dumps(wanted))
    # What was found until the time was over is told.
    line = ["timeout", str(10 * SECONDS), "node", "--experimental-websocket", CHECKS, cases]
    ran = subprocess.run(line, cwd=program.folder, capture_output=True, text=True)
    on_pages = [(row["file"], row["bad"]) for row in map(json.loads, ran.stdout.splitlines())]
    missing = {page["file"] for page in wanted} - {file for file, _ in on_pages}
    report.equal("draw: pages at which the browser has not looked", set(), missing, ran.stderr[-2000:])
    return on_pages


# A proved program to which an allocation is refused.
WITHOUT_MEMORY = """#!/bin/sh
export REFUSE_AT={at} LD_PRELOAD={faults}
exec {program} "$@"
"""


def page_without_memory(program, report):
    """What the browser is to find on a page of a history where memory is refused to the proved program: that of the first allocation that leads
    to one."""
    history, certificates = program.write(HISTORY, worked_rows.OVERLAPPING), program.write(CERTIFICATES, text_writers.order(1, 0, 4))
    _, count, _ = program.counts("check", history, certificates)
    for at in range(1, count + 1):
        without = f"{program.folder}/{program.write('without_memory', WITHOUT_MEMORY.format(at=at, faults=program.faults, program=program.path))}"
        os.chmod(without, 0o755)
        ran = program.run("draw", history, certificates, env={"FCBENCH": without})
        if ran.status == 3 and b'<body class="memory">' in ran.out:
            report.equal("draw: the lines of a page without memory", "out of memory", Drawn(ran.out).lines)
            path = program.write("memory.html", ran.out)
            return {"file": f"{program.folder}/{path}", "most": MOST_BYTES, "answer": "memory"}
    report.holds("draw: there is a page without memory", False, count)
    return None


def drawn_pages(program, report):
    """draw ends with the status of judge or check in each situation, and its page is as it must be, in the browser too."""
    cases = (*situations(program), *options_and_faults(), *hostile(), *extreme(), forty_objects(), many_objects())
    wanted = [*at_once(lambda case: look(program, report, case), cases), page_without_memory(program, report)]
    answers = {page["answer"] for page in wanted if page}
    report.equal("draw: there is a page of each answer", {"yes", "no", "impossible", "open", "malformed", "memory"}, answers)
    in_browser(program, report, [page for page in wanted if page])
    return f"{len(wanted)} pages"


# ---- generated histories


def drawn_sentences(program, report):
    """The sentences on pages of generated histories are true: at least OF_EACH histories of each verdict."""
    counts, said, wrong = collections.Counter(), collections.Counter(), 0

    def draw(case):
        drawn, told, orders = run(program, case)
        key = code_of(told) or answer_of(case, told)
        try:
            forms = set(sentences.forms_of(Drawn(drawn.out)))
            return key, forms, case, drawn.status == told.status and why_wrong(case, drawn, told, orders)
        except Exception as error:  # A page that can't be read is wrong.
            return key, (), case, f"{type(error).__name__}: {error}"

    for key, forms, case, why in at_once(draw, list(generated())):
        counts[key] += 1
        said.update(forms)
        report.equal(f"draw: {case.name}", None, why, case)
        wrong += why is not None
    few = {verdict: counts[verdict] for verdict in VERDICTS if counts[verdict] < OF_EACH}
    report.equal("draw: of these verdicts there are too few generated histories", {}, few)
    forms = [*sentences.FORMS, "general", *sentences.ENDINGS, *[f"aside {number}" for number in range(len(sentences.ASIDES))]]
    # A range of first events is said only of histories that are too long for all their beginnings to be tried.
    rare = {form: said[form] for form in forms if said[form] < OF_EACH_FORM and form != "first_events"}
    report.equal("draw: these sentences are said too rarely", {}, rare)
    return f"{sum(counts.values())} pages, {wrong} false, of each sentence at least {min(said[form] for form in forms)}"


def drawn_faults(program, report):
    """Pages of malformed texts mark the place of the fault, and what they say of it is true: OF_EACH texts of each sort."""
    counts = {}

    def draw(numbered):
        number, (made, faulty) = numbered
        history, certificates = f"faulty {number}.{HISTORY}", f"faulty {number}.{CERTIFICATES}"
        files = [program.write(history, made.text() if faulty.is_certificates else faulty.text)]
        if faulty.is_certificates:
            files.append(program.write(certificates, faulty.text))
        drawn = program.run("draw", *files)
        try:
            return faulty, drawn.status == 2 and fault_places.why_page_wrong(Drawn(drawn.out), faulty)
        except Exception as error:  # A page that can't be read is wrong.
            return faulty, f"{type(error).__name__}: {error} {drawn}"

    for faulty, wrong in at_once(draw, list(enumerate((*fault_places.faulty_texts(OF_EACH), *fault_places.longest_texts())))):
        counts[faulty.code] = counts.get(faulty.code, 0) + 1
        report.equal(f"draw: {faulty.line()}: {faulty.text[-300:]}", None, wrong)
    return f"{sum(counts.values())} pages, {len(counts)} faults"


# Texts of pages, and false ones in their places, by the check that finds them: this one alone, or these.
FALSIFIED = {
    "postgres_queue": {
        "heading": (("Not linearizable</h1>", "Impossible</h1>"),),
        "note": (("The line with <code>{:object</code> is the reason, for a program: ", "For a program: "),),
        "counts": (("· 800 maps", "· 801 maps"),),
        "sentences": (
            ("had returned before (event 680)", "had returned before (event 681)"),
        ),
        # A number without a noun.
        "unreadable": (("<b>#743</b> ", "<b>743</b> "),),
        "first": (('<p class="say">Event 31 is the first that leaves no order.</p>', ""),),
        "sentences first": (("Event 31 is the first", "Event 30 is the first"),),
        "named": (
            ("2 operations of 400: these alone", "3 operations of 400: these alone"),
            ("these alone have no valid order. Arrows", "these alone have no valid order, whatever the queue contained before event 3. Arrows"),
        ),
        "tried": (
            ("gives 287, returned nil", "gives 286, returned nil"),
            ("<td><code>[287]</code></td>", "<td><code>[]</code></td>"),
            ("<caption><span>Every order breaks. There is one", "<caption><span>Every order breaks. There is no"),
        ),
        "bars named": ((' data-op="677" id="o677"', ' data-op="743" id="o677"'),),
        "bars": (("returned at event 745", "returned at event 746"),),
        "labels": (
            ('y="39">enqueue 287</text>', 'y="39">enqueue…</text>'),
            ('y="39">enqueue 287</text>', 'y="39">en…87</text>'),
            ('y="39">enqueue 287</text>', 'y="39">enqueue 288</text>'),
        ),
        # One that goes on into a gap reaches the one that comes out of it, or one reaches the one after it.
        "touching": (
            ('<rect class="fill" x="86" y="26" width="91"', '<rect class="fill" x="86" y="26" width="99"'),
            ('<rect class="fill" x="903" y="26" width="73"', '<rect class="fill" x="891" y="26" width="85"'),
        ),
        "view": (
            ("Drawn: 35 of 400", "Drawn: 34 of 400"),
            (" 32</text>", " 33</text>"),
            ("32 maps left out, with 15 operations", "32 maps left out, with 14 operations"),
            (
                '<g class="gap"><title>32 maps left out, with 15 operations</title><rect x="163" y="18" width="36" height="58"/>'
                '<text x="181" y="12">⋯ 32</text></g>',
                "",
            ),
        ),
        "strip": (("at most 4. Framed", "at most 5. Framed"), ('<rect class="shown" x="788"', '<rect class="shown" x="188"')),
        "stretches strip": (("<summary>Maps 198 to 276", "<summary>Maps 190 to 276"),),
        "captions": (("In its surroundings: the", "In its surroundings, the"),),
        "legend": (
            (" puts in or sets</li>", " reads</li>"),
            ("<ul><li>", '<ul><li><svg/> reads</li><li>'),
        ),
    },
    # The halo of an arrow over another arrow, and over its own bar; a lock without one of its prior contents.
    "redis_lock": {
        "marks": (
            ('</g><g class="before"><title>#768', '</g><path class="halo" d="M271 61h6V35H332"/><g class="before"><title>#768'),
            ('<path class="halo" d="M136 35h6', '<path class="halo" d="M132 35h10'),
        ),
        "tried": (
            (
                '<tr><th scope="row">1</th><td></td><td><code>held</code></td><td><a class="ref" href="#o766"><b>#766</b> '
                "<code>acquire</code></a></td><td>is not possible</td></tr>",
                "",
            ),
            ("<td><code>held</code></td>", "<td><code>free</code></td>"),
            ("<span>Every order breaks. Both ways", "<span>Every order breaks. All 3 ways"),
        ),
        "legend": (("</svg> releases</li>", "</svg> takes out</li>"),),
    },
    "larger_first": {
        "tried": (
            (
                "<span>Every order breaks. There is one way to begin, up to equal content, and",
                "<span>Every order breaks. There is one way to begin,",
            ),
        )
    },
    "wrong_reply": {
        "boxes": (
            ("The queue before entry 3", "The queue before entry 2"),
            ("first at the left", "last at the left"),
            ("put by #0</text>", "put by #1</text>"),
            ("put by #2</text>", "by #2</text>"),
        ),
        "points": (("content after: [1]", "content after: [2]"), ("gives 1, returned 2", "gives 2, returned 2")),
        "rows": (("<td><code>[1]</code></td>", "<td><code>[1 1]</code></td>"),),
        "heading": (("Order refused</h1>", "No</h1>"),),
    },
    "no_certificate": {
        "heading": (("Order missing</h1>", "Order refused</h1>"),),
        "heading sentences": (("This says nothing of the history. ", "This refuses the order, and not the history: another order may be valid. "),),
    },
}
# The same of pages of generated histories.
FALSIFIED_OLD_VALUE = {
    "sentences": (
        ("found 1. But", "found 2. But"),
        (" set 2 under key 5", " set 2 under key 4"),
        (" set 2 under key 5", " set 3 under key 5"),
        ("(events 2 to 5)", "(events 2 to 4)"),
    ),
    "tried": (
        ("gives other, returned 1", "gives other, returned 0"),
        ("gives other, returned 1", "gives 0, returned 1"),
        (". “other” is any value that the reason does not keep</span></caption>", "</span></caption>"),
    ),
}
FALSIFIED_NEVER_PUT = {
    "vague": (("Key 9223372036854775807: value -9223372036854775808 was seen and never put. Whatever", "Whatever"),),
    "note": ((" What follows “counted as” is all that it uses of the operation; the value there may stand for any other.", ""),),
    "labels": ((">put [-9223372036…54775807] → nil</text>", ">put [-9223372036854775808 92233…</text>"),),
}
# The refused point on the bar that follows in its lane, and a line between points above a bar.
FALSIFIED_TOO_LATE = {
    "marks": (
        ('y="141" width="29" height="14" rx="7"/><text x="120" y="151">', 'y="121" width="29" height="14" rx="7"/><text x="120" y="131">'),
        ('<a class="pt bad"', '<path class="thread" d="M276 51L311 64"/><a class="pt bad"'),
    ),
}
# A line between points whose entries do not follow each other.
FALSIFIED_SIXTY_LANES = {"marks": (("L447 1017M524 555M", "L447 1017L524 555M"),)}
FALSIFIED_SET = {
    "sentences": (("the set contains <code>{5, 7}</code> there", "the set contains <code>{5}</code> there"),),
    # The operation that put it there is not named, and so not outlined.
    "sentences captions": ((' 5 was put there by <a class="ref" href="#o0"><b>#0</b> <code>add 5 → true</code></a>.', ""),),
    "boxes": (("gives true</text>", "gives</text>"), ("put by #2</text>", "put by #0</text>"), (">7</text>", ">8</text>")),
    "rows": (("<td><code>{5, 7}</code></td>", "<td><code>{7, 5}</code></td>"),),
}
FALSIFIED_COUNTER = {
    "sentences": (("the counter contains <code>2</code> there", "the counter contains <code>1</code> there"),),
    "boxes": (("contains</text>", "gives</text>"), ('y="19">1</text>', 'y="19">0</text>')),
    "rows": (("<td><code>2</code></td>", "<td><code>0</code></td>"),),
}
FALSIFIED_PAST_END = {
    "sentences": (("07</code> there", "06</code> there"),),
    # Without a known sentence nothing says why the entry is refused.
    "sentences points rows": (("the sum has more than 64 bits", "the sum has more than 63 bits"),),
}
FALSIFIED_LOCK = {
    "sentences": (
        ("is unlocked only by its owner", "is locked only while it is free"),
        ("the lock is held there, by", "the lock is free there, since"),
    ),
    "boxes": (('y="19">3</text>', 'y="19">4</text>'),),
    "rows": (("<td><code>3</code></td>", "<td><code>held</code></td>"),),
    "legend": (("</svg> releases</li>", "</svg> takes out</li>"),),
}
# A lock that another one unlocks, without one of the contents with which the first operation of the reason is not possible.
FALSIFIED_LOCK_RELEASED = {
    "tried": (
        (
            '<tr><th scope="row">2</th><td></td><td><code>held by another</code></td><td><a class="ref" href="#o2"><b>#2</b> '
            "<code>unlock 1</code></a></td><td>is not possible</td></tr>\n",
            "",
        ),
        ("<span>Every order breaks. All 3 ways", "<span>Every order breaks. Both ways"),
    ),
}
FALSIFIED_OPEN = {"open": (("has 24 of 25 operations", "has 23 of 25 operations"),), "sentences open": (("After it comes", "Before it comes"),)}
# Its operations are all up to the first that does not fit: the 2,600 that put values in, and 1,302 that took them out.
FALSIFIED_LONG_REASON = {
    "named": (
        ("Drawn: 200 of them. ", "Drawn: 199 of them. "),
        ("Drawn: 200 of them. ", ""),
    ),
    "sentences": (("these 3 902 operations", "these 200 operations"),),
    "sentences named": (("3 902 operations of 5 200: these alone", "200 operations of 5 200: these alone"),),
    "lines": (("more lines", "more line"),),
}


def falsified():
    """Pages, and what is made false on each."""
    for stem, those in FALSIFIED.items():
        yield example(stem, stem in ("wrong_reply", "no_certificate")), those
    yield Case("a put finds an old value", text_writers.one_process(*dict(old_values())["a put"])), FALSIFIED_OLD_VALUE
    yield never_put(), FALSIFIED_NEVER_PUT
    yield comes_too_late(), FALSIFIED_TOO_LATE
    yield checked("a queue of 60 processes", played(("queue",), 120, 60)), FALSIFIED_SIXTY_LANES
    yield Case("a set finds another answer", SET_ANSWERS_WRONGLY, text_writers.order(0, 2, 4)), FALSIFIED_SET
    yield Case("a counter tells another number", COUNTER_TELLS_ANOTHER, text_writers.order(0, 2)), FALSIFIED_COUNTER
    yield Case("a counter past its end", COUNTER_PAST_ITS_END, text_writers.order(0, 2)), FALSIFIED_PAST_END
    yield Case("a lock of another owner", LOCK_OF_ANOTHER, text_writers.order(0, 2)), FALSIFIED_LOCK
    yield Case("a lock that is unlocked again", LOCK_UNLOCKED_AGAIN), FALSIFIED_LOCK_RELEASED
    yield Case("a short search", text_writers.lines(*histories.long_search(1)), None, ("--steps", "1")), FALSIFIED_OPEN
    yield Case("a reason of 3 902 operations", of_two_values(2_600, 1)), FALSIFIED_LONG_REASON


def finding(case, page, told, orders):
    """The names of the checks that find something wrong with a page. One that cannot read its part of the page does;
    where none can, it is unreadable."""

    def finds(check):
        try:
            return check() is not None
        except Exception:  # Whatever it is, the page is not as it must be.
            return True

    try:
        drawn = Drawn(page)
    except ValueError:
        return {"unreadable"}
    return {name for name, check in checks_of(case, drawn, told, orders) if finds(check)}


def falsified_pages(program, report):
    """The checks of these tests find a page that was made false: the check that is meant to find it, and no other."""
    for case, those in falsified():
        drawn, told, orders = run(program, case)
        report.equal(f"draw: {case.name}: nothing is false", set(), finding(case, drawn.out, told, orders))
        for names, (old, new) in ((names, pair) for names, pairs in those.items() for pair in pairs):
            page = drawn.out.replace(old.encode(), new.encode(), 1)
            report.holds(f"draw: {case.name} has {old}", page != drawn.out, drawn.out[:3000])
            report.equal(f"draw: {case.name} with {new} in place of {old}: what finds it", set(names.split()), finding(case, page, told, orders))


# Styles that are added to pages, and what the browser finds then, and nothing else.
FALSIFIED_STYLES = (
    ("postgres_queue", ".scroll>svg{zoom:1!important}", r"a figure has 984 of 2560 pixels|lines of a figure have scales of .*"),
    ("postgres_queue", ".say{max-width:120px!important}.ref{white-space:normal!important}", r"#\d+ .* is broken over two lines"),
    ("postgres_queue", ".names{position:static!important}", "the names of lanes scroll away"),
    ("postgres_queue", ".icon{print-color-adjust:economy!important}", "the colour of icon is lost"),
    ("postgres_queue", ".scroll,.tbl{background:none!important}", r"nothing shows that .* can be scrolled"),
    ("postgres_queue", "@media print{.scroll>svg{zoom:1!important}}", r"lines of a figure have scales of .*"),
    ("postgres_queue", "@media screen{.tried caption>span{max-width:none!important;white-space:nowrap}}", r"Every order breaks\..* is cut"),
    ("forty objects", ".tbl.overview{max-height:300px!important}", r"rows of the table of objects are out of sight|tbl overview is cut: .*"),
    ("forty objects", ".overview td:first-child{white-space:normal!important}", r"object \d+ may break in two lines"),
    ("an entry that stands twice", ".order tr.bad>*{position:static!important}", r"the row r0-71 is out of sight"),
)


def falsified_styles(program, report):
    """The checks in the browser find what a wrong style does to a page, and nothing else."""
    if not is_in_browser():
        return
    queue = played(("queue",), 600, 4)
    order = queue.orders[0]
    twice = Case("an entry that stands twice", queue.text(), text_writers.order(*order[:70], order[30], *order[70:]))
    cases = {"postgres_queue": example("postgres_queue", False), "forty objects": replace(forty_objects(), loads=0), twice.name: twice}
    drawn = {name: run(program, case) for name, case in cases.items()}
    wanted = {}
    for number, (name, style, words) in enumerate(FALSIFIED_STYLES):
        page, told, _ = drawn[name]
        path = f"{program.folder}/{program.write(f'style {number}.html', page.out.replace(b'</style>', style.encode() + b'</style>', 1))}"
        wanted[path] = (style, words, wanted_of(cases[name], told, path))
    for file, bad in found_in_browser(program, report, [looked for _, _, looked in wanted.values()]):
        style, words, _ = wanted[file]
        faults = [re.sub(r"^(wide|phone|paper|light|dark|\d+ pixels): ", "", fault) for fault in bad]
        report.holds(f"draw: {style}: what the browser finds", bad and all(re.fullmatch(words, fault) for fault in faults), bad)


# ---- large ones


def rounds(processes, maps, on=None):
    """A history of a queue of n maps: in rounds each process puts a value in, and then takes the values out in their order."""
    events, order, value = [], [], 0
    while len(events) < maps:
        count = min(processes, (maps - len(events)) // 4)
        begun, values = len(events), range(value, value + count)
        events += [text_writers.invoke(number, "enqueue", value + number, on) for number in range(count)]
        events += [text_writers.ok(number, "enqueue", value + number, on) for number in range(count)]
        events += [text_writers.invoke(number, "dequeue", None, on) for number in range(count)]
        events += [text_writers.ok(process, "dequeue", own, on) for process, own in enumerate(values)]
        order += [*range(begun, begun + count), *range(begun + 2 * count, begun + 3 * count)]
        value += count
    return events, order


def with_wrong_reply(maps, at):
    """The history in which the first value that is taken out from a map on is another."""
    number = next(place for place in range(at, len(maps)) if ":ok" in maps[place] and ":dequeue" in maps[place])
    return [*maps[:number], maps[number].replace(":value ", ":value 9"), *maps[number + 1 :]]


def with_value_twice(maps, at):
    """The history in which a value that is taken out after a map is the one that was taken out before."""
    one, other = itertools.islice((number for number in range(at, len(maps)) if ":ok" in maps[number] and ":dequeue" in maps[number]), 2)
    value = re.search(r":value (\d+)", maps[one])[1]
    return [*maps[:other], re.sub(r":value \d+", f":value {value}", maps[other]), *maps[other + 1 :]]


# How often draw takes the instructions of judge, at most, and how often its processor time.
MOST_INSTRUCTIONS, MOST_TIMES = 1.1, 1.2
# What other work on the machine may add to the least time of draw, and not to that of judge, in seconds.
NOISE = 0.02
# The fewest and the most runs of each by which the time is told.
FEWEST_RUNS, MOST_RUNS = 5, 60


def is_fast(with_page, without):
    """Whether draw, which took so long, is fast enough beside judge."""
    return with_page <= MOST_TIMES * without + NOISE


def least_seconds(program, name):
    """The least times of draw and of judge, of several runs in turn. Other work on the machine only adds to a time, so
    there are more runs where draw is not fast enough."""
    with_page, without = [], []
    for number in range(MOST_RUNS):
        if number >= FEWEST_RUNS and is_fast(min(with_page), min(without)):
            break
        with_page.append(processor_seconds(program, "draw", name))
        without.append(processor_seconds(program, "judge", name))
    return min(with_page), min(without)


def large_cases():
    """Histories of 500,000 operations, of 1,000 processes and of 65,536 objects, with and without a wrong reply."""
    maps, order = rounds(12, 1_000_000)
    whole, its_order = text_writers.lines(*maps), text_writers.order(*order)
    wrong, twice = text_writers.lines(*with_wrong_reply(maps, 600_000)), text_writers.lines(*with_value_twice(maps, 600_000))
    yield Case("500 000 operations", whole, its_order, reads=False)
    yield Case("500 000 operations judged", whole, reads=False)
    yield Case("500 000 operations of which one is wrong", wrong, its_order, reads=False, says=("c6",))
    yield Case("500 000 operations without an order", wrong, reads=False, says=("never_put",))
    yield Case("500 000 operations with a value taken twice", twice, reads=False, says=("too_often",))
    maps, order = rounds(1000, 40_000)
    yield Case("1 000 processes", text_writers.lines(*maps), text_writers.order(*order))
    yield Case("1 000 processes, one wrong", text_writers.lines(*with_wrong_reply(maps, 20_000)), text_writers.order(*order), says=("c6",))
    yield Case("1 000 processes without an order", text_writers.lines(*with_value_twice(maps, 20_000)), says=("too_often",))
    yield Case("a reason of 4 000 operations", of_two_values(2_000, 12), reads=False, says=("general",))
    many = [event for on in range(65_536) for event in (text_writers.invoke(0, "push", on, on), text_writers.ok(0, "push", on, on))]
    yield Case("65 536 objects", text_writers.lines(*many), reads=False)
    yield Case("65 536 objects, the last one alone", text_writers.lines(*many), None, ("--object", "65535"), reads=False)


def large_drawings(program, report):
    """Large histories have pages of at most a megabyte, in the browser too."""
    wanted = [look(program, report, case) for case in large_cases()]
    in_browser(program, report, [page for page in wanted if page])


def rounds_of_a_map(processes, maps):
    """A history of a map object of n maps: in rounds each process puts a value under a key of its own, and then gets it."""
    events, value = [], 0
    before = dict.fromkeys(range(processes))
    while len(events) < maps:
        events += [text_writers.invoke(number, "put", (number, value + number)) for number in range(processes)]
        events += [text_writers.ok(number, "put", before[number]) for number in range(processes)]
        before = {number: value + number for number in range(processes)}
        events += [text_writers.invoke(number, "get", number) for number in range(processes)]
        events += [text_writers.ok(number, "get", before[number]) for number in range(processes)]
        value += processes
    return events


def histories_of_cost(maps):
    """A queue, a map, and a queue without an order, of n maps."""
    queue, _ = rounds(10, maps)
    return {"queue": queue, "map": rounds_of_a_map(10, maps), "impossible": with_value_twice(queue, maps * 3 // 5)}


def cost_of_drawings(program, report):
    """A page takes at most 1.1 times the instructions of judge, and 1.2 times its time, of a queue, of a map, and of a queue without an order."""
    told = []
    for name, maps in histories_of_cost(100_000).items() if shutil.which("valgrind") else ():
        file = program.write(f"{name}.{HISTORY}", text_writers.lines(*maps))
        with_page, without = program.instructions("draw", file), program.instructions("judge", file)
        report.holds(
            f"draw: {name}: it takes at most {MOST_INSTRUCTIONS} times the instructions of judge",
            with_page <= MOST_INSTRUCTIONS * without,
            (with_page, without),
        )
        told.append(f"{name} {with_page / without:.2f} times the instructions")
    for name, maps in histories_of_cost(1_000_000).items():
        with_page, without = least_seconds(program, program.write(f"{name}.{HISTORY}", text_writers.lines(*maps)))
        report.holds(f"draw: {name}: it takes at most {MOST_TIMES} times the time of judge", is_fast(with_page, without), (with_page, without))
        told.append(f"{name} {with_page:.2f} of {without:.2f} s, {with_page / without:.2f} times")
    return "; ".join(told)


def example_pages(program, report):
    """The pages in examples/pages are those that the program draws, byte for byte."""
    names = sorted(os.listdir(PAGES))
    for name in names:
        stem = name.removesuffix(".html")
        with open(f"{PAGES}/{name}", "rb") as file:
            page = file.read()
        files = []
        for kind in ("history.edn", "certificates.edn"):
            path = f"{EXAMPLES}/{stem}.{kind}"
            if os.path.exists(path) and (kind == "history.edn" or not os.path.exists(f"{EXAMPLES}/{stem}.refuted")):
                with open(path, "rb") as file:
                    files.append(program.write(f"{stem}.{kind}", file.read()))
        ran = program.run("draw", *files)
        report.equal(f"draw: examples/pages/{name}", page, ran.out)
    report.holds("draw: there are pages of examples", len(names) >= 4, names)


PARTS = (drawn_pages, drawn_sentences, drawn_faults, falsified_pages, falsified_styles, large_drawings, cost_of_drawings, example_pages)
