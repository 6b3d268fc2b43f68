"""What a page shows in addition: times, what a nemesis does, and the names of an imported history. No answer depends on them."""
import re
import shutil

from . import drawn_inputs
from .pages import Drawn, found
from .. import text_writers
from ..worked_rows import OVERLAPPING
from ..judge.imported_histories import JSON, STORE
from ..judge.like_recorded import ExpiringLock, played

# A register, whose maps have times, and a nemesis that parts a node from the others while it is read: two maps for each thing that it does.
TIMED = """{:process 0, :type :invoke, :f :write, :value 1, :time 1204351999}
{:process :nemesis, :type :info, :f :start-partition, :value [:isolated ["n1"]], :time 1300000000}
{:process :nemesis, :type :info, :f :start-partition, :value nil, :time 1310000000}
{:process 0, :type :ok, :f :write, :value 1, :time 1405351999}
{:process 1, :type :invoke, :f :read, :time 1505351999}
{:process 1, :type :ok, :f :read, :value 1, :time 1605351999}
{:process :nemesis, :type :info, :f :stop-partition, :time 1705351999}
{:process :nemesis, :type :info, :f :stop-partition, :time 1706351999}
{:process 1, :type :invoke, :f :read, :time 60805351999}
{:process 1, :type :info, :f :read, :time 61000000000}
"""
BAND = 'nemesis start-partition [:isolated ["n1"]], event 1, at 1.300000 s, until event 6'
MARKS = [
    'nemesis start-partition [:isolated ["n1"]], event 1, at 1.300000 s',
    "nemesis start-partition, event 2, at 1.310000 s",
    "nemesis stop-partition, event 6, at 1.705351 s",
    "nemesis stop-partition, event 7, at 1.706351 s",
]


# A register with an initial value, which two events before these write. Event 3 finds it after event 1.
INITIAL = """{:process 0, :type :invoke, :f :write, :value 5}
{:process 0, :type :ok, :f :write, :value 5}
{:process 1, :type :invoke, :f :read}
{:process 1, :type :ok, :f :read, :value 0}
"""
# Under a key of a map, a string, nothing had put what is found; the key 0 is another one.
KEYED = """{:process 0, :type :invoke, :f :put, :value ["a" 1]}
{:process 0, :type :ok, :f :put, :value nil}
{:process 0, :type :invoke, :f :get, :value "a"}
{:process 0, :type :ok, :f :get, :value 2}
{:process 0, :type :invoke, :f :get, :value 0}
{:process 0, :type :ok, :f :get, :value nil}
"""


def without_times(text):
    return re.sub(r", :time \d+", "", text)


def lines_of(page):
    """The lines of the figures, without the legend."""
    return found(page.body, "svg", "sys")


def titles(page, name):
    return ["".join(element.find("title").itertext()) for line in lines_of(page) for element in found(line, "g", name)]


def x_of(line, number):
    """Where the bar of an operation begins."""
    bar = next(bar for bar in found(line, "g", "op") if bar.get("data-op") == str(number))
    return int(next(bar.iter("rect")).get("x"))


def timed_pages(program, report):
    """Times stand over the lanes and in titles, and a band goes from where a nemesis began to where it ended. The answer is the same without them."""
    timed, plain = (program.run("draw", program.write("timed.edn", text)) for text in (TIMED, without_times(TIMED)))
    page, other = Drawn(timed.out), Drawn(plain.out)
    report.equal("draw: times: the answer", (0, "yes", other.lines), (timed.status, page.answer, page.lines))
    line = lines_of(page)[0]
    shown = [mark.text for mark in found(line, "text", "time")]
    times = {f"{parts[0]}.{parts[1]} s" for parts in re.findall(r":time (\d+)(\d{3})\d{6}\b", TIMED)}
    is_axis = shown[0] == "1.204 s" and set(shown) <= times and len(shown) >= 3
    report.holds("draw: times: the axis", is_axis, shown)
    ends = [(int(mark.get("x")) - 3 * len(mark.text), int(mark.get("x")) + 3 * len(mark.text)) for mark in found(line, "text", "time")]
    report.holds("draw: times: they do not overlap", all(one[1] < two[0] for one, two in zip(ends, ends[1:])), ends)
    bars = titles(page, "op")
    report.holds("draw: times: a title", bars[0].endswith("\nreturned at event 3\nfrom 1.204351 s to 1.405351 s"), bars)
    report.holds("draw: times: a pending one", any(bar.endswith("\nfrom 60.805351 s to 61.000000 s") for bar in bars), bars)
    report.equal("draw: nemesis: its marks", MARKS, titles(page, "nem"))
    report.equal("draw: nemesis: its bands", [BAND], titles(page, "band"))
    rect = found(line, "g", "band")[0].find("rect")
    spots = [int(re.match(r"M(\d+) ", mark.find("path").get("d"))[1]) for mark in found(line, "g", "nem")]
    report.equal(
        "draw: nemesis: from its beginning to its end",
        (spots[0], spots[2]),
        (int(rect.get("x")), int(rect.get("x")) + int(rect.get("width"))),
    )
    report.equal("draw: no times: no axis", [], found(other.body, "text", "time"))
    report.holds("draw: no times: no titles of them", not any("\nfrom " in title for title in titles(other, "op")), titles(other, "op"))
    report.equal("draw: no times: the marks", [re.sub(", at .* s", "", mark) for mark in MARKS], titles(other, "nem"))


def ticks_of(line):
    """Where the numbers of a line stand, and where its times do."""
    return [sorted(int(mark.get("x")) for mark in found(line, "text", name)) for name in ("num", "time")]


def timed_ticks(program, report):
    """The number of a time stands above that time, also if events are close, and if only the operations of a reason are drawn."""
    puts = [event(process, "enqueue", process) for event in (text_writers.invoke, text_writers.ok) for process in range(8)]
    takings = [text_writers.invoke(process, "dequeue") for process in range(2)]
    for name, taken in (("yes", (7, 6)), ("no", (7, 7))):
        maps = [*puts, *takings, *(text_writers.ok(process, "dequeue", value) for process, value in enumerate(taken))]
        timed = text_writers.lines(*[f"{map_text[:-1]}, :time {number * 10**9}}}" for number, map_text in enumerate(maps)])
        page = Drawn(program.run("draw", program.write("ticks.edn", timed)).out)
        rows = [ticks_of(line) for line in lines_of(page)]
        report.holds(f"draw: times: under their numbers, {name}", all(numbers == times for numbers, times in rows), rows)
        shown = [mark.text for line in lines_of(page) for mark in found(line, "text", "num")]
        moments = [mark.text for line in lines_of(page) for mark in found(line, "text", "time")]
        report.equal(f"draw: times: of their events, {name}", [f"{number}.000 s" for number in shown], moments)
        report.holds(f"draw: times: some, {name}", len(shown) >= 3, shown)
    alone = [mark.text for mark in found(page.by_id("zoom"), "text", "num")]
    report.equal("draw: times: each of a reason", ["7", "15", "16", "17", "18", "19"], alone)


def nemesis_room(program, report):
    """Long names of what a nemesis does do not push operations apart, and 60 marks after the last operation take no lines of their own."""
    calls = [text_writers.invoke(0, "write", 1), text_writers.ok(0, "write", 1), text_writers.invoke(0, "read"), text_writers.ok(0, "read", 1)]
    mark = "{:process :nemesis, :type :info, :f :start-partition-majorities-ring}"
    pages = [
        Drawn(program.run("draw", program.write("nemesis.edn", text_writers.lines(*events))).out)
        for events in (calls, [*calls[:2], mark, *calls[2:]], [*calls, *[mark] * 60])
    ]
    plain, between, after = map(lines_of, pages)
    # A mark has the room of an event, 12.
    report.equal("draw: nemesis: room for a long name", x_of(plain[0], 2) + 12, x_of(between[0], 3))
    report.equal("draw: nemesis: lines for 60 marks", 1, len(after))


def of_many_nemeses(program, count):
    """A history in which nemeses begin this many things, none of which ends."""
    begun = "".join(f"{{:process :nemesis, :type :info, :f :start-{it}}}\n" for it in range(count))
    return program.write(f"nemeses.{count}.edn", OVERLAPPING + begun)


def many_nemeses(program, report):
    """A page of many things that nemeses began takes no more instructions for each than one of half of them. It has at most 40 bands in a line,
    the last of which says how many more there are."""
    half, whole = (of_many_nemeses(program, count) for count in (4_000, 8_000))
    page = program.run("draw", whole).out.decode()
    report.holds("draw: the page of 8,000 nemeses is short", len(page) < 200_000, len(page))
    bands = re.findall(r'<g class="band"><title>([^<]*)</title>', page)
    report.holds("draw: 40 bands in each line, and the last has the others", re.fullmatch(r"\d+ more faults of nemeses", bands[39]), bands[:41])
    if not shutil.which("valgrind"):
        return "valgrind is missing"
    few, many = (program.instructions("draw", history) for history in (half, whole))
    report.holds("draw: 8,000 nemeses take less than 2.5 times what 4,000 take", many < 2.5 * few, (few, many))
    return None


def named_pages(program, report):
    """With the table of names that import wrote, the page and the lines of judge on it use these names for values, keys, processes and objects."""
    names = f"{program.folder}/names.edn"
    text = program.write("named.edn", program.run("import", "--names", names, program.write("store.edn", STORE)).out)
    drawn, told = (program.run(command, "--names", names, text) for command in ("draw", "judge"))
    page = Drawn(drawn.out)
    report.equal("draw: names: the status and the lines", (told.status, told.out.decode().strip()), (drawn.status, page.lines))
    labels = {title.partition("\n")[0] for title in titles(page, "op")}
    report.equal("draw: names: labels", {"write :b", 'write "c"', "read → :b"}, labels)
    report.holds("draw: names: the object", 'Object 0, which is "x": register' in "".join(page.body.itertext()))
    sentences = " ".join(page.said)
    report.holds("draw: names: sentences", 'write "c"' in sentences and "read → :b" in sentences, sentences)
    report.holds("draw: names: the content", any('"c"' in cell for _, cells in page.rows("tried") for cell in cells), page.rows("tried"))
    text = program.write("named.edn", program.run("import", "--names", names, program.write("lines.json", JSON)).out)
    page = Drawn(program.run("draw", "--names", names, text).out)
    report.equal("draw: names: lanes", {'"n1"', '"n2"'}, {lane.text for line in lines_of(page) for lane in found(line, "text", "lane")})
    report.holds("draw: names: a process in a title", 'process "n2"' in titles(page, "op")[1], titles(page, "op"))
    report.equal("draw: names: rows", ['`["job 1"]`', "`[]`"], [cells[2] for _, cells in page.rows("t0")])
    ran = program.run("draw", "--names", program.write("twice.edn", "{:value 1, :is :a} {:value 1, :is :b}"), text)
    report.equal("draw: names: a value with two names", (2, b""), (ran.status, ran.out))


def named_events(program, report):
    """Events of a history with an initial value keep their own numbers, also in the sentence on the first one, and in --from and --to."""
    names = f"{program.folder}/names.edn"
    imported = program.run("import", "--initial", "0", "--names", names, program.write("initial.edn", INITIAL))
    text = program.write("named.edn", imported.out)
    page = Drawn(program.run("draw", "--names", names, text).out)
    report.holds("draw: names: the first event", "Event 3 is the first that leaves no order." in page.said, page.said)
    page = Drawn(program.run("draw", "--names", names, "--from", "2", "--to", "4", text).out)
    # The read is event 4 of the text, and so of the anchors of the page.
    report.equal("draw: names: from and to", [4], page.bars("fig0"))


def named_keys(program, report):
    """A sentence on a key of a map uses the name of the key, and sentences and tables use the names of objects."""
    names = f"{program.folder}/names.edn"
    text = program.write("named.edn", program.run("import", "--names", names, program.write("keyed.edn", KEYED)).out)
    page = Drawn(program.run("draw", "--names", names, text).out)
    sentences = " ".join(page.said)
    report.holds("draw: names: a key", 'Key "a": value 2 was seen and never put' in sentences, sentences)
    text = program.write("named.edn", program.run("import", "--names", names, program.write("store.edn", STORE)).out)
    page = Drawn(program.run("draw", "--names", names, text).out)
    sentences = " ".join(page.said)
    report.holds("draw: names: an object", 'No order of the operations of object "x", a register, is valid.' in sentences, sentences)
    report.holds("draw: names: an object that is not drawn", 'Not drawn: object "y". `--object 1` draws object "y".' in sentences, sentences)
    report.equal("draw: names: the table of objects", ['object "x"', 'object "y"'], [cells[0] for _, cells in page.rows("objects")])


# The first events that leave no order, as a reader found them by hand.
FIRST_EVENTS = {"postgres_queue": 31, "redis_lock": 25}


def first_event(program, history):
    """The first event that leaves no order, as the page of a history names it, or None."""
    sentences = Drawn(program.run("draw", program.write("first.edn", history)).out).said
    named = [re.fullmatch(r"Event (\d+) is the first that leaves no order\.", sentence) for sentence in sentences]
    return next((int(match[1]) for match in named if match), None)


def named_first_events(program, report):
    """A page names the first event that leaves no order: what is before it is judged yes, and with it impossible."""
    histories = {name: drawn_inputs.example(name, False).history.decode() for name in FIRST_EVENTS}
    histories["a mutex of 80 000 events"] = played(("mutex",), 40_000, 5, ExpiringLock).text()
    for name, history in histories.items():
        first, maps = first_event(program, history), history.splitlines(keepends=True)
        report.equal(f"draw: {name}: the first event", FIRST_EVENTS.get(name, first), first)
        statuses = [program.run("judge", program.write("cut.edn", "".join(maps[:end]))).status for end in (first, first + 1)]
        report.equal(f"draw: {name}: before event {first}, and with it", [0, 1], statuses)


def accessible_bars(program, report):
    """A screen reader reads the operations of bars, in the order of their beginnings, and of points first. Each leads to a place of the page."""
    several = Drawn(program.run("draw", program.write("overlapping.edn", OVERLAPPING)).out)
    report.equal(
        "draw: bars in the order of their beginnings",
        [["0", "1", "4"]],
        [[bar.get("data-op") for bar in found(line, "g", "op")] for line in lines_of(several)],
    )
    page = Drawn(program.run("draw", program.write("timed.edn", TIMED)).out)
    bars, points = ([element for line in lines_of(page) for element in found(line, *those)] for those in (("g", "op"), ("a", "pt")))
    report.equal("draw: bars without a link", [], [bar.get("data-op") for bar in bars if bar.find("a") is None])
    links = [*[own for bar in bars for own in bar.findall("a")], *points]
    report.holds(
        "draw: labels of links",
        all(re.match(r"(write 1|read → [1?]), #\d", link.get("aria-label")) for link in links),
        [link.get("aria-label") for link in links],
    )
    report.equal("draw: links", [], page.lost_links())


PARTS = (timed_pages, timed_ticks, nemesis_room, many_nemeses, named_pages, named_events, named_keys, named_first_events, accessible_bars)
