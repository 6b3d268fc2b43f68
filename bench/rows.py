"""The rows of bench/run: the texts that gen.py makes, and what is started on them."""
import re
from dataclasses import dataclass

KINDS = ("queue", "stack", "heap", "register", "map", "mutex")
# Texts of --size maps, and of a tenth of them.
BIG, MIDDLE = "history --seed 1 --concurrency 16 --processes 32 --maps {maps} --time", "history --seed 1 --concurrency 16 --maps {tenth} --unique"
MIXED = f"{BIG} --kind mixed --objects 16 --fail 0.05 --info 0.001 --nemesis 0.01"
QUEUE, MUTEX = f"{BIG} --kind queue", f"{BIG} --kind mutex"
OBJECTS = "history --kind mixed --objects 1000 --side-by-side 100 --concurrency 400 --maps {maps} --unique --fail 0.01 --info 0.001"
# Calls of the library on a history of 20 operations are timed 20 together, and 200 times in a round.
SHORT, LOTS, CALLS = "history --calls 20 --processes 4 --concurrency 4", 200, 20
# Calls on the desk: the least of this many rounds in a process.
DESK_ROUNDS = 20


@dataclass(frozen=True)
class Start:
    """What is started: a program and its words. In the words {history}, {certs}, {evidence} of find, the folder {divided} with shards and their
    evidence, and {fresh}, a folder that is not there yet, are names. The times are those of the process, those of each call that its lines tell,
    or nanoseconds that it tells of a call: the last number of the line that begins with `line`, or the one in `column` of the first line."""

    label: str
    program: str
    words: str
    times: str = "process"
    line: str = ""
    column: int = -1


@dataclass(frozen=True)
class Row:
    """A row: its text, what is started of each build, and the peers. Rows that are not `usual` are measured only if --rows names them."""

    name: str
    text: str
    own: Start
    peers: tuple = ()
    usual: bool = False

    def made(self):
        """What is made of the text before the rounds."""
        return re.findall(r"\{(evidence|divided)\}", self.own.words)


def of_fcbench(name, text, words, peers=(), usual=True):
    return Row(name, text, Start("", "fcbench", words), peers, usual)


def check(name, text, usual=True):
    """check by one worker, beside the plain judge, and by four."""
    words, peer = "check {history} {certs}", (Start("plain judge", "judge", "check {history} {certs}"),)
    yield of_fcbench(f"check: {name}", text, words, peer, usual)
    if usual:
        yield of_fcbench(f"check: {name}, 4 workers", text, f"{words} --workers 4")


def search(name, words, usual=False):
    told = "search {history} --steps 1000000"
    return of_fcbench(f"search: {name}", f"search {words}", told, (Start("plain judge", "judge", told),), usual)


def find(kind, calls, at_once):
    text, is_long = f"history --unique --kind {kind} --calls {calls} --concurrency {at_once}", calls != 4096
    usual = is_long and at_once == 16 and kind in ("queue", "stack", "map")
    name = f"find: {kind}{'' if is_long else ', 4,096 calls'}, {at_once:,} at once"
    return of_fcbench(name, text, "find {history}", usual=usual)


def library(name, text, command, lots, calls, usual):
    return Row(f"library: {command}, {name}", text, Start("", "timer", f"{command} {{history}} {{certs}} {lots} {calls}", "calls"), (), usual)


def desk(kind, threads):
    """A call on the desk, beside a Mutex and flat combining, without records and with."""
    words = f"--kind {kind} --threads {threads} --calls 10000 --rounds {DESK_ROUNDS} --least"
    peers = tuple(
        Start(f"{how} {peer}", "combine", f"{words}{options}", "told", "", column)
        for how, options in (("plain", ""), ("recorded", " --recorded"))
        for column, peer in ((1, "mutex"), (2, "flat"))
    )
    own = Start("", "desk_bench", str(DESK_ROUNDS), "told", f"{kind} {threads} ")
    return Row(f"desk: {kind}, {threads} thread{'s' if threads > 1 else ''}", "", own, peers)


# Texts of many sorts, some of which are malformed, with the words of gen.py.
OTHER_TEXTS = (
    ("stack", f"{BIG} --kind stack"),
    ("heap", f"{BIG} --kind heap --fill 0.7 --values 1000000"),
    ("register", f"{BIG} --kind register"),
    ("map", f"{BIG} --kind map --keys 20000 --values 1000000"),
    ("1,000 at once", f"{BIG.replace('16 --processes 32', '1000 --processes 2000')} --kind mixed --objects 5 --info 0.01"),
    ("65,536 objects", "objects --maps {maps}"),
    ("the first entry again", "repeated --shape first"),
    ("no entry again", "repeated --shape none"),
    ("a key that is not known", f"{QUEUE} --node"),
    ("keys at random", "keys"),
    ("keys with one beginning", "keys --shape prefix --order falling"),
    ("a key twice", "keys --shape suffix --dup"),
    ("a long comment", "comments --shape long"),
    ("short comments", "comments --shape short"),
    ("too long by comments", "comments --shape lines --bytes 268435457"),
    ("a plain string", "string --shape plain"),
    ("a string of escapes", "string --shape escapes"),
    ("a string of wide characters", "string --shape wide"),
    ("deep vectors", "deep --shape vectors"),
    ("deep maps", "deep --shape maps"),
    ("too deep", "deep --shape over"),
    ("a wide history", "wide --shape history"),
    ("a wide order", "wide --shape order"),
)
ALL = (
    *check("queue", QUEUE), *check("16 mixed objects", MIXED), *check("mutex", MUTEX),
    of_fcbench("judge: queue", QUEUE, "judge {history}"),
    of_fcbench("judge: 16 mixed objects", MIXED, "judge {history}"),
    of_fcbench("verify: 16 mixed objects", MIXED, "verify {history} {evidence}"),
    *(find(kind, calls, at_once) for calls in ("{half}", 4096) for at_once in (2, 16, 1000) for kind in KINDS),
    search("queue, 2 at once", "--kind queue --concurrency 2", True),
    search("stack, 8 at once", "--kind stack --concurrency 8", True),
    search("map, 32 at once", "--kind map --concurrency 32", True),
    of_fcbench("split: 1,000 objects", OBJECTS, "split {history} {fresh}"),
    of_fcbench("merge: 1,000 objects", OBJECTS, "merge {divided}"),
    of_fcbench("run: 4 clients of 10,000 calls", "", "run --clients 4 --calls 10000 --kind queue"),
    of_fcbench("import: queue", QUEUE, "import {history}"),
    of_fcbench("draw: queue, a tenth as many maps", f"{MIDDLE} --kind queue", "draw {history}"),
    *(library("queue", QUEUE, command, 1, 1, True) for command in ("check", "judge")),
    *(library(f"20 operations of a {kind}", f"{SHORT} --kind {kind}", command, LOTS, CALLS, kind == "queue")
      for kind in KINDS for command in ("check", "judge")),
    *(row for name, text in OTHER_TEXTS for row in check(name, text, False)),
    *(search(f"{kind}, {at_once} at once", f"--kind {kind} --concurrency {at_once}") for kind in KINDS for at_once in (2, 8, 32)
      if (kind, at_once) not in (("queue", 2), ("stack", 8), ("map", 32))),
    search("queue, one value twice", "--kind queue --concurrency 4 --calls 200 --unique --break dup"),
    search("register, one value lost", "--kind register --concurrency 8 --break lost"),
    *(desk(kind, threads) for kind in ("queue", "heap", "map") for threads in (1, 2, 4)),
)
