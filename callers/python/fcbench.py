"""The judge of fcbench, by ctypes over libfcbench.so. Copy this file.

    answer = fcbench.judge(history)
    assert answer.is_yes(), answer.lines

A text is bytes or a str. The library is the file that FCBENCH_SO names, or libfcbench.so where the loader or callers/build has it."""
import ctypes
import enum
import os
import re
import typing

# As many steps as the program takes if it is given none: 1,000,000; of a judgement 100 for each operation of the object if that is more.
STEPS = 2**32 - 1
CAPACITY = 512
HERE = os.path.dirname(os.path.abspath(__file__))
PLACES = (f"{HERE}/../../crates/embedding/out/libfcbench.so", f"{HERE}/../../lib/libfcbench.so")


class Verdict(enum.IntEnum):
    """YES: the history is linearizable, which is proved. NO of judge, refute and verify: it is not, which is proved; of check: the
    certificates are refused. UNDECIDED: an object stays open, or an allocation failed."""

    YES = 0
    NO = 1
    MALFORMED = 2
    UNDECIDED = 3


class Answer(typing.NamedTuple):
    """A verdict, and the lines that say why."""

    verdict: Verdict
    lines: str

    def is_yes(self):
        return self.verdict is Verdict.YES

    def is_no(self):
        return self.verdict is Verdict.NO

    def reasons(self):
        """The reasons among the lines, as refute reads them: of each line that begins with `; {` what follows the `; `."""
        return "".join(line[2:] for line in self.lines.splitlines(keepends=True) if line.startswith("; {"))


def _library():
    named = os.environ.get("FCBENCH_SO")
    there = [named] if named else [place for place in PLACES if os.path.exists(place)] or ["libfcbench.so"]
    try:
        library = ctypes.CDLL(there[0])
    except OSError as error:
        raise ImportError(f"{error}: run callers/build, or set FCBENCH_SO to the file libfcbench.so") from None
    text = [ctypes.c_char_p, ctypes.c_size_t]
    room = [ctypes.c_char_p, ctypes.c_size_t, ctypes.POINTER(ctypes.c_size_t)]
    steps = [ctypes.c_uint32]
    takes = {"check": text + text, "judge": text + steps, "find": text, "refute": text + text + steps, "verify": text + text + steps}
    for name, words in takes.items():
        function = getattr(library, f"fcbench_{name}")
        function.argtypes, function.restype = words + room, ctypes.c_uint32
    return library


_C = _library()

# What the first line of an answer with a verdict may begin with; "": there may be no line.
_VERIFIED = {
    Verdict.YES: ["yes: "],
    Verdict.NO: ["; object "],
    Verdict.MALFORMED: ["malformed history: "],
    Verdict.UNDECIDED: ["; object ", "malformed evidence: ", "out of memory\n"],
}
_BEGINNINGS = {
    "judge": _VERIFIED,
    "verify": _VERIFIED,
    "check": {
        Verdict.YES: ["yes: "],
        Verdict.NO: ["no: "],
        Verdict.MALFORMED: ["malformed history: ", "malformed certificates: "],
        Verdict.UNDECIDED: ["out of memory\n"],
    },
    "refute": {
        Verdict.NO: ["not linearizable: object ", "object "],
        Verdict.MALFORMED: ["malformed history: ", "malformed reasons: "],
        Verdict.UNDECIDED: ["object ", "out of memory\n", ""],
    },
    "find": {
        Verdict.YES: ["{:object ", ""],
        Verdict.MALFORMED: ["malformed history: "],
        Verdict.UNDECIDED: ["{:object ", "; object ", ""],
    },
}
# A line that only a NO has; of find, one that no YES has.
_OF_A_NO = {
    "judge": re.compile(rb"^; object \d+: impossible$", re.M),
    "verify": re.compile(rb"^; object \d+: impossible$", re.M),
    "check": re.compile(rb"^no: ", re.M),
    "refute": re.compile(rb"^not linearizable: object ", re.M),
    "find": re.compile(rb"^(?!.*, :order ).+$", re.M),
}


# All lines of a YES that is of no find.
_OF_A_YES = re.compile(rb"yes: \d+ operations, \d+ objects\n(\w+: \d+ objects, \d+ operations\n)*")


class NoAnswer(Exception):
    """Status and lines are of no answer: the library is not libfcbench, or not as it was built."""


def _verdict(name, status, lines, needed):
    """The verdict of a status, if the lines fit it, as far as there was room for them: by the table of docs/commands.md."""
    beginnings = _BEGINNINGS[name].get(status, [])
    begins = any(needed >= len(it) and lines.startswith(it.encode()[: len(lines)]) and bool(it or not needed) for it in beginnings)
    is_whole, is_ended = len(lines) == needed, lines[-1:] in (b"", b"\n")
    has_no = bool(_OF_A_NO[name].search(lines))
    if name == "find":
        says_so = status != Verdict.YES or not has_no
    else:
        says_so = has_no == (status == Verdict.NO) and (status != Verdict.YES or bool(_OF_A_YES.fullmatch(lines)))
    if not begins or is_whole and not (is_ended and says_so):
        raise NoAnswer(f"fcbench_{name}: the status {status} and these lines are of no answer: {lines[:200]!r}")
    return Verdict(status)


def _bytes(text):
    if not isinstance(text, (str, bytes, bytearray, memoryview)):
        raise TypeError(f"a text is a str or bytes, and not {type(text).__name__}")
    return text.encode() if isinstance(text, str) else bytes(text)


def _limit(steps):
    """A number of steps, which C takes as 32 bits without a sign."""
    if isinstance(steps, bool) or not isinstance(steps, int) or not 0 <= steps <= STEPS:
        raise ValueError(f"steps are a number from 0 to {STEPS}, and not {steps!r}")
    return steps


def _into(name, words, capacity):
    """The verdict, the lines as far as there is room for them, and how long they are."""
    out, needed = ctypes.create_string_buffer(capacity), ctypes.c_size_t()
    status = getattr(_C, f"fcbench_{name}")(*words, out, capacity, ctypes.byref(needed))
    lines = out.raw[: min(needed.value, capacity)]
    return _verdict(name, status, lines, needed.value), lines, needed.value


def _whole(name, *words):
    """Calls with more room until all lines fit."""
    capacity = CAPACITY
    while True:
        verdict, lines, needed = _into(name, words, capacity)
        if needed <= capacity:
            return Answer(verdict, lines.decode())
        capacity = needed


def judge_into(history, steps, capacity):
    """The verdict, the lines as far as there is room for them, and how long they are."""
    text = _bytes(history)
    return _into("judge", (text, len(text), _limit(steps)), capacity)


def judge(history, steps=STEPS):
    """Judges a history: certificates are found, or a reason why there are none. The last search takes at most this many steps for each object."""
    text = _bytes(history)
    return _whole("judge", text, len(text), _limit(steps))


def check(history, certificates):
    """Judges a history by certificates."""
    text, orders = _bytes(history), _bytes(certificates)
    return _whole("check", text, len(text), orders, len(orders))


def find(history):
    """Finds certificates: if it is a yes, the lines are their text."""
    text = _bytes(history)
    return _whole("find", text, len(text))


def refute(history, reasons, steps=STEPS):
    """Checks reasons why a history is not linearizable. It never answers YES. The search of a part takes at most this many steps."""
    text, why = _bytes(history), _bytes(reasons)
    return _whole("refute", text, len(text), why, len(why), _limit(steps))


def verify(history, evidence, steps=STEPS):
    """Checks evidence from any source, and judges a history by what it shows. A search for which it names no number of steps takes at most
    this many."""
    text, claims = _bytes(history), _bytes(evidence)
    return _whole("verify", text, len(text), claims, len(claims), _limit(steps))
