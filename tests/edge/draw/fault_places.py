"""Texts with one fault at a place that is known, and whether a page marks it and says what it is, by code that shares nothing with
the program."""
import random
import re
from dataclasses import dataclass

from .. import histories, text_writers
from ..histories import ALL_FUNCTIONS, REPLY_ARGUMENT, REPLY_WHETHER, WITHOUT_ARGUMENT, calls_of
from .pages import found, spelled
from .sentences import grouped, label_of, why_bars_false

# How many bytes of a line are shown before and after the mark, of the mark, and of another line.
BESIDE, MARKED, LINE = 80, 160, 160
# How many lines are shown before and after.
LINES = 2
# The most maps of a history.
MOST_MAPS = 1_000_000
OF_NEMESIS = "{:process :n}"
# How many characters of a token are quoted.
TOKEN = 40
# A reply that each function may have, where that is not nil.
REPLIES = dict.fromkeys((*REPLY_ARGUMENT, "fetch-add", "get-count"), 1) | {"cas": (1, 2)} | dict.fromkeys(REPLY_WHETHER, True)


@dataclass(frozen=True)
class Faulty:
    """A text with a fault: its code, the byte, map or form that is named, the bytes that are marked, and what must be said. Where an
    earlier place is marked too, its bytes and its caption."""

    code: str
    text: bytes
    named: int
    marked: tuple
    said: tuple
    earlier: tuple = ()
    is_certificates: bool = False
    # A word in place of what is marked, where nothing is there.
    missing: str = "here"

    def line(self):
        """What judge or check says."""
        what = {"E": "byte", "H": "map", "K": "form"}[self.code[0]]
        word = "certificates" if self.is_certificates else "history"
        return f"malformed {word}: {self.code} at {what} {self.named}"

    def caption(self):
        """The caption of the piece of the text with the fault."""
        if self.code == "E2":
            word = "string" if self.text[slice(*self.marked)] == b'"' else "map"
            return f"Where the {word} was opened"
        return re.sub(r"byte (\d+)", lambda match: f"byte {grouped(int(match[1]))}", self.line().partition(": ")[2])


class Pieces:
    """Forms with what is between them, as one text, and where each begins and ends."""

    def __init__(self, rng, forms):
        self.text, self.places = b"", []
        for form in forms:
            between = ("\n", "\n", "\n", " ", "\n; a comment, with \"quotes\" and <marks>\n", "\n\n\t", f"\n;{' long' * 50}\n")
            self.text += rng.choice(between).encode() if self.text else b""
            start = len(self.text)
            self.text += form if isinstance(form, bytes) else form.encode()
            self.places.append((start, len(self.text)))
        self.text += rng.choice((b"", b"\n", b"\n\n"))


# ---- faults of maps


def outstanding(calls, at):
    """The calls that are outstanding before a map."""
    return [call for call in calls.values() if call.number < at and (call.at is None or call.at >= at)]


def idle(calls, at):
    """A process that has nothing outstanding before a map, and that no :info closed."""
    busy = {call.process for call in calls.values() if call.number < at and (call.at is None or call.at >= at or call.end == "info")}
    free = sorted({call.process for call in calls.values() if call.number < at} - busy)
    return int(free[0]) if free else 990


def other_function(rng, kind, f):
    return rng.choice([function for function in ALL_FUNCTIONS[kind] if function != f])


def argument_of(f):
    """An argument that a function may have."""
    count = histories.ARGUMENTS.get(f)
    return None if f in WITHOUT_ARGUMENT else tuple(range(1, count + 1)) if count else 1


def word_of(kind):
    """The word for an object of a kind, which may be one of all functions."""
    return kind.split()[0]


def before_of(maps, at):
    """The calls in the maps before one, in which none of the later maps completes an operation."""
    return calls_of(text_writers.lines(*maps[:at]))[0]


def whole(rng, code, maps, at, faulty, said, earlier=()):
    """The text with the faulty map in place of another or, where that is a later one, before it."""
    pieces = Pieces(rng, [*maps[:at], faulty, *maps[at:]])
    if earlier:
        number, caption = earlier
        earlier = (pieces.places[number], f"{caption}{number}")
    return Faulty(code, pieces.text, at, pieces.places[at], (f"The text can be read, but it is no history. Event {at}{said}",), earlier)


def no_operation(rng, made):
    at = rng.randrange(len(made.maps) + 1)
    f = ALL_FUNCTIONS[made.kind][0]
    faulty = rng.choice(
        (
            f"{{:type :invoke, :f :{f}}}",
            f"{{:process -1, :type :invoke, :f :{f}}}",
            f"{{:process 0, :type :begins, :f :{f}}}",
            f"{{:process 0, :type :invoke, :f \"{f}\"}}",
            f"{{:process 0, :type :invoke, :f :{f}, :object 65536}}",
            "[1 2 3]",
        )
    )
    sentence = " is no operation: its :process, :type, :f or :object is missing or not of the right kind."
    return whole(rng, "H1", made.maps, at, faulty, sentence)


def unknown_function(rng, made):
    at = rng.randrange(len(made.maps) + 1)
    faulty = text_writers.invoke(991, rng.choice(("peek", "size", "x" * 50)), 1)
    return whole(rng, "H2", made.maps, at, faulty, " names a function that is none of the twenty-seven.")


def wrong_value(rng, made):
    at = rng.randrange(len(made.maps) + 1)
    faulty = f"{{:process 991, :type :invoke, :f :{rng.choice(ALL_FUNCTIONS[made.kind])}, :value [1 2 3 4], :note \"{'a <note> ' * 40}\"}}"
    return whole(rng, "H3", made.maps, at, faulty, " does not fit its :f: it must be what that takes, or returns.")


def of_value(fault):
    """The value of a map is what is faulty, and the sentence begins otherwise."""
    said = tuple(sentence.replace("no history. Event ", "no history. The :value of event ") for sentence in fault.said)
    return Faulty(fault.code, fault.text, fault.named, fault.marked, said, fault.earlier)


def other_kind(rng, made):
    at = rng.randrange(1, len(made.maps) + 1)
    kind = rng.choice([other for other in ALL_FUNCTIONS if word_of(other) != word_of(made.kind)])
    f = ALL_FUNCTIONS[kind][0]
    faulty = text_writers.invoke(991, f, argument_of(f), 0)
    first = before_of(made.maps, at)[0]
    sentence = f" calls a function of another kind on an object that ⟨0|{label_of(first)}⟩ made a {word_of(made.kind)}."
    return whole(rng, "H4", made.maps, at, faulty, sentence, (0, "The object’s first event, "))


def busy(rng, made):
    calls, _ = calls_of(made.text())
    places = [at for at in range(1, len(made.maps) + 1) if outstanding(calls, at)]
    at = rng.choice(places)
    call = rng.choice(outstanding(before_of(made.maps, at), at))
    f = rng.choice(ALL_FUNCTIONS[made.kind])
    faulty = text_writers.invoke(call.process, f, argument_of(f), 0)
    sentence = f" invokes an operation of process {call.process}, and ⟨{call.number}|{label_of(call)}⟩ of that process is still outstanding."
    return whole(rng, "H5", made.maps, at, faulty, sentence, (call.number, "The operation that is outstanding, event "))


def stray(rng, made):
    at = rng.randrange(len(made.maps) + 1)
    process = idle(before_of(made.maps, at), at)
    f = rng.choice(ALL_FUNCTIONS[made.kind])
    faulty = text_writers.ok(process, f, REPLIES.get(f), 0)
    return whole(rng, "H6", made.maps, at, faulty, f" completes an operation of process {process}, which has none outstanding.")


def mismatch(rng, made):
    calls, _ = calls_of(made.text())
    at = rng.choice([at for at in range(1, len(made.maps) + 1) if outstanding(calls, at)])
    call = rng.choice(outstanding(before_of(made.maps, at), at))
    f = other_function(rng, made.kind, call.f)
    faulty = text_writers.ok(call.process, f, REPLIES.get(f), 0)
    sentence = (
        f" completes an operation of process {call.process}, but with another :f or :object than ⟨{call.number}|{label_of(call)}⟩, "
        "which is outstanding."
    )
    return whole(rng, "H7", made.maps, at, faulty, sentence, (call.number, "What the process invoked, event "))


def after_info(rng, made):
    maps = list(made.maps)
    f = ALL_FUNCTIONS[made.kind][0]
    begun = rng.randrange(len(maps) + 1)
    maps[begun:begun] = [text_writers.invoke(992, f, argument_of(f), 0), text_writers.info(992, f, argument_of(f), 0)]
    at = rng.randrange(begun + 2, len(maps) + 1)
    call = before_of(maps, at)[begun]
    g = rng.choice(ALL_FUNCTIONS[made.kind])
    faulty = text_writers.invoke(992, g, argument_of(g), 0)
    sentence = (
        f" is of process 992, which the :info at event {call.at} closed: ⟨{call.number}|{label_of(call)}⟩ may have happened or not, so what "
        "it does next must be of another process."
    )
    return whole(rng, "H8", maps, at, faulty, sentence, (call.at, "The :info that closed the process, event "))


# ---- faults of the text


def in_map(rng, made, before, token, after, goes_on=True):
    """A text in which a map has a token before and after which this is; and the byte of the token. It may be in several lines."""
    at = rng.randrange(len(made.maps))
    between = rng.choice((" ", "\n"))
    note = rng.choice(("", f":note \"{'n' * 100}\"{between}", ":note \"あ\tb\" "))
    head = f"{{{note}{before}".replace(" :", f"{between}:").encode()
    pieces = Pieces(rng, [*made.maps[:at], head + token + after.encode(), *(made.maps[at:] if goes_on else ())])
    start = pieces.places[at][0]
    return pieces.text, start, start + len(head)


def quoted(token):
    """The token as a sentence quotes it."""
    text = token.decode()
    return f"“{text}”" if len(text) <= TOKEN else f"“{text[: TOKEN - 1]}…”"


def at_token(code, text, at, token, said):
    return Faulty(code, text, at, (at, at + len(token)), (f"The history can’t be read. At byte {grouped(at)} {said}",))


def around(fault, start, at):
    """With where the map around the fault was opened, if that is in an earlier line."""
    if fault.text[start:at].count(b"\n") == 0:
        return fault
    line = fault.text[:start].count(b"\n") + 1
    said = f"The map around it was opened at byte {grouped(start)}, in line {line}. Was it meant to be closed?"
    return Faulty(fault.code, fault.text, fault.named, fault.marked, (*fault.said, said), ((start, start + 1), "Where the map around it was opened"))


def not_utf8(rng, made):
    text, _, at = in_map(rng, made, ':process 0, :note "a', rng.choice((b"\xff", b"\xc3", b"\x80")), 'b"}')
    sentence = f"The history can’t be read. The text is not UTF-8: no whole character begins at byte {grouped(at)}."
    return Faulty("E1", text, at, (at, at + 1), (sentence,))


def cut(rng, made):
    is_string = rng.random() < 0.5
    text, start, at = in_map(rng, made, ':process 0 :type', b' "ab' if is_string else b" :invoke", "", False)
    text = text[: at + (4 if is_string else 8)]
    opened, start = ("string", at + 1) if is_string else ("map", start)
    line = text[:start].count(b"\n") + 1
    sentence = (
        f"The history can’t be read. The text ends inside a {opened}, at byte {grouped(len(text))}. It was opened at byte {grouped(start)}, "
        f"in line {line}."
    )
    end = ((len(text), len(text)), "Where the text ends")
    return Faulty("E2", text, len(text), (start, start + 1), (sentence,), end, missing="end of the text")


def bad_token(rng, made):
    token = rng.choice((b"007", b"1a", b"]", b"::x", b"-01", b":1", b"0" * 60))
    text, _, at = in_map(rng, made, ":process 0 :value ", token, " :f :x}")
    sentence = f"stands {quoted(token)}, which is no keyword, integer or escape, and closes no bracket that is open."
    return at_token("E3", text, at, token, sentence)


def out_of_range(rng, made):
    token = str(rng.choice((1, -1)) * rng.randrange(1 << 63, 1 << rng.choice((64, 200))) - 1).encode()
    token = token if abs(int(token)) > 1 << 63 else b"9223372036854775808"
    text, _, at = in_map(rng, made, ":process 0 :value ", token, "}")
    return at_token("E4", text, at, token, f"stands {quoted(token)}, an integer outside of 64 bits.")


def key_twice(rng, made):
    text, start, at = in_map(rng, made, ":process 0 :f :x ", b":process", " 1}")
    return around(at_token("E5", text, at, b":process", "the key “:process” stands a second time in the same map."), start, at)


def odd_map(rng, made):
    text, start, at = in_map(rng, made, ":process 0 :value ", b"}", "")
    return around(at_token("E6", text, at, b"}", "a map is closed after a key without a value."), start, at)


def no_keyword(rng, made):
    token = rng.choice((b"5", b'"process"', b"nil", b"[]"))
    text, start, at = in_map(rng, made, ":process 0 ", token, " 6}")
    # Of a string or a vector its beginning is marked.
    token = token[:1] if token[:1] in (b"[", b'"') else token
    return around(at_token("E7", text, at, token, "stands a key that is no keyword."), start, at)


def too_deep(rng, made):
    text, _, at = in_map(rng, made, ":process 0 :value " + "[" * 15, b"[", "]" * 16 + "}")
    return at_token("E8", text, at, b"[", "a 17th bracket is opened; at most 16 may be open at once.")


def not_in_profile(rng, made):
    token = rng.choice((b"1.5", b"foo", b"#", b"(", b"1N", b"true?" * 12))
    text, _, at = in_map(rng, made, ":process 0 :value ", token, "{}}" if token == b"#" else " 1}")
    return at_token("E9", text, at, token, f"stands {quoted(token)}, which is not in this project’s profile of EDN.")


# ---- faults of certificates


def forms_of(rng, made):
    return [text_writers.certificate(0, *made.order), *[text_writers.certificate(number) for number in range(1, rng.choice((1, 2, 5)))]]


def of_forms(rng, code, forms, at, faulty, said, earlier=None):
    pieces = Pieces(rng, [*forms[:at], faulty, *forms[at:]])
    said = f"The text can be read, but these are no certificates. Form {at}{said}"
    earlier = () if earlier is None else (pieces.places[earlier], f"The first one for object {earlier}, form {earlier}")
    return Faulty(code, pieces.text, at, pieces.places[at], (said,), earlier, True)


def no_certificate(rng, made):
    forms = forms_of(rng, made)
    at = rng.randrange(len(forms) + 1)
    faulty = rng.choice(("[0 1]", "{:object 9}", "{:object 9, :order 1}", "{:object 65536, :order []}", "{:order []}", "7"))
    sentence = " is no certificate: a map with :object and :order, a vector of integers."
    return of_forms(rng, "K1", forms, at, faulty, sentence)


def certificate_twice(rng, made):
    forms = forms_of(rng, made)
    at = rng.randrange(1, len(forms) + 1)
    first = rng.randrange(at)
    return of_forms(rng, "K2", forms, at, text_writers.certificate(first, 1, 2), " is a second certificate for the same object.", first)


SORTS = (
    no_operation,
    unknown_function,
    lambda rng, made: of_value(wrong_value(rng, made)),
    other_kind,
    busy,
    stray,
    mismatch,
    after_info,
    not_utf8,
    cut,
    bad_token,
    out_of_range,
    key_twice,
    odd_map,
    no_keyword,
    too_deep,
    not_in_profile,
    no_certificate,
    certificate_twice,
)


def faulty_texts(of_each):
    """Texts of each sort, each with a history that its certificates are of."""
    for sort, make in enumerate(SORTS):
        for seed in range(of_each):
            rng = random.Random(f"marked {sort} {seed}")
            kind = rng.choice(tuple(ALL_FUNCTIONS))
            made = histories.made(kind, f"marked {sort} {seed}", calls=rng.choice((2, 5, 12, 40)), processes=rng.choice((2, 3, 5)))
            yield made, make(rng, made)


def longest_texts():
    """Texts of a million maps, most of which are of a nemesis, and another map."""
    for kind in ("queue", "register"):
        rng = random.Random(f"too many {kind}")
        made = histories.made(kind, "too many", calls=12)
        beside = [OF_NEMESIS] * (MOST_MAPS - len(made.maps))
        faulty = rng.choice((OF_NEMESIS, text_writers.invoke(991, ALL_FUNCTIONS[kind][0], 1)))
        text = text_writers.lines(*made.maps, *beside, faulty).encode()
        end = len(text) - 1
        sentence = f"The text can be read, but it is no history. Event {MOST_MAPS} is one too many: a history has at most 1,000,000."
        yield made, Faulty("H9", text, MOST_MAPS, (end - len(faulty), end), (sentence,))


# ---- what is on the page


def visible(text):
    """Bytes as a page shows them."""
    shown, at = "", 0
    while at < len(text):
        for length in range(1, 5):
            try:
                character = text[at : at + length].decode()
            except UnicodeDecodeError:
                continue
            break
        else:
            character = None
        hidden = character is None or re.fullmatch("[\0-\x08\x0a-\x1f\x7f-\x9f\u200e\u200f\u202a-\u202e\u2066-\u2069]", character)
        shown += f"\\x{text[at]:02x}" if hidden else "→" if character == "\t" else character
        at += 1 if hidden else length
    return shown


def is_cut_of(shown, text, most):
    """Whether this is the text, or as much of its beginning as is shown of it, up to a character more, and a sign that there is more."""
    if len(text) <= most:
        return shown == visible(text)
    return shown.endswith("…") and any(shown[:-1] == visible(text[:number]) for number in range(most, most + 4))


class Row:
    """A row of an excerpt: the number of its line, and what it shows: before the mark, the mark, and after it."""

    def __init__(self, row):
        self.number, cell = int(row.find("th").text), row.find("td")
        mark = cell.find("mark")
        self.before = cell.text or ""
        self.mark = None if mark is None else mark.text or ""
        self.is_missing = mark is not None and mark.get("class") == "end"
        self.after = "" if mark is None else mark.tail or ""


def marked_text(text, most):
    """What is marked of a text: of a long one the beginning, and a sign that there is more."""
    return visible(text) if len(text) <= most else visible(text[:most]) + "…"


def why_mark_wrong(row, text, marked, missing):
    """What is wrong with the line that is marked, or None."""
    start, end = marked
    first = text.rfind(b"\n", 0, start) + 1
    last = text.find(b"\n", start)
    last = len(text) if last < 0 else last
    end = min(end, last)
    if row.number != text[:first].count(b"\n") + 1:
        return f"line {row.number} is marked"
    if start >= end:
        if not row.is_missing or row.mark != missing:
            return f"{row.mark} is marked where nothing is"
    elif row.is_missing or row.mark not in [marked_text(text[start:end], MARKED + more) for more in range(4)]:
        return f"{row.mark} is marked"
    shown = min(end, start + MARKED)
    before = text[first:start]
    if len(before) <= BESIDE:
        is_before = row.before == visible(before)
    else:
        is_before = row.before.startswith("…") and row.before[1:] in [visible(before[-BESIDE + number :]) for number in range(4)]
    if not is_before:
        return f"{row.before} is before the mark"
    if shown < end:
        return f"{row.after} is after a mark that is cut" if row.after else None
    return None if is_cut_of(row.after, text[max(shown, start) : last], BESIDE) else f"{row.after} is after the mark"


def why_excerpt_wrong(figure, text, marked, caption, missing):
    """What is wrong with a piece of the text on a page, or None."""
    printed = spelled(figure.find("figcaption"))
    if printed != caption:
        return f"the caption is {printed}"
    rows = [(row.get("class") == "at", Row(row)) for row in figure.iter("tr")]
    places = [place for place, (is_marked, _) in enumerate(rows) if is_marked]
    if len(places) != 1:
        return f"{len(places)} lines are marked"
    wrong = why_mark_wrong(rows[places[0]][1], text, marked, missing)
    if wrong:
        return wrong
    lines, number = text.split(b"\n"), rows[places[0]][1].number
    # After the last line feed there is no line, except where the mark is there.
    count = max(number, len(lines) - (1 if lines[-1] == b"" else 0))
    wanted = list(range(max(1, number - LINES), min(count, number + LINES) + 1))
    if [row.number for _, row in rows] != wanted:
        return f"lines {[row.number for _, row in rows]} are there, and not {wanted}"
    others = [row for is_marked, row in rows if not is_marked]
    wrong = [row.number for row in others if not is_cut_of(row.before, lines[row.number - 1], LINE)]
    return f"lines {wrong} are other ones" if wrong else None


def why_history_wrong(page, faulty):
    """What is wrong with the history before a faulty map, or None."""
    figure = page.by_id("figm")
    if figure is None:
        return None if faulty.code[0] != "H" else "the history before the map is missing"
    crosses = [cross.find("title").text for cross in found(figure, "g", "cross")]
    # A map without a process has no lane.
    has_process = re.search(rb":process \d", faulty.text[slice(*faulty.marked)])
    if crosses != ([f"event {faulty.named}: {faulty.code}"] if has_process else []):
        return f"crosses {crosses}"
    caption = f"The maps before it are well formed.{' The cross is the faulty map.' if crosses else ''}"
    if spelled(figure.find("figcaption")) != caption:
        return f"the caption is {spelled(figure.find('figcaption'))}"
    # Maps of a nemesis are no calls, and where there are many of them they are the last ones.
    return why_bars_false(figure, calls_of(faulty.text[: faulty.marked[0]].decode().replace(f"{OF_NEMESIS}\n", ""))[0])


def why_page_wrong(page, faulty):
    """What is wrong with the page of a faulty text, or None."""
    if (page.answer, page.lines) != ("malformed", faulty.line()):
        return f"{page.lines}, and not {faulty.line()}"
    if tuple(page.said) != faulty.said:
        return f"it says {page.said}, and not {faulty.said}"
    figures = found(page.by_id("text"), "figure", "text")
    wanted = [(faulty.marked, faulty.caption(), "here")] + ([(*faulty.earlier, faulty.missing)] if faulty.earlier else [])
    if len(figures) != len(wanted):
        return f"{len(figures)} pieces of the text are there"
    for figure, (marked, caption, missing) in zip(figures, wanted):
        wrong = why_excerpt_wrong(figure, faulty.text, marked, caption, missing)
        if wrong:
            return wrong
    return why_history_wrong(page, faulty)
