"""Checks what is on a page beside its sentences: tables, points, boxes, captions and notes, by code that shares nothing with the
program."""
import itertools
import re
from functools import cached_property

from ..histories import HOLDS, KIND_OF, REPLY_ARGUMENT, REPLY_WHETHER, TOKENS, Call, calls_of
from .pages import REF, classes, found, spelled
from ..verify.reasons import IMPOSSIBLE, TOLD, maps_of, value_of
from .sentences import FEW_NAMED, FORMS, Said, Walked, grouped, key_of, label_of, number_in, why_bars_false
from ..text_writers import value

# The most events of an object that is drawn whole.
WHOLE = 160
# How many events of a larger object are drawn where nothing in it is the focus.
FIRST = 160
# The most events of an object that are drawn.
MOST = 400
# The events before and after each of the focus, where the pairs before are too many.
AROUND = ((20, 10), (10, 5), (5, 2), (2, 1), (1, 0), (0, 0))
# The most events between two that are drawn which are drawn too, and not left out.
HOLE = 7
# The most processes that have a lane.
LANES = 24
# The most rows of the table of tried orders.
TRIED = 24
# The most operations of a part whose orders are tried.
MOST_TRIED = 64
# The most steps that are taken to try them.
STEPS = 2000
# The most operations of a reason that are drawn alone.
MOST_ALONE = 200
# Of a reason with this many operations all orders are tried.
FEW_ORDERED = 8
# The fewest characters of a label of which the middle is left out.
SHORTEST_CUT = 6
# An object that contains no more has a box for each.
FEW = 10
LEFT = {"queue": ", first at the left", "stack": ", bottom at the left", "heap": ", least at the left"}


# Why an entry is refused, by the groups of the sentence.
BECAUSE = {
    "c3": lambda groups: "no operation",
    "c4": lambda groups: f"stands already as entry {groups[4]}",
    "c5": lambda groups: f"returned at event {groups[6]}, before #{groups[7]} was invoked",
    "c6": lambda groups: f"gives {groups[4]}, returned {groups[7]}",
    "c9": lambda groups: "not possible",
    "past_end": lambda groups: "not possible",
}


def said_of(call):
    return f"⟨{call.number}|{label_of(call)}⟩"


class Shown:
    """A page with its history, the orders that it was checked by or found by, what judge told, and the stretch that was asked for."""

    def __init__(self, page, history, orders, told, stretch=(None, None)):
        self.history = history
        self.page, self.orders, self.told, self.stretch = page, orders, told, stretch
        self.walked = {}
        self.calls, self.maps = calls_of(history)
        self.process_at = {at: call.process for call in self.calls.values() for at in (call.number, call.at) if at is not None}
        self.nemeses = [number for number, event in enumerate(maps_of(history)) if event["process"].startswith(":")]

    def on(self, x):
        return [call for call in self.calls.values() if call.on == x]

    def kind(self, x):
        return KIND_OF[self.on(x)[0].f]

    @cached_property
    def figures(self):
        """The whole figures, by their objects."""
        those = [figure for figure in self.page.body.iter("figure") if re.fullmatch(r"fig\d+", figure.get("id", ""))]
        return [(int(figure.get("id")[3:]), figure) for figure in those]

    def refused(self, x):
        """The rank of the entry that is refused, or None."""
        ranks = [int(cells[0]) for name, cells in self.page.rows(f"t{x}") if name == "bad"]
        return ranks[0] if ranks else None

    def contents(self, x):
        """What the object contains before the order and after each entry, up to the one that is refused."""
        if x not in self.walked:
            self.walked[x] = list(self.walk(x))
        return self.walked[x]

    def walk(self, x):
        walk = Walked(self.kind(x))
        yield walk.text()
        for number in self.orders[x][: (self.refused(x) or len(self.orders[x]) + 1) - 1]:
            walk.take(self.calls[number])
            yield walk.text()

    @cached_property
    def reason(self):
        return reason_of(self.told, self.figures[0][0])

    @cached_property
    def focus(self):
        """The operations that the sentences name, or those of the reason."""
        named = {int(number) for sentence in self.page.said for number, _ in re.findall(REF, sentence)}
        if self.page.answer == "impossible":
            return set(self.reason[0]) | named
        return named if self.page.answer in ("no", "open") else set()


def reason_of(told, x=None):
    """The operations of the first reason that judge tells, or of the first of an object, as the part has them, by their
    numbers, the one from which on it is a part, which is one of them, and the value that stands for others. An
    operation that only begins the part is None."""
    calls, is_first, since, other = {}, False, None, None
    for line in told.splitlines():
        named = IMPOSSIBLE.fullmatch(line)
        if named and is_first:
            break
        is_first |= bool(named) and x in (None, int(named[1]))
        if not is_first:
            continue
        match = TOLD.fullmatch(line.removeprefix("; "))
        if match:
            f, argument, reply = (match[7], match[8], match[9]) if match[7] else (match[4], match[5], match[6])
            number, at = int(match[1]), int(match[2]) if match[2] else None
            calls[number] = Call(number, match[3], 0, f, value_of(argument), at, "open" if at is None else "ok", value_of(reply))
        elif "{:object" in line:
            starts, others = re.findall(r"\{:from (\d+)\}", line), re.findall(r":other (-?\d+)", line)
            since, other = int(starts[-1]) if starts else None, int(others[-1]) if others else None
    if since is not None:
        calls.setdefault(since, None)
    return calls, since, other


# ---- the order


def because_of(page):
    """Why an entry is refused, in a few words, by what the sentences say."""
    for form, words in BECAUSE.items():
        told = [match for match in (re.fullmatch(FORMS[form], sentence) for sentence in page.said) if match]
        if told:
            return words(told[0])
    return None


def why_rows_false(shown, x):
    """What is false of the table of an order that is known, or None."""
    order, contents, refused, rank = shown.orders[x], shown.contents(x), shown.refused(x), 0
    because = because_of(shown.page)
    rows = shown.page.rows(f"t{x}")
    for name, cells in rows:
        if name == "skip":
            skipped = re.fullmatch(r"([\d ]+) entr(y|ies) not shown", cells[0])
            rank += number_in(skipped[1])
            if (skipped[1] == "1") != (skipped[2] == "y"):
                return f"the row {cells}"
            continue
        rank += 1
        call = shown.calls.get(order[rank - 1])
        own = said_of(call) if call and call.on == x else f"`{order[rank - 1]}`"
        wanted = "not looked at" if refused and rank > refused else because if rank == refused else f"`{contents[rank]}`"
        if [int(cells[0]), *cells[1:]] != [rank, own, wanted]:
            return f"the row {cells} of entry {rank}, {own}, {wanted}"
        if name != ("bad" if rank == refused else "after" if refused and rank > refused else ""):
            return f"the row of entry {rank} is {name}"
    return None if not rows or rank == len(order) else f"{rank} of {len(order)} entries"


def why_points_false(shown, x, figure):
    """What is false of the points of an order that is known, or None."""
    points = found(figure, "a", "pt")
    if points and x not in shown.orders:
        return None if shown.page.answer == "open" else "there are points without an order"
    contents, because = shown.contents(x) if points else [], because_of(shown.page)
    for point in points:
        rank, call, is_bad = int(point.get("data-rank")), shown.calls[int(point.get("data-op"))], "bad" in classes(point)
        title = "".join(point.find("title").itertext())
        if shown.orders[x][rank - 1] != call.number or is_bad != (rank == shown.refused(x)):
            return f"the point {rank}"
        text = f"{rank}: {label_of(call)}\n" + ("" if is_bad else f"event {call.number}, process {call.process}\n")
        content = f"{because}\ncontent before: {contents[rank - 1]}" if is_bad else f"content after: {contents[rank]}"
        if title != text + content:
            return f"the point {rank} says {title}"
    return None


def why_labels_false(figure):
    """A bar whose label is neither that of its operation, nor its beginning and its end, as far as these can be read, or None."""
    for bar in found(figure, "g", "op"):
        text, label = bar.find("a/text"), "".join(bar.find("title").itertext()).partition("\n")[0]
        head, dots, tail = ("", "", "") if text is None else text.text.partition("…")
        is_cut = dots and tail and SHORTEST_CUT <= len(text.text) <= len(label) and label.startswith(head) and label.endswith(tail)
        if text is not None and text.text != label and not is_cut:
            return f"the label {text.text} of {label}"
    return None


def why_marks_collide(figure):
    """A refused point on the bar of another operation, or a line that joins points above the bars, or points that are
    not neighbours, or an arrow that breaks another one or the bar at which it begins, or None."""
    for line in found(figure, "svg", "sys"):
        # In the order in which they are drawn.
        parts = [name for element in line.iter() for name in classes(element)]
        last = lambda name: len(parts) - parts[::-1].index(name)
        if "thread" in parts and "op" in parts[: last("thread")]:
            return "the thread runs over a bar"
        if "halo" in parts and "line" in parts[: last("halo")]:
            return "the halo of an arrow breaks another arrow"
        for halo in found(line, "path", "halo"):
            x, y = map(int, re.match(r"M(\d+) (\d+)", halo.get("d")).groups())
            if any(left <= x <= right and top <= y < low for _, left, right, top, low in bars_of(line)):
                return "the halo of an arrow notches the bar at which it begins"
        points = found(line, "a", "pt")
        ranks = [int(point.get("data-rank")) for point in points]
        joined = "".join(re.findall("[ML]", found(line, "path", "thread")[0].get("d"))) if found(line, "path", "thread") else ""
        if joined[1:] != "".join("L" if b == a + 1 else "M" for a, b in zip(ranks, ranks[1:])) and joined:
            return f"the thread joins {ranks} as {joined}"
        for point in points:
            text = point.find("text")
            x, y = int(text.get("x")), int(text.get("y")) - 3
            for operation, left, right, top, low in bars_of(line):
                if left <= x <= right and top <= y < low and operation != point.get("data-op"):
                    return f"the point {point.get('data-rank')} is on the bar of operation {operation}"
    return None


def bars_of(line):
    """The bars of a line: each operation, and where its bar is: left, right, top and bottom."""
    for bar in found(line, "g", "op"):
        x, y, width, height = (int(next(bar.iter("rect")).get(attribute)) for attribute in ("x", "y", "width", "height"))
        yield bar.get("data-op"), x, x + width, y, y + height


# ---- what the object contains


def boxes_of(figure):
    """The boxes of a figure: what each is, its text, and what is under it."""
    boxes = []
    for box in found(figure, "g", "box"):
        text, *under = ("".join(own.itertext()) for own in box.iter("text"))
        boxes.append((" ".join(classes(box)[1:]), text, tuple(under)))
    return boxes


def boxes_of_list(walk, call, boxes):
    """The boxes of a list that are right, of which as many are left out as it says."""
    items, wanted, place = walk.items, [], 0
    gives = None if call.f in REPLY_ARGUMENT or not items else len(items) - 1 if walk.kind == "stack" else 0
    others = [at for at in range(len(items)) if at != gives and items[at][0] == call.reply and call.reply is not None]
    returned = others[0] if others else None
    for name, text, _ in boxes:
        if name == "skip":
            place += number_in(text.removeprefix("… "))
            wanted.append((name, text, ()))
        elif place < len(items):
            number, by = items[place]
            own = {gives: ("gives", ("gives",)), returned: ("returned", ("returned",))}.get(place, ("", ()))
            wanted.append((own[0], str(number), (*own[1], f"put by #{by}")))
            place += 1
    if not items:
        wanted.append(("gives", "empty", ("gives nil",)) if call.f not in REPLY_ARGUMENT else ("", "empty", ()))
    if returned is None:
        wanted.append(("absent", value(call.reply), ("returned",) if call.reply is None else ("returned,", "not in it")))
    # Those that are told of are there.
    is_whole = place == len(items) and (len(items) > FEW or not any(box[0] == "skip" for box in boxes))
    return wanted if is_whole else [*wanted, "all of it"]


def boxes_wanted(walk, call, boxes):
    kind, returned = walk.kind, ("absent", value(call.reply), ("returned",))
    if kind in ("queue", "stack", "heap"):
        return boxes_of_list(walk, call, boxes)
    if kind in TOKENS:
        return [("gives", walk.text(), () if walk.holder is None else (f"put by #{walk.holder}",))]
    if kind in ("map", "set"):
        return [*boxes_of_entries(walk, call), returned]
    found_item = walk.found(call)
    own = ("gives", walk.text(), ("contains", *([f"put by #{found_item[1]}"] if found_item else [])))
    return [own, returned] if walk.is_possible(call) else [own]


def boxes_of_entries(walk, call):
    """The boxes of the keys of a map, or of the elements of a set; of many that of the call alone."""
    key, own = key_of(call), walk.entry_of(call)
    text = lambda item: f"{item[0]} {item[1]}" if walk.kind == "map" else str(item)
    entries = [("gives" if item is own else "", text(item[0]), item) for item in walk.items if item is own or len(walk.items) <= FEW]
    found_before = [(name, words, (f"put by #{item[1]}",)) for name, words, item in entries]
    given = walk.take(call)
    gives = "gives nil" if given is None else f"gives {value(given)}" if isinstance(given, bool) else "gives"
    boxes = [(name, words, (gives, *under) if name else under) for name, words, under in found_before]
    return boxes if own else [*boxes, ("gives", f"{key} {'nothing' if walk.kind == 'map' else 'not in it'}", (gives,))]


def why_boxes_false(shown):
    """What is false of the boxes of a page, or None."""
    figure = shown.page.by_id("content")
    if figure is None:
        return None
    x = int(re.sub(r"\D", "", shown.figures[0][1].get("id")))
    rank = shown.refused(x)
    call, walk = shown.calls[shown.orders[x][rank - 1]], Walked(shown.kind(x))
    for number in shown.orders[x][: rank - 1]:
        walk.take(shown.calls[number])
    caption, boxes = spelled(figure.find("figcaption")), boxes_of(figure)
    if caption != f"The {walk.kind} before entry {rank}{LEFT.get(walk.kind, '')}":
        return f"the caption of the boxes is {caption}"
    wanted = boxes_wanted(walk, call, boxes)
    return None if boxes == wanted else f"the boxes are {boxes}, and not {wanted}"


# ---- a reason


def tries_of(calls, other, recorded):
    """Each way to begin that breaks: what was placed, the content there, the next call, and which it is; and whether these are all."""
    part = list(calls)
    kind = KIND_OF[part[0].f] if part else None
    ways, reached, rows, steps = [], set(), [], 0

    def ways_after(before):
        left = [operation for operation in part if operation not in before]
        ends = [operation.at for operation in left if operation.returned() is not None]
        return [(before, operation) for operation in left if not any(end < operation.number for end in ends)]

    ways = ways_after(())[::-1] if len(part) <= MOST_TRIED else []
    while ways and steps < STEPS:
        steps += 1
        before, call = ways.pop()
        walk = Walked(kind)
        for placed in before:
            walk.take(placed)
        text = "other" if kind == "register" and walk.items and walk.items[0][0] == other else walk.text()
        old = walk.state()
        if not walk.is_possible(call):
            rows.append((before, text, call, "is not possible"))
            continue
        there, own, given = walk.items[0][0] if walk.items else None, recorded[call.number], walk.take(call)
        if call.end == "ok" and given != call.reply:
            # One that the part counts as a cas was given what is there, or replies whether it was done.
            given = given if not call.f == "cas" != own.f else False if own.f in REPLY_WHETHER else there
            is_other = other is not None and given is not False and given == other
            rows.append((before, text, call, f"gives {'other' if is_other else value(given)}, returned {value(own.reply)}"))
            continue
        new = walk.state()
        state = frozenset(placed.number for placed in (*before, call)), repr(new)
        if state in reached or call.end == "open" and old == new:
            continue
        reached.add(state)
        ways += ways_after((*before, call))[::-1]
    return rows, not ways and len(part) <= MOST_TRIED


def leaves_nothing(call):
    """Whether the object is empty, or free, after a call, by its reply."""
    removes = call.f in ("del", "dissoc", "clear", "remove", *HOLDS.values())
    finds_nothing = call.f in ("dequeue", "pop", "extract-min", "read", "get") and call.reply is None
    return removes or call.f == "contains" and call.reply is False or finds_nothing


def prior_content(shown, since):
    """The rows for the contents of a mutex or a lock before a part with which the operation that begins the part is not possible."""
    if since is None or shown.kind(shown.calls[since].on) not in TOKENS:
        return []
    first = shown.calls[since]
    contents = ("held",) if first.f in HOLDS else ("free",) if first.f == "release" else ("free", "held by another")
    return [((), content, first, "is not possible") for content in contents]


def why_tried_false(shown):
    """What is false of the table of the orders of a reason, or None."""
    calls, since, other = shown.reason
    begins = [shown.calls[since]] if since is not None and calls[since] is None and leaves_nothing(shown.calls[since]) else []
    tries, is_all = tries_of([call for call in calls.values() if call], other, shown.calls)
    if not tries:
        return None if shown.page.by_id("tried") is None else "there is a table of no orders"
    tries = [*prior_content(shown, since), *(((*begins, *before), *more) for before, *more in tries)]
    rows = shown.page.rows("tried")
    name = lambda call: said_of(shown.calls[call.number])
    wanted = [
        ("", [str(place), ", ".join(name(placed) for placed in before), f"`{text}`", name(call), which])
        for place, (before, text, call, which) in enumerate(tries[:TRIED], 1)
    ]
    more = len(tries) - len(wanted)
    if rows != wanted + ([("skip", [f"{grouped(more)} more"])] if more else []):
        return f"the tried orders are {rows}, and not {wanted}"
    one = "There is one way to begin, up to equal content, and up to the operation that does not fit"
    several = f"{'Both' if len(tries) == 2 else f'All {len(tries)}'} ways to begin, up to equal content, each up to the operation that does not fit"
    caption = f"Every order breaks. {one if len(tries) == 1 else several}" if is_all else "Ways to begin"
    caption += ". “other” is any value that the reason does not keep" if other is not None else ""
    printed = spelled(shown.page.by_id("tried").find("caption"))
    return None if printed == caption else f"the caption of the tried orders is {printed}, and not {caption}"


def drawn_alone(shown, numbers):
    """Those of the operations of a reason that its figure has: the first ones, and of the processes that begin first."""
    few = [shown.calls[number] for number in sorted(numbers)[:MOST_ALONE]]
    begins = {}
    for call in few:
        begins.setdefault(call.process, call.number)
    lanes = sorted(begins, key=begins.get)[:LANES]
    return [call.number for call in few if call.process in lanes]


def outside_note(calls):
    """The sentence for the operations that are not wholly within a reason."""
    if not calls:
        return []
    more = len(calls) - FEW_NAMED
    words, named = "they may" if len(calls) > 1 else "it may", ", ".join(said_of(call) for call in calls[:FEW_NAMED])
    ending = f", and {grouped(more)} more" if more > 0 else ""
    return [f"Not wholly within this stretch, so {words} have taken effect outside of it: {named}{ending}."]


def why_reason_false(shown):
    """What is false of the figure of a reason, or None."""
    zoom, (calls, since, _) = shown.page.by_id("zoom"), shown.reason
    # The operations that the sentence names are drawn too.
    alone = drawn_alone(shown, set(calls) | shown.focus)
    if shown.page.bars("zoom") != alone:
        return f"the reason has {alone}, and the figure {shown.page.bars('zoom')}"
    x = shown.calls[min(calls)].on
    count, live = len(calls), sum(call.is_live() for call in shown.on(x))
    caption = f"{grouped(count)} operation{'' if count == 1 else 's'} of {grouped(live)}"
    caption += ": it has no place in any order" if count == 1 else ": these alone have no valid order"
    caption += f", whatever the {shown.kind(x)} contained before event {since}." if since is not None else "."
    if len(alone) < count:
        caption += f" Drawn: {grouped(len(alone))} of them."
    more = len(alone) - count
    if more > 0:
        caption += f" Drawn with {grouped(more)} other operation{'' if more == 1 else 's'} that the sentence names."
    if found(zoom, "g", "before"):
        caption += " Arrows: returned before the other was invoked, so it stands before it."
    if spelled(zoom.find("figcaption")) != caption:
        return f"the caption is {spelled(zoom.find('figcaption'))}, and not {caption}"
    if len(calls) <= FEW_ORDERED and not Said(shown.history, {}).general(sorted(calls), since, None, None):
        return f"the operations {sorted(calls)} have a valid order"
    outside = [shown.calls[n] for n, call in sorted(calls.items()) if call and call.end == "open" and shown.calls[n].end == "ok"]
    if since is not None and calls[since] is not None and calls[since].end == "open":
        return "the operation that begins the part is pending"
    if any("the table says where" in sentence for sentence in shown.page.said) and not shown.page.rows("tried"):
        return "the table of tried orders is empty"
    wanted = outside_note(outside)
    notes = [spelled(note) for note in found(zoom, "p", "note")]
    return None if notes == wanted else f"the notes are {notes}, and not {wanted}"


# ---- the window


def chosen(numbers, focus, stretch):
    """Which of an object's events are drawn, by the numbers of their maps."""
    since, until = stretch
    if since is not None or until is not None:
        return [number for number in numbers if (since or 0) <= number and (until is None or number < until)][:MOST]
    if len(numbers) <= WHOLE:
        return list(numbers)
    if not focus:
        return list(numbers)[:FIRST]
    places = [numbers.index(spot) for spot in focus]
    for before, after in AROUND:
        drawn = sorted({number for at in places for number in range(max(0, at - before), min(len(numbers), at + after + 1))})
        if len(drawn) <= MOST:
            break
    for one, other in zip(list(drawn), drawn[1:]):
        if other - one - 1 <= HOLE:
            drawn += range(one + 1, other)
    return [numbers[place] for place in sorted(set(drawn))[:MOST]]


def starts_of(numbers, drawn):
    """The numbers at which a stretch of drawn events begins."""
    is_drawn = [number in drawn for number in numbers]
    return [number for number, was, is_now in zip(numbers, [False, *is_drawn], is_drawn) if is_now and not was]


class View:
    """What a figure of an object shows, and what of the window it leaves out."""

    def __init__(self, shown, x, figure, stretch=None):
        self.calls, focus = shown.on(x), shown.focus
        events = sorted([call.number for call in self.calls] + [call.at for call in self.calls if call.at is not None] + shown.nemeses)
        spots = [number for call in self.calls if call.number in focus for number in (call.number, call.at) if number is not None]
        drawn = set(chosen(events, spots, stretch or shown.stretch))
        self.bars = {int(bar.get("data-op")) for bar in found(figure, "g", "op")}
        self.lanes = {shown.calls[bar].process for bar in self.bars}
        inside = [call for call in self.calls if call.number in drawn or call.at in drawn]
        # Those without a lane.
        self.gone = [call for call in inside if call.process not in self.lanes]
        self.inside = {call.number for call in inside} - {call.number for call in self.gone}
        own = {None, *self.lanes}
        self.kept = events
        self.drawn = [event for event in events if event in drawn and (not self.gone or shown.process_at.get(event) in own)]
        starts = starts_of(self.kept, set(self.drawn))
        ends = lambda call: float("inf") if call.end in ("open", "info") else call.at
        others = [call for call in self.calls if call.number not in drawn and call.at not in drawn]
        self.through = {other.number for other in others if any(other.number < at < ends(other) for at in starts)}

    def note(self):
        """The sentence for what is left out."""
        words, hidden = "", len(self.through - self.bars)
        if self.gone:
            processes = len({call.process for call in self.gone})
            words += f"Not drawn: {grouped(len(self.gone))} operation{'' if len(self.gone) == 1 else 's'} of {grouped(processes)} other "
            words += f"process{'' if processes == 1 else 'es'} in the same stretch. "
        if len(self.bars) < len(self.calls):
            words += f"Drawn: {grouped(len(self.bars))} of {grouped(len(self.calls))} operations of the object. "
            words += "Gaps say how many maps are left out. `--from A --to B` draws another stretch."
        if hidden:
            words += f" Not drawn: {grouped(hidden)} operation{' that is' if hidden == 1 else 's that are'} open all through. "
        return [words] if words else []

    def gaps(self, maps):
        """The maps that are left out before, between and after the drawn events, where some of them are events of the object."""
        places = {number: place for place, number in enumerate(self.kept)}
        ends = [(-1, -1)] + [(places[number], number) for number in self.drawn] + [(len(self.kept), maps)]
        return [range(earlier + 1, later) for (one, earlier), (other, later) in zip(ends, ends[1:]) if other - one > 1]

    def words_of(self, gap):
        """The words for a gap: its maps, and the operations that were invoked there and have no bar."""
        count = sum(call.number in gap and call.number not in self.bars for call in self.calls)
        maps = f"{grouped(len(gap))} map{'' if len(gap) == 1 else 's'}"
        return f"{maps} left out, with {grouped(count)} operation{'' if count == 1 else 's'}"


def why_bars_touch(figure):
    """Two bars of a lane that look like one, or None."""
    for line in found(figure, "svg", "sys"):
        spans = sorted((top, left, right) for _, left, right, top, _ in bars_of(line))
        for (lane, _, end), (other, begin, _) in zip(spans, spans[1:]):
            if lane == other and begin <= end:
                return f"two bars of a lane touch at {begin}"
    return None


def why_view_false(shown, x, figure, stretch=None):
    """What is false of what a figure leaves out, and says that it does, or None."""
    view = View(shown, x, figure, stretch)
    if not view.inside <= view.bars <= view.inside | view.through or len(view.lanes) > LANES:
        return f"there are bars of {sorted(view.bars)}, and not {sorted(view.inside)}"
    notes = [spelled(note) for note in found(figure, "p", "note")]
    if notes != view.note():
        return f"the notes are {notes}, and not {view.note()}"
    titles = ["".join(gap.find("title").itertext()) for gap in found(figure, "g", "gap")]
    texts = ["".join(gap.find("text").itertext()).removeprefix("⋯ ") for gap in found(figure, "g", "gap")]
    gaps = view.gaps(shown.maps) if view.drawn else []
    wanted = [view.words_of(gap) for gap in gaps]
    if titles != wanted or texts != [grouped(len(gap)) for gap in gaps]:
        return f"the gaps are {titles}, {texts}, and not {wanted}"
    # No operation is left out without a gap that counts it.
    _, left_out = shown_counts(figure)
    if len(view.bars) + left_out == len(view.calls) or not view.drawn:
        return None
    return f"{len(view.bars)} operations are drawn, {left_out} are in gaps"


# ---- other stretches


def shown_counts(figure):
    """How many operations have bars in a figure, and how many its gaps count."""
    titles = ["".join(gap.find("title").itertext()) for gap in found(figure, "g", "gap")]
    bars = {bar.get("data-op") for bar in found(figure, "g", "op")}
    return len(bars), sum(number_in(re.search(r"with ([\d ]+) op", title)[1]) for title in titles)


def stretches_of(page, x):
    """The other stretches of an object: the maps from one on and before one, and the figure."""
    for details in found(page.body, "details", "stretch"):
        if details.get("id").startswith(f"s{x}-"):
            since, until = re.fullmatch(r"Maps (\d+) to (\d+)", details.find("summary").text).groups()
            yield (int(since), int(until) + 1), details.find("figure")


def why_stretches_false(shown, x, figure):
    """What is false of the other stretches of an object, or None."""
    drawn = {int(bar.get("data-op")) for bar in found(figure, "g", "op")}
    for stretch, own in stretches_of(shown.page, x):
        wrong = why_view_false(shown, x, own, stretch) or why_points_false(shown, x, own)
        if wrong:
            return f"the stretch {stretch}: {wrong}"
        inside = {number for number in View(shown, x, own, stretch).inside if any(since <= number for since in stretch[:1])}
        if inside & drawn:
            return f"the stretch {stretch} has operations that are drawn before"
        drawn |= inside
    return None


# ---- the strip


# How many columns a strip has at most, and how wide one is.
COLUMNS, COLUMN = 480, 2


def at_once(calls, maps):
    """How many calls run at most at one time. One that is pending runs until its :info."""
    live = [call for call in calls if call.is_live()]
    ends = [maps if call.at is None else call.at + 1 for call in live]
    changes = sorted([*((call.number, 1) for call in live), *((end, -1) for end in ends)])
    return max(itertools.accumulate((change for _, change in changes), initial=0))


def why_strip_false(shown, x, figure):
    """What is false of the strip of an object, or None."""
    view, strips = View(shown, x, figure), [strip for strip in found(shown.page.body, "figure", "strip")]
    is_wanted = len(view.drawn) > 0 and len(view.inside) < len(view.calls)
    if len(shown.figures) > 1:
        return None
    if len(strips) != is_wanted:
        return f"there are {len(strips)} strips"
    if not strips:
        return None
    caption, maps = spelled(strips[0].find("figcaption")), shown.maps
    wanted = f"The whole history, {grouped(maps)} maps, by how many operations of the object run at once, at most {at_once(view.calls, maps)}."
    if not caption.startswith(wanted):
        return f"the caption of the strip is {caption}, and not {wanted}"
    column = lambda number: number * min(COLUMNS, maps) // maps
    frames = [(int(frame.get("x")) // COLUMN, int(frame.get("width")) // COLUMN) for frame in found(strips[0], "rect", "shown")]
    framed = {place for start, width in frames for place in range(start, start + width)}
    if not {column(number) for number in view.drawn} <= framed:
        return "what is drawn is not framed in the strip"
    links = [(link.get("href"), int(link.find("rect").get("x")) // COLUMN) for link in found(strips[0], "a")]
    if links != [(f"#s{x}-{place}", column(stretch[0])) for place, (stretch, _) in enumerate(stretches_of(shown.page, x), 1)]:
        return f"the strip leads to {links}"
    spots = {number for call in view.calls if call.number in shown.focus for number in (call.number, call.at) if number is not None}
    marks = [int(start) // COLUMN for path in found(strips[0], "path", "marked") for start in re.findall(r"M(\d+) ", path.get("d"))]
    return None if marks == sorted({column(spot) for spot in spots}) else f"the strip has marks at {marks}"


# ---- captions


BARS = "Bars run from invocation to return."
ORDER = " The numbered points are the order: each lies on its bar, and ranks rise from left to right."
LONGEST = " The numbered points are the longest order that was found for this page."
UP_TO = " The numbered points are the order, up to its fault."
OUTLINED = "In its surroundings: the operations of the reason are outlined, the others are dimmed."


def why_caption_false(shown, number, x, figure):
    """What is false of the caption of the figure of an object, which is this many after the first one, or None."""
    caption, points = spelled(figure.find("figcaption")), found(figure, "a", "pt")
    focus, bars = shown.focus, [(int(bar.get("data-op")), classes(bar)) for bar in found(figure, "g", "op")]
    if any(("focus" in those) != (number in focus) for number, those in bars):
        return f"other operations than {sorted(focus)} are outlined"
    if caption == OUTLINED:
        is_so = shown.page.answer == "impossible" and all("dim" in those for bar, those in bars if bar not in focus)
    elif caption == "In its surroundings.":
        is_so = shown.page.by_id("zoom") is not None
    elif caption == "As above.":
        is_so = number > 0
    elif caption == BARS + ORDER:
        is_so = bool(points) and shown.page.answer not in ("no", "open")
    elif caption == BARS + LONGEST:
        is_so = bool(points) and shown.page.answer == "open"
    elif caption == BARS + UP_TO:
        is_so = bool(points) and shown.page.answer == "no"
    else:
        is_so = caption == BARS and not points
    return None if is_so else f"the caption of object {x} is {caption}"


def why_zoom_false(shown):
    """What is false of the figure of the operations that a sentence names, or None."""
    zoom = shown.page.by_id("zoom")
    if zoom is None:
        return None
    if shown.page.answer == "impossible":
        return why_reason_false(shown)
    if spelled(zoom.find("figcaption")) != "Only the operations that the sentence speaks of.":
        return "the caption of the figure of the fault"
    return None if set(shown.page.bars("zoom")) == shown.focus else f"the figure has {shown.page.bars('zoom')}, and not {shown.focus}"


# ---- the legend


def is_of_token(bar):
    """Whether a bar is of an operation by which an object is held or set free, as its title says."""
    return "".join(bar.find("title").itertext()).split()[0] in (*HOLDS, *HOLDS.values())


def signs_of(page):
    """What the figures of a page show, each as the legend names it."""
    lines = [line for line in page.body.iter("svg") if "sys" in classes(line)]
    bars = [bar for line in lines for bar in found(line, "g", "op")]
    has = lambda name: any(name in classes(bar) for bar in bars)
    shining = [(classes(bar), is_of_token(bar)) for bar in bars if "dim" not in classes(bar)]
    shines = lambda name, of_token=False: any(name in those and of_token == is_so for those, is_so in shining)
    is_open = lambda bar: "pending" not in classes(bar) and not bar.find(".//path[@class='edge']").get("d").endswith("Z")
    points = [point for line in lines for point in found(line, "a", "pt")]
    among = lambda name: any(found(line, "g", name) for line in lines)
    return {
        " puts in or sets": shines("put"),
        " takes out": shines("take"),
        " acquires": shines("put", of_token=True),
        " releases": shines("take", of_token=True),
        " reads": shines("read"),
        " compares and sets": shines("swap"),
        " pending: open at the right, it may have happened or not": has("pending"),
        " failed: it did not happen": has("failed"),
        " open at an end: it goes on outside of this line": any(is_open(bar) for bar in bars),
        " what the sentence above speaks of": has("focus"),
        " its rank in the order": bool(points),
        " the entry that is refused": any("bad" in classes(point) for point in points),
        " returned before the other was invoked": among("before"),
        " a map of the nemesis": among("nem"),
        " what the nemesis began, until it ended that": among("band"),
        " maps that are left out": among("gap"),
    }


def why_legend_false(page):
    """What is false of the legend of a page, or None: it explains what is there, and nothing else."""
    told = [item.find("svg").tail for legend in found(page.body, "details", "legend") for item in legend.iter("li")]
    wanted = [name for name, is_there in signs_of(page).items() if is_there]
    return None if told == wanted else f"the legend has {told}, and not {wanted}"


# ---- all of it


def first_of(wrongs):
    """The first of these that is not None, or None."""
    return next((wrong for wrong in wrongs if wrong), None)


def all_figures(page):
    """The figures with lines: those of objects and of their other stretches, and that of a fault or a reason."""
    return [figure for figure in page.body.iter("figure") if figure.find("div/svg[@class='sys']") is not None]


def of_each(check):
    """A check of each figure."""
    return lambda shown: first_of(check(figure) for figure in all_figures(shown.page))


def of_objects(check):
    """A check of the whole figure of each object."""
    return lambda shown: first_of(check(shown, x, figure) for x, figure in shown.figures)


# What is checked on a page beside its sentences, each by its name.
CHECKS = {
    "legend": lambda shown: why_legend_false(shown.page),
    "bars": lambda shown: first_of(why_bars_false(figure, shown.calls) for figure in all_figures(shown.page)),
    "labels": of_each(why_labels_false),
    "marks": of_each(why_marks_collide),
    "touching": of_each(why_bars_touch),
    "named": why_zoom_false,
    "tried": lambda shown: why_tried_false(shown) if shown.page.by_id("why") is not None else None,
    "boxes": why_boxes_false,
    "view": of_objects(why_view_false),
    "stretches": of_objects(why_stretches_false),
    "strip": of_objects(why_strip_false),
    "captions": lambda shown: first_of(why_caption_false(shown, number, x, figure) for number, (x, figure) in enumerate(shown.figures)),
    "points": of_objects(why_points_false),
    "rows": lambda shown: first_of(why_rows_false(shown, x) for x, _ in shown.figures if x in shown.orders),
}
