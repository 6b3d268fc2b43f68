"""Histories and certificates whose maps are in a usual order, and the same written otherwise: both ways of reading them give one answer.

A map in one of two orders is read by patterns of bytes, and any other by its tokens; after eight of the others in a row 64 maps are read by
their tokens too. Each history is written in five forms, of which two are usual. In the text of a fault the byte that must be named is
marked."""
import shutil

from ..running import at_once

MARK = "¦"


def usual(pairs):
    return "{" + ", ".join(f"{key} {value}" for key, value in pairs) + "}"


def with_a_note(pairs):
    """A key that has no meaning comes first."""
    return usual([(":note", "[1 {:a 2}]"), *pairs])


def type_first(pairs):
    return usual(sorted(pairs, key=lambda pair: pair[0] != ":type"))


def with_a_node(pairs):
    """The keys in the usual order, and one without a meaning at the end."""
    return usual(pairs + [(":node", "1")])


def index_first(pairs):
    """As Jepsen writes a map."""
    keys = [key.removeprefix(MARK) for key, _ in pairs]
    more = [pair for pair in ((":index", "3"), (":time", "44")) if pair[0] not in keys]
    return usual(more + sorted(pairs, key=lambda pair: pair[0] != ":type"))


def spread(pairs):
    """Comments and lines between all."""
    return "{ " + " ; a comment\n\t, ".join(f"{key}\n {value}" for key, value in pairs) + ";\n}"


FORMS = (usual, index_first, with_a_note, type_first, spread)


def pairs_of(text):
    """The pairs of a map that is written in the usual form."""
    return [tuple(pair.split(" ", 1)) for pair in text.removeprefix("{").removesuffix("}").split(", ")]


def invoke(f, value, more="", process="0"):
    return f"{{:process {process}, :type :invoke, :f :{f}, :value {value}{more}}}"


def ok(f, value, more="", process="0"):
    return f"{{:process {process}, :type :ok, :f :{f}, :value {value}{more}}}"


def calls(*those):
    """Completed calls (function, argument, reply) of one process."""
    return [event for f, of, reply in those for event in (invoke(f, of), ok(f, reply))]


# Histories that are linearizable, and the number of their operations that did not fail.
GOOD = (
    (calls(("enqueue", "1", "1"), ("enqueue", "0", "0"), ("dequeue", "nil", "1"), ("dequeue", "nil", "0"), ("dequeue", "nil", "nil")), 5),
    (calls(("push", "1", "1"), ("push", "2", "2"), ("pop", "nil", "2"), ("pop", "nil", "1"), ("pop", "nil", "nil")), 5),
    (calls(("insert", "5", "5"), ("insert", "2", "2"), ("extract-min", "nil", "2"), ("extract-min", "nil", "5"), ("extract-min", "nil", "nil")), 5),
    (calls(("write", "7", "7"), ("cas", "[7 12]", "[7 12]"), ("cas", "[7 3]", "false"), ("read", "nil", "12")), 4),
    (calls(("put", "[1 10]", "nil"), ("get", "1", "10"), ("del", "1", "10"), ("get", "1", "nil")), 4),
    (calls(("acquire", "nil", "nil"), ("release", "nil", "nil")), 2),
    # One number, however it is written.
    (calls(("write", "-0", "0"), ("read", "nil", "+0"), ("read", "nil", "0")), 3),
    (calls(("write", "+7", "7"), ("read", "nil", "7")), 2),
    (calls(("write", "-1", "-1"), ("read", "nil", "-1")), 2),
    (calls(("write", "99999999999999999", "+99999999999999999"), ("read", "nil", "+99999999999999999")), 2),
    (calls(("write", "999999999999999999", "+999999999999999999"), ("read", "nil", "+999999999999999999")), 2),
    (calls(("write", "1000000000000000009", "+1000000000000000009"), ("read", "nil", "+1000000000000000009")), 2),
    (calls(("write", "9223372036854775807", "+9223372036854775807"), ("read", "nil", "+9223372036854775807")), 2),
    (calls(("write", "-9223372036854775808", "-9223372036854775808"), ("read", "nil", "-9223372036854775808")), 2),
    (calls(("cas", "[0 1]", "false"), ("write", "0", "0"), ("cas", "[+0 1]", "[0 1]"), ("read", "nil", "1")), 4),
    # What follows the value.
    ([invoke("write", "7", ", :object 65535"), ok("write", "7", ", :object 65535, :time 5")], 1),
    ([invoke("write", "7", ", :object 0, :time 0, :index 0"), ok("write", "7", ", :time 17, :index 1")], 1),
    ([invoke("write", "7", ", :index 0, :time 3"), ok("write", "7", ", :index 1, :object 0")], 1),
    ([invoke("write", "7", ', :time nil, :error "at :time"'), ok("write", "7", ", :time [1 2]")], 1),
    ([invoke("write", "7", ", :node 1"), ok("write", "7", ", :node :n1")], 1),
    ([invoke("write", "7", ", :object 3, :time 4, :index 5, :node 0"), ok("write", "7", ", :object 3, :error :timeout")], 1),
    ([invoke("write", "7", ", :node 1, :error nil"), ok("write", "7", ", :processes 2")], 1),
    # A failed and an open operation, and a map of no client.
    (
        [
            invoke("write", "7"),
            "{:process 0, :type :fail, :f :write, :value 7}",
            "{:process :nemesis, :type :info, :f :stop, :value nil}",
            invoke("read", "nil"),
            ok("read", "nil"),
        ],
        1,
    ),
    ([invoke("write", "7"), "{:process 0, :type :info, :f :write, :value nil}", invoke("read", "nil", process="1"), ok("read", "7", process="1")], 2),
    ([invoke("write", "7", process="18446744073709551"), ok("write", "7", process="+18446744073709551")], 1),
)

# Histories that are not linearizable, though each would be if a value, a function or an object were read wrongly.
BAD = (
    calls(("write", "7", "7"), ("read", "nil", "70")),
    calls(("write", "7", "7"), ("cas", "[12 7]", "[12 7]")),
    calls(("write", "7", "7"), ("cas", "[7 12]", "[7 12]"), ("read", "nil", "7")),
    calls(("enqueue", "1", "1"), ("enqueue", "2", "2"), ("dequeue", "nil", "2")),
    calls(("put", "[1 10]", "nil"), ("get", "10", "1")),
    calls(("acquire", "nil", "nil"), ("acquire", "nil", "nil")),
    [invoke("write", "7", ", :object 1"), ok("write", "7", ", :object 1"), invoke("read", "nil", ", :object 2"), ok("read", "7", ", :object 2")],
    [invoke("write", "7"), "{:process 0, :type :fail, :f :write, :value 7}", invoke("read", "nil"), ok("read", "7")],
)

# Faulty maps of a history, of which the last is the one that must be named.
FAULTY = (
    ("H1", [invoke("enqueue", "1", process="-1")]),
    ("H1", [invoke("enqueue", "1", process="nil")]),
    ("H1", [invoke("enqueue", "1", ", :object 65536")]),
    ("H1", [invoke("enqueue", "1", ", :object -1")]),
    ("H1", [invoke("enqueue", "1", ", :object nil")]),
    ("H1", ["{:process 0, :type :invoked, :f :enqueue, :value 1}"]),
    ("H1", ["{:process 0, :type :okay, :f :enqueue, :value 1}"]),
    ("H1", ["{:process 0, :type :in, :f :enqueue, :value 1}"]),
    ("H1", ["{:process 0, :type nil, :f :enqueue, :value 1}"]),
    ("H1", ["{:process 0, :type :invoke, :f nil, :value 1}"]),
    ("H1", ["{:type :invoke, :f :enqueue, :value 1}"]),
    ("H2", [invoke("enqueues", "1")]),
    ("H2", [invoke("enqueu", "1")]),
    ("H2", [invoke("put-all", "[1 2]")]),
    ("H2", [invoke("extract", "nil")]),
    ("H2", [invoke("Enqueue", "1")]),
    ("H3", [invoke("enqueue", "nil")]),
    ("H3", [invoke("enqueue", "[1 2]")]),
    ("H3", [invoke("dequeue", "1")]),
    ("H3", [invoke("cas", "7")]),
    ("H3", [invoke("cas", "[1 2 3]")]),
    ("H3", [invoke("cas", "[1]")]),
    ("H3", [invoke("write", "true")]),
    ("H3", [invoke("write", '"7"')]),
    ("H4", [invoke("enqueue", "1"), invoke("push", "1", process="1")]),
    ("H5", [invoke("enqueue", "1"), invoke("enqueue", "2")]),
    ("H6", [ok("enqueue", "1")]),
    ("H7", [invoke("enqueue", "1"), ok("dequeue", "1")]),
    ("H7", [invoke("enqueue", "1"), ok("enqueue", "1", ", :object 1")]),
    ("H8", [invoke("enqueue", "1"), "{:process 0, :type :info, :f :enqueue, :value 1}", invoke("enqueue", "2")]),
)

# A map that is no EDN of the profile, with a mark before the byte that must be named.
BROKEN = (
    ("E3", invoke("enqueue", f"{MARK}007")),
    ("E3", invoke("enqueue", f"{MARK}00")),
    ("E3", invoke("enqueue", f"{MARK}1x")),
    ("E3", invoke("enqueue", "1", process=f"{MARK}01")),
    ("E3", invoke("cas", f"[1 {MARK}02]")),
    ("E3", invoke("cas", f"[{MARK}01 2]")),
    ("E3", invoke("enqueue", "1", f", :object {MARK}007")),
    ("E3", invoke("enqueue", "1", f", :time {MARK}01")),
    ("E3", invoke("enqueue", "1", f", :time 1, :index {MARK}01")),
    ("E4", invoke("enqueue", f"{MARK}9223372036854775808")),
    ("E4", invoke("enqueue", "1", f", :time {MARK}99999999999999999999")),
    ("E9", invoke("enqueue", f"{MARK}nilly")),
    ("E9", invoke("enqueue", f"{MARK}falsey")),
    ("E9", invoke("enqueue", f"{MARK}1.5")),
    ("E9", invoke("enqueue", f"{MARK}(1)")),
    ("E5", invoke("enqueue", "1", f", {MARK}:value 1")),
    ("E5", invoke("enqueue", "1", f", {MARK}:value 2, :time 3")),
    ("E5", invoke("enqueue", "1", f", {MARK}:process 0")),
    ("E5", invoke("enqueue", "1", f", :object 1, {MARK}:object 1")),
    ("E5", invoke("enqueue", "1", f", :time 1, {MARK}:time 1")),
    ("E5", invoke("enqueue", "1", f", :object 1, :time 1, :index 1, {MARK}:index 1")),
    ("E5", invoke("enqueue", "1", f", :index 1, {MARK}:type :ok")),
    ("E5", invoke("enqueue", "1", f", :time 1, {MARK}:f :enqueue")),
    ("E5", invoke("enqueue", "1", f", :node 1, {MARK}:node 1")),
    ("E3", invoke("enqueue", "1", f", :node {MARK}01")),
    ("E9", invoke("enqueue", "1", f", :node {MARK}x")),
    ("E3", invoke("enqueue", "1") + f"{MARK}}}"),
    ("E3", invoke("enqueue", "1") + f" {MARK}007"),
    ("E9", invoke("enqueue", "1") + f"\n{MARK}x"),
)

# What comes before: this many maps of another process, in this form.
BEFORE = ((0, usual), (4, usual), (12, with_a_note), (80, type_first))


def earlier(number, form):
    """Complete calls of process 9 on object 9."""
    more = ", :object 9, :time 1"
    maps = [(invoke, ok)[place % 2]("insert", str(place // 2), more, "9") for place in range(number)]
    return "".join(f"{form(pairs_of(map_text))}\n" for map_text in maps)


def rewritten(text, form):
    """A map in this form. What follows its brace stays as it is."""
    inside, brace, after = text.partition("}")
    return form(pairs_of(inside)) + after


def histories(maps):
    """The maps in each form, after each of what may come before, and how many come before."""
    texts = ["".join(f"{rewritten(map_text, form)}\n" for map_text in maps) for form in FORMS]
    return [(earlier(number, before) + text, number) for text in texts for number, before in BEFORE]


def judged(program, texts):
    def judge(number):
        return program.run("judge", program.write(f"straight.{number}.edn", texts[number]))

    return at_once(judge, range(len(texts)))


def good_histories(program, report):
    """judge says yes to histories that are linearizable, in each form."""
    rows = [(text, count + number // 2) for maps, count in GOOD for text, number in histories(maps)]
    for (text, count), ran in zip(rows, judged(program, [text for text, _ in rows])):
        report.equal(f"judge: {text[-200:]!r}", (0, f"yes: {count} operations".encode(), b""), (ran.status, ran.out.partition(b",")[0], ran.err))


def bad_histories(program, report):
    """judge says no to histories that are not linearizable, in each form."""
    texts = [text for maps in BAD for text, _ in histories(maps)]
    for text, ran in zip(texts, judged(program, texts)):
        report.equal(f"judge: {text[-200:]!r}", (1, b""), (ran.status, ran.err), ran.out)


def faulty_histories(program, report):
    """judge names the fault of a history, by its code and the number of its map, in each form."""
    rows = [(text, f"{fault} at map {number + len(maps) - 1}") for fault, maps in FAULTY for text, number in histories(maps)]
    for (text, fault), ran in zip(rows, judged(program, [text for text, _ in rows])):
        report.answers(f"judge: {text[-200:]!r}", ran, f"malformed history: {fault}\n", 2)


def broken_texts(program, report):
    """judge names the spelling fault of a text, by its code and its byte, in each form."""
    rows = []
    for fault, broken in BROKEN:
        for text, _ in histories([broken]):
            before, _, after = text.partition(MARK)
            rows.append((before + after, f"{fault} at byte {len(before)}"))
    for (text, fault), ran in zip(rows, judged(program, [text for text, _ in rows])):
        report.answers(f"judge: {text[-200:]!r}", ran, f"malformed history: {fault}\n", 2)


# Certificates of three writes of object 3, at maps 0, 2 and 4, and of one of object 65535, at map 6.
WRITES = "".join(f"{event}\n" for n in range(3) for event in (invoke("write", n, ", :object 3"), ok("write", n, ", :object 3")))
WRITES += "".join(f"{event('write', 7, ', :object 65535')}\n" for event in (invoke, ok))

# Orders of object 3, and what the check says of them.
ORDERS = (
    ("[0 2 4]", "yes"),
    ("[ 0 2 4]", "yes"),
    ("[0 2 4 ]", "yes"),
    ("[0  2\n4]", "yes"),
    ("[0, 2, 4]", "yes"),
    ("[+0 2 +4]", "yes"),
    ("[0 2 ;]\n4]", "yes"),
    ("[2 0 4]", "no"),
    ("[0 2]", "no"),
    ("[]", "no"),
    ("[0 2 4 0]", "no"),
    ("[0 2 -4]", "no"),
    ("[0 24]", "no"),
    ("[0 2 9223372036854775807]", "no"),
    ("[0 2 4 nil]", "K1"),
    ("[0 2 [4]]", "K1"),
    ('[0 2 "4"]', "K1"),
    ("{:a 0}", "K1"),
    ("0", "K1"),
    (f"[0 2 {MARK}04]", "E3"),
    (f"[{MARK}00 2 4]", "E3"),
    (f"[0 2 {MARK}4x]", "E3"),
    (f"[0 2 {MARK}9223372036854775808]", "E4"),
    (f"[0 2 {MARK}x]", "E9"),
    (f"[0 2 4], {MARK}:order [0]", "E5"),
    (f"[0 2 4], {MARK}:object 3", "E5"),
)


def order_first(pairs):
    return usual(pairs[1:] + pairs[:1])


def certificates():
    """Certificates in each form, each with how the answer begins: the rows above, and rows of other objects."""
    for form in (usual, order_first, with_a_note, spread):
        other = form([(":object", "65535"), (":order", "[6]")])
        for order, answer in ORDERS:
            own = form([(":object", "3"), (":order", order)])
            for number, text in ((1, f"{other}\n{own}\n"), (0, f"{own}\n{other}")):
                before, _, after = text.partition(MARK)
                if answer[0] == "E":
                    answers = f"malformed certificates: {answer} at byte {len(before)}\n"
                elif answer[0] == "K":
                    answers = f"malformed certificates: {answer} at form {number}\n"
                else:
                    answers = answer
                if answer != "E5" or form is not order_first:
                    yield before + after, answers
        for name, answer in (
            ("65536", "K1 at form 1"),
            ("-1", "K1 at form 1"),
            ("nil", "K1 at form 1"),
            ("65535", "K2 at form 1"),
            ("+65535", "K2 at form 1"),
        ):
            own = form([(":object", name), (":order", "[0 2 4]")])
            yield f"{other}\n{own}\n", f"malformed certificates: {answer}\n"


def orders_in_each_form(program, report):
    """check gives the same answer with a certificate in each form, and the same place of a fault."""
    history = program.write("straight.writes.edn", WRITES)
    rows = list(certificates())
    ran = at_once(lambda n: program.run("check", history, program.write(f"straight.order.{n}.edn", rows[n][0])), range(len(rows)))
    statuses = {"y": 0, "n": 1, "m": 2}
    for (text, answer), answered in zip(rows, ran):
        begins = answered.out.startswith(answer.encode())
        report.holds(f"check: {text!r}", begins and answered.status == statuses[answer[0]] and not answered.err, answered)


# The most instructions of a check on maps in a usual order, as a part of those on the same maps with a space after the brace.
MOST_OF_THE_OTHERS = 0.75


def usual_histories():
    """Of each kind of object, and in each usual order: a history of some 500 maps, and its certificate."""
    for maps, _ in GOOD[:6]:
        maps = maps * (500 // len(maps))
        order = " ".join(str(number) for number in range(0, len(maps), 2))
        for form in (usual, index_first, with_a_node):
            yield "".join(f"{form(pairs_of(map_text))}\n" for map_text in maps), f"{{:object 0, :order [{order}]}}\n"


def long_orders():
    """A short history, with certificates whose orders are long: places that are named again and again, and as written by `find`."""
    history = "".join(f"{usual(pairs_of(map_text))}\n" for map_text in GOOD[0][0])
    for entry in ("0", "12345", "999999999"):
        yield history, f"{{:object 0, :order [{' '.join([entry] * 20_000)}]}}\n"


def costs_less(program, report, pairs):
    """Whether a check of the first texts of a pair takes at most 0.75 times the instructions that it takes for the second ones, where a space is
    after each brace of one text."""
    if not shutil.which("valgrind"):
        return "valgrind is missing"
    rows = [texts for pair in pairs for texts in pair]

    def cost(number, history, certificates):
        files = [program.write(f"{name}.{number}.edn", text) for name, text in (("usual", history), ("order", certificates))]
        return program.instructions("check", *files)

    costs = at_once(lambda number: cost(number, *rows[number]), range(len(rows)))
    for (history, order), straight, by_tokens in zip(rows[::2], costs[::2], costs[1::2]):
        report.holds(f"check: {history[:100]!r} {order[:40]!r}", straight <= MOST_OF_THE_OTHERS * by_tokens, (straight, by_tokens))
    return f"{max(straight / by_tokens for straight, by_tokens in zip(costs[::2], costs[1::2])):.2f} at most"


def cost_of_usual_maps(program, report):
    """A check of maps in a usual order, also with an unknown key at the end, costs less than one of maps with a space after each brace."""
    pairs = [((history, order), (history.replace("{", "{ "), order)) for history, order in usual_histories()]
    return costs_less(program, report, pairs)


def cost_of_usual_orders(program, report):
    """A check with a certificate in the usual form costs less than with one in another form."""
    pairs = [((history, order), (history, order.replace("{", "{ "))) for history, order in long_orders()]
    return costs_less(program, report, pairs)


PARTS = (cost_of_usual_maps, cost_of_usual_orders, good_histories, bad_histories, faulty_histories, broken_texts, orders_in_each_form)
