"""What judge says beside its answer: of a malformed history the event, its key, the value, and what is expected; and what is suspicious in a history.

The malformed histories are those that testers of stores wrote, one after another, before they read how a history is written."""
import os
import subprocess

from .. import worked_rows

# What an event has beside its process and type, and the sentence for it.
OF_EVENTS = (
    (":f :write, :value \"abc\"", ":value \"abc\": :write takes an integer"),
    (":f :write, :value :a", ":value :a: :write takes an integer"),
    (":f :write, :value true", ":value true: :write takes an integer"),
    (":f :read, :value [1 nil]", ":value [1 nil]: :read takes nil"),
    (":f :write, :value [1 2]", ":value [1 2]: :write takes an integer"),
    (":f :cas, :value [nil 5]", ":value [nil 5]: :cas takes a pair of integers, [old new]"),
    (":f :write, :value nil", ":value nil: :write takes an integer"),
    (":f :acquire, :value \"client-1\"", ":value \"client-1\": :acquire takes nil"),
    (":f :acquire, :value 7", ":value 7: :acquire takes nil"),
    (":f :lock", ":value nil: :lock takes an integer"),
    (":f :unlock", ":value nil: :unlock takes an integer"),
    (":f :drain", ":f :drain: it is none of :enqueue, "),
    (":f :read, :object :x", ":object :x: expected is an integer from 0 to 65535"),
    (":f :read, :object 4294967295", ":object 4294967295: expected is an integer from 0 to 65535; fcbench split takes greater ones"),
    (":f :read, :object 4294967296", ":object 4294967296: expected is an integer from 0 to 65535"),
)
# A whole text, and the sentence for it.
OF_TEXTS = (
    (
        "{:process 0, :type :invoke, :f :cas, :value [1 2]}\n{:process 0, :type :ok, :f :cas, :value true}",
        "; event 1, line 2: :value true: :cas replies its pair where it swapped",
    ),
    (
        "{:process 0, :type :invoke, :f :enqueue, :value 1}\n{:process 0, :type :ok, :f :enqueue}",
        "; event 1, line 2: :value nil: :enqueue replies an integer",
    ),
    (
        "{:process 0, :type :invoke, :f :enqueue, :value 1}\n{:process 0, :type :ok, :f :enqueue, :value nil}",
        "; event 1, line 2: :value nil: :enqueue replies an integer",
    ),
    (
        "{:process 0, :type :invoke, :f :put, :value [1 2]}\n{:process 0, :type :ok, :f :put, :value [1 2]}",
        "; event 1, line 2: :value [1 2]: :put replies the earlier value, an integer or nil",
    ),
    ("{:process \"n1\", :type :invoke, :f :read}", "; event 0, line 1: :process \"n1\": expected is an integer of at least 0, or a keyword"),
    ("[{:process 0, :type :invoke, :f :read}]", "; event 0, line 1: it is no map"),
    ("{\"process\": 0}", "; line 1: \"process\": "),
    ("{:process 0, :type :invoke, :f :write, :value 18446744073709551615}", "; line 1: 18446744073709551615: it is an integer past 64 bits"),
    ("{:process 0, :type :invoke, :f :write, :value 1.5}", "; line 1: 1.5: this is EDN that is not read"),
)

# A text of each fault that is printed, and the sentence for it. A history has at most 1,000,000 maps, and a text 268,435,456 bytes.
READ = "{:process 0, :type :invoke, :f :read}"
OF_CODES = (
    ("H1 at map 0", "7", "; event 0, line 1: it is no map"),
    ("H1 at map 0", "{:process 0, :f :read}", "; event 0, line 1: no :type: expected is :invoke, :ok, :fail or :info"),
    ("H2 at map 0", "{:process 0, :type :invoke, :f :peek}", "; event 0, line 1: :f :peek: it is none of :enqueue, "),
    ("H3 at map 0", "{:process 0, :type :invoke, :f :get}", "; event 0, line 1: :value nil: :get takes a key, an integer"),
    (
        "H4 at map 1",
        f"{READ}\n{{:process 1, :type :invoke, :f :pop}}",
        "; event 1, line 2: :f :pop: event 0, the first one on object 0, has :read, of another kind",
    ),
    ("H5 at map 1", f"{READ}\n{READ}", "; event 1, line 2: process 0 has an operation outstanding since event 0"),
    ("H6 at map 0", "{:process 0, :type :ok, :f :read}", "; event 0, line 1: process 0 has nothing outstanding"),
    (
        "H7 at map 1",
        f"{READ}\n{{:process 0, :type :ok, :f :read, :object 16}}",
        "; event 1, line 2: event 0 of process 0 invoked :read on object 0, and this is :read on object 16",
    ),
    (
        "H8 at map 2",
        f"{READ}\n{{:process 0, :type :info, :f :read}}\n{READ}",
        "; event 2, line 3: event 1 is the :info of process 0, which has no events after it: its thread goes on as another process",
    ),
    (
        "H9 at map 1000000",
        "{:process :x}\n" * 1_000_001,
        "; event 1000000, line 1000001: a history has at most 1,000,000 events; fcbench split divides a longer one",
    ),
    ("E1 at byte 7", b"; first\xff", "; line 1: \\xff: the text is not UTF-8"),
    ("E1 at byte 1", b"\x1f\x8b\x08\x00", "; line 1: the file is compressed: decompress it with zcat first"),
    ("E9 at byte 0", "\ufeff{:process 0}", "; line 1: a byte order mark: remove it"),
    ("E2 at byte 13", "\n{:process 0\n", "; line 3: the end of the text: the text ends inside the map of line 2"),
    ("E2 at byte 12", '{:process "0', "; line 1: the end of the text: the text ends inside the string of line 1"),
    ("E3 at byte 4", "{:f :1}", "; line 1: :1: it is no keyword"),
    ("E3 at byte 10", "{:process 007}", "; line 1: 007: it is no integer"),
    ("E3 at byte 11", "{:process 0]", "; line 1: ]: it closes nothing that is open"),
    ("E3 at byte 11", '{:process "\\q"}', "; line 1: \\: it is none of the escapes"),
    ("E4 at byte 10", "{:process 9223372036854775808}", "; line 1: 9223372036854775808: it is an integer past 64 bits"),
    ("E5 at byte 9", "{:f :pop :f :pop}", "; line 1: :f: the key is in the same map twice"),
    ("E6 at byte 3", "{:f}", "; line 1: }: a map is closed after a key without a value"),
    ("E7 at byte 1", '{"f" 1}', '; line 1: "f": a key of a map is a keyword'),
    ("E8 at byte 16", "[" * 17, "; line 1: [: at most 16 brackets may be open at once"),
    ("E9 at byte 0", "(1)", "; line 1: (: this is EDN that is not read"),
    ("E10 at byte 0", None, "; line 1: a text has at most 268,435,456 bytes"),
)
# Malformed texts that can be imported, with the options of that, and some that cannot.
IMPORTED = (
    ('{:process 0, :type :invoke, :f :write, :value "abc"}', ""),
    ("{:process 0, :type :invoke, :f :lock}", ""),
    ("[{:process \"n1\", :type :invoke, :f :read}]", ""),
    ('{"process": 0, "type": "invoke", "f": "read"}', ""),
    ("{:process 0, :type :invoke, :f :write, :value [1 2]}", " --independent"),
    ("{:process 0, :type :invoke, :f :drain}", None),
    ("{:process 0, :type :invoke, :f :write, :value 1.5}", None),
    (f"{READ}\n{{:process 0, :type :info, :f :read}}\n{READ}", None),
    ("{:process 0, :type :invoke, :f :acquire, :value 7}", " --owners"),
    ("{:process 0, :type :invoke, :f :write, :value ^:a 1}", None),
    ("{:process 007}", None),
    ("\ufeff{:process 0, :type :invoke, :f :read}", None),
    ("{:process 0, :type :invoke, :f :write, :value 1, :value 2}", None),
    ('{"process": 0, "type": "invoke", "f": "write", "value": 1, "value": 2}', None),
)


def said_of(program, path):
    """What judge prints of a malformed history, as it is, with what the tests of other things leave out."""
    ran = subprocess.run(program.line(("judge", path)), capture_output=True, cwd=program.folder, check=False)
    return ran, ran.stdout.decode().splitlines()


def explained_codes(program, report):
    """judge explains each code of a malformed history by a line that says where the fault is and what it is."""
    for code, text, wanted in OF_CODES:
        path = program.write("explained.edn", text or "")
        if text is None:
            os.truncate(f"{program.folder}/{path}", 268_435_457)
        ran, lines = said_of(program, path)
        is_well = ran.returncode == 2 and lines[0] == f"malformed history: {code}" and lines[1].startswith(wanted)
        report.holds(f"judge: {code}: {wanted}", is_well, lines[:4])


def import_is_advised(program, report):
    """If import can make a history of a malformed text, judge prints a line of shell that imports and judges it; otherwise it prints none."""
    for text, options in IMPORTED:
        path = program.write("ad vised.edn", text)
        ran, lines = said_of(program, path)
        line = f"fcbench import --names names.edn{options} '{path}' > judged.edn && fcbench judge --names names.edn judged.edn"
        advice = [] if options is None else [f"; it can be imported: {line}"]
        report.equal(f"judge: import is advised: {text}", (2, advice), (ran.returncode, [line for line in lines if "import" in line]))
        if options is not None:
            # Most of these histories are pending.
            line = line.replace("fcbench ", f"{program.tools} ").replace(" judge ", " judge --at-least 0 ")
            judged = subprocess.run(["sh", "-c", line], capture_output=True, cwd=program.folder, check=False)
            report.holds(f"judge: what is imported as advised: {text}", judged.returncode == 0 and judged.stdout.startswith(b"yes: "), judged)


def explained_faults(program, report):
    """judge says that each text is malformed, and in a second line what is wrong. check prints the first line alone."""
    events = [(f"{{:process 0, :type :invoke, {keys}}}", f"; event 0, line 1: {sentence}") for keys, sentence in OF_EVENTS]
    for text, wanted in (*events, *OF_TEXTS):
        path = program.write("explained.edn", text)
        ran, (first, *more) = said_of(program, path)
        report.holds(f"judge: {text}", ran.returncode == 2 and first.startswith("malformed history: ") and more and more[0].startswith(wanted), ran)
        report.answers(f"check: {text}", program.run("check", path, "/dev/null"), first + "\n", 2)


# A sequential queue, one whose operations overlap, and a map whose store does not tell what a put replaced.
SEQUENTIAL = "".join(f"{{:process 0, :type :{kind}, :f :enqueue, :value {value}}}\n" for value in range(50) for kind in ("invoke", "ok"))
OVERLAPPING = "".join(f"{{:process {process}, :type :{kind}, :f :enqueue, :value {process}}}\n" for kind in ("invoke", "ok") for process in range(4))
# The key is removed between the two puts by a call that began before both.
REMOVED = "".join(
    f"{{:process {process}, :type :{kind}, :f :{f}, :value {value}}}\n"
    for process, kind, f, value in (
        (0, "invoke", "del", "1"),
        (1, "invoke", "put", "[1 5]"),
        (1, "ok", "put", "nil"),
        (0, "ok", "del", "5"),
        (1, "invoke", "put", "[1 6]"),
        (1, "ok", "put", "nil"),
    )
)
BLIND = "".join(
    f"{{:process 0, :type :{kind}, :f :put, :value {said}}}\n"
    for value in (5, 6)
    for kind, said in (("invoke", f"[1 {value}]"), ("ok", "nil"))
)
# A register that begins with 0, and a write with the reply of another one.
BEGUN = "".join(f"{{:process 0, :type :{kind}, :f :read, :value {value}}}\n" for kind, value in (("invoke", "nil"), ("ok", 0)))
MIXED_UP = "".join(f"{{:process 0, :type :{kind}, :f :write, :value {value}}}\n" for kind, value in (("invoke", 1), ("ok", 2)))
# Two operations of two processes, one after the other.
APART = "".join(
    f"{{:process {process}, :type :{kind}, :f :{f}, :value {value}}}\n"
    for process, kind, f, value in ((0, "invoke", "write", 1), (0, "ok", "write", 1), (1, "invoke", "read", "nil"), (1, "ok", "read", 1))
)
# A history, the status, the summary, and the beginnings of warnings without --summary.
SUMMARIES = (
    (
        SEQUENTIAL,
        0,
        b"; 0 % of 50 operations overlap another one, at most 1 at once; 0 pending, 0 failed\n",
        [b"fcbench: warning: no reply depends on the order of operations of different processes: a race cannot show in this history"],
    ),
    (
        OVERLAPPING,
        0,
        b"; 100 % of 4 operations overlap another one, at most 4 at once; 0 pending, 0 failed\n",
        [b"fcbench: warning: no reply depends on the order of operations of different processes: a race cannot show in this history"],
    ),
    (
        APART,
        0,
        b"; 0 % of 2 operations overlap another one, at most 1 at once; 0 pending, 0 failed\n",
        [b"fcbench: warning: no two operations overlap: "],
    ),
    (REMOVED, 0, b"; 66 % of 3 operations overlap another one, at most 2 at once; 0 pending, 0 failed\n", []),
    (
        BLIND,
        1,
        b"; 0 % of 2 operations overlap another one, at most 1 at once; 0 pending, 0 failed\n",
        [b"fcbench: warning: object 0: every :put replied nil, "],
    ),
    (
        BEGUN,
        1,
        b"; 0 % of 1 operation overlap another one, at most 1 at once; 0 pending, 0 failed\n",
        [
            b"fcbench: warning: object 0: value 0 was read first, and no operation writes it. If registers begin with 0: fcbench import --initial 0"
        ],
    ),
    (
        MIXED_UP,
        1,
        b"; 0 % of 1 operation overlap another one, at most 1 at once; 0 pending, 0 failed\n",
        [b"fcbench: warning: the reply of event 1 is not its argument: the recorder is probably wrong"],
    ),
)


def summaries(program, report):
    """judge warns of a sequential history to which it says yes, and of puts whose replies tell nothing if it does not say yes. With --summary
    judge and find print the figures."""
    for text, status, figures, warned in SUMMARIES:
        path = program.write("summarized.edn", text)
        ran = subprocess.run(program.line(("judge", path)), capture_output=True, cwd=program.folder, check=False)
        lines = ran.stderr.splitlines()
        is_warned = len(lines) == len(warned) and all(line.startswith(begin) for line, begin in zip(lines, warned))
        report.holds(f"judge: warnings: {text[:60]}", ran.returncode == status and figures not in ran.stdout and is_warned, ran)
        ran = subprocess.run(program.line(("judge", "--summary", path)), capture_output=True, cwd=program.folder, check=False)
        are_told = figures in ran.stdout and all(b"\n; " + begin.removeprefix(b"fcbench: ") in ran.stdout for begin in warned)
        report.holds(f"judge: --summary: {text[:60]}", (ran.returncode, ran.stderr) == (status, b"") and are_told, ran)
        ran = subprocess.run(program.line(("find", "--summary", path)), capture_output=True, cwd=program.folder, check=False)
        report.holds(f"find: --summary: {text[:60]}", ran.stderr.startswith(figures), ran)


def out_of_steps(program, report):
    """If a search ran out of steps, a line on standard error says what to do."""
    path = program.write("long.edn", worked_rows.FIRST_WRITE_LAST)
    for steps, wanted in (("7", 1), ("1000000", 0)):
        ran = subprocess.run(program.line(("judge", "--steps", steps, path)), capture_output=True, cwd=program.folder, check=False)
        lines_told = [
            line
            for line in ran.stderr.decode().splitlines()
            if line.startswith("fcbench: out of steps: --steps N lets the search take longer; distinct values and fewer :info ")
        ]
        report.equal(f"judge: --steps {steps}: what to do is said", (3 * wanted, wanted), (ran.returncode, len(lines_told)), ran)


PARTS = (explained_faults, explained_codes, import_is_advised, summaries, out_of_steps)
