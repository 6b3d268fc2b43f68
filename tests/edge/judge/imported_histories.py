"""Histories of a Jepsen store, and lines of JSON: import makes a text of them, and judge tells its answer in their words."""
import gzip
import os
import random
import re
import subprocess

from ..running import EXAMPLES, Ran, at_once

# A register of two keys, of which "x" is read as :b after :c was written over it, by processes with names.
STORE = """#jepsen.history.Op{:index 0, :time 5, :type :invoke, :process 0, :f :write, :value ["x" :b]}
{:index 1, :type :info, :f :start, :value [:isolated {"n1" #{"n2"}}], :process :nemesis, :time 1.5}
{:index 2, :type :ok, :process 0, :f :write, :value ["x" :b]}
{:index 3, :type :invoke, :process 0, :f :write, :value ["x" "c"]}
{:index 4, :type :ok, :process 0, :f :write, :value ["x" "c"]}
{:index 5, :type :invoke, :process 1, :f :read, :value ["y" nil]}
{:index 6, :type :ok, :process 1, :f :read, :value ["y" nil]}
{:index 7, :type :invoke, :process 1, :f :read, :value ["x" nil]}
{:index 8, :type :ok, :process 1, :f :read, :value ["x" :b]}
"""
TEXT = b"""{:process 0, :type :invoke, :f :write, :value 0, :object 0, :time 5, :index 0}
{:process :nemesis, :f :start, :index 1}
{:process 0, :type :ok, :f :write, :value 0, :object 0, :index 2}
{:process 0, :type :invoke, :f :write, :value 1, :object 0, :index 3}
{:process 0, :type :ok, :f :write, :value 1, :object 0, :index 4}
{:process 1, :type :invoke, :f :read, :value nil, :object 1, :index 5}
{:process 1, :type :ok, :f :read, :value nil, :object 1, :index 6}
{:process 1, :type :invoke, :f :read, :value nil, :object 0, :index 7}
{:process 1, :type :ok, :f :read, :value 0, :object 0, :index 8}
"""
NAMES = '{:object 0, :is "x"}\n{:object 1, :is "y"}\n{:value 0, :is :b}\n{:value 1, :is "c"}\n'
# What import says of it: what is not taken as it is.
NO_INTEGER = b"left out: 1 values of :time and :index that are no integers, such as :time 1.5 (first in line 2): these events have none in the text"
COUNTED = b"fcbench: warning: " + NO_INTEGER + b"""
fcbench: read as tuples [key value]: 4 values, such as ["x" :b] (first in line 1): each key is an object
fcbench: left out: 1 values and functions of the nemesis, such as [:isolated {"n1" #{"n2"}}] (first in line 2)
fcbench: numbered: 2 objects, such as "x"; --names FILE writes which number each has
fcbench: numbered: 2 values and keys of maps, such as :b; --names FILE writes which number each has
"""
# What a judgement says of it, in any order of lines but the last.
SAID = (b'; object 0, which is "x": impossible\n', b'events 3 and 4: process 0, :write "c", :ok "c"', b"events 7 and 8: process 1, :read nil, :ok :b")

JSON = """{"process": "n1", "type": "invoke", "f": "enqueue", "value": "job 1"}
{"process": "n1", "type": "ok", "f": "enqueue", "value": true}
{"process": "n2", "type": "invoke", "f": "dequeue", "value": null}
{"process": "n2", "type": "ok", "f": "dequeue", "value": "job 1"}
"""
JSON_ARRAY = "[\n" + ",\n".join(JSON.splitlines()) + "\n]\n"
# A queue that says that it is empty while a job is in it, as clients write that.
WRONGLY_EMPTY = """{{:process 0, :type :invoke, :f :enqueue, :value "job 1"}}
{{:process 0, :type :ok, :f :enqueue, :value "job 1"}}
{{:process 1, :type :invoke, :f :dequeue}}
{{:process 1, :type :fail, :f :dequeue, {}}}
"""
# How a client says so, the option by which it is a reply, and whether import warns without that.
EMPTIES = (
    (":error :empty", "--fail-is-reply", True),
    (":error [:empty \"queue 1\"]", "--fail-is-reply", True),
    (":error \"empty\"", "--fail-is-reply", True),
    (":error :not-found", "--fail-is-reply", True),
    (":value :exhausted", "--fail-is-reply=:exhausted", True),
    (":error \"no such job\"", "--fail-is-reply=#{:empty \"no such job\"}", True),
    (":error :gone", "--fail-is-reply=:gone", False),
)
# Swaps of a store that refuses each, as clients write that: what the failed one has, and the option by which it is a reply of false.
SWAPS = (":error :did-not-match", "--fail-is-reply=:did-not-match"), (":other 1", "--fail-is-reply=nil"), (":error :not-found", "--fail-is-reply")
WRONGLY_REFUSED = """{{:process 0, :type :invoke, :f :write, :value 1}}
{{:process 0, :type :ok, :f :write, :value 1}}
{{:process 0, :type :invoke, :f :cas, :value [1 2]}}
{{:process 0, :type :fail, :f :cas, :value [1 2], {}}}
"""
# A history, and the sentence for it.
REFUSED = (
    ("{:process 0, :type :invoke, :f :write, :value ^{:a 1} 5}", "line 1: a form that begins with ^ is no EDN; "),
    ("{:process 0, :type :invoke, :f :write, :value @a}", "line 1: a form that begins with @ is no EDN; "),
    ("\n{:process 0, :object \\\nyes:}", "line 2: a backslash without a character; "),
    ('{"process": 0, "type": "invoke", "f": "\\u+041"}', "line 1: no value of JSON; "),
    (
        "{:process 0, :type :invoke, :f :write, :value ##NaN}",
        "line 1: operation 0: ##NaN cannot be the argument of :write, which is an integer, string or keyword",
    ),
    (
        "{:process 0, :type :invoke, :f :write, :value 1.5}",
        "line 1: operation 0: 1.5 cannot be the argument of :write, which is an integer, string or keyword",
    ),
    ("\n\n{:process 0, :type :invoke, :f :drain}", "line 3: operation 0: :drain is not one of the functions :enqueue, :dequeue, "),
    ("{:process 0", "line 1: the text ends before }; expected are maps"),
    ("{:process 0, :type :invoke}", "line 1: operation 0: :f is missing; it must be one of :enqueue, "),
    ("{:process 0, :type :invoke, :f write}", "line 1: operation 0: the symbol write cannot be an :f: write the keyword :write"),
    ("\n{:process 0, :value 1,\n:value 2}", "line 3: the key :value is in the same map twice; "),
    ('{"process": 0, "value": 1,\n"value": 2}', "line 2: the key :value is in the same map twice"),
    ("\ufeff{:process 0}", "line 1: a byte order mark: remove it"),
    ("", "line 1: no operation of a client"),
)


def warnings_of(ran):
    """The warnings of a run, without the lines that only count."""
    return [line for line in ran.err.decode().splitlines() if line.startswith("fcbench: warning: ")]


def imports(program, report):
    """A store of tuples, keywords and strings, and lines of JSON, are imported and judged in their words."""
    folder = program.folder
    store = program.write("store.edn", STORE)
    names = f"{folder}/names.edn"
    imported = program.run("import", "--names", names, store)
    report.equal("import: the text of a store", Ran(0, TEXT, COUNTED), imported)
    with open(names, encoding="utf-8") as file:
        report.equal("import: its table of names", NAMES, file.read())
    text = program.write("imported.edn", imported.out)
    judged = program.run("judge", "--names", names, text)
    report.holds("import: it is judged in its words", judged.status == 1 and all(words in judged.out for words in SAID), judged)
    reason = b"".join(line[2:] for line in judged.out.splitlines(True) if line.startswith(b"; {"))
    refuted = program.run("refute", text, program.write("reasons.edn", reason))
    report.equal("import: its reason is accepted", 1, refuted.status, refuted)
    lines = program.write("lines.json", JSON)
    judged = program.run("judge", program.write("of_json.edn", program.run("import", lines).out))
    report.answers("import: lines of JSON", judged, b"yes: 2 operations, 1 objects\nqueue: 1 objects, 2 operations\n", 0)
    array = program.run("import", program.write("array.json", JSON_ARRAY))
    report.equal("import: an array of JSON is as its lines", program.run("import", lines).out, array.out, array)


def failed_operations(program, report):
    """A failed removal from an empty queue is left out with a warning, and the history is a yes. With an option it is a reply of nil, and the
    history is a no."""
    for error, option, warns in EMPTIES:
        path = program.write("empty.edn", WRONGLY_EMPTY.format(error))
        left_out, reply = program.run("import", path), program.run("import", option, path)
        warnings = [line for line in warnings_of(left_out) if line.startswith("fcbench: warning: left out: 1 failed :dequeue with ")]
        counted = b"fcbench: read as replies: 1 failed operations, such as :dequeue (first in line 4)\n" in reply.err
        came = left_out.status, len(warnings), warnings_of(reply), counted
        report.equal(f"import: {error}: warnings", (0, int(warns), [], True), came, left_out.err)
        statuses = [program.run("judge", program.write("text.edn", imported.out)).status for imported in (left_out, reply)]
        report.equal(f"import: {error}: {option} makes a no of a yes", [0, 1], statuses)


def failed_swaps(program, report):
    """Failed swaps are left out with a warning. With an option they are replies, and a store that wrongly refuses a swap gets a no."""
    for error, option in SWAPS:
        path = program.write("refusing.edn", WRONGLY_REFUSED.format(error))
        left_out, reply = program.run("import", path), program.run("import", option, path)
        is_said = left_out.err.startswith(b"fcbench: warning: left out: 1 failed :cas with") and len(warnings_of(left_out)) == 1
        report.equal(f"import: a swap with {error}: warnings", (0, True, []), (left_out.status, is_said, warnings_of(reply)), left_out.err)
        statuses = [program.run("judge", program.write("text.edn", imported.out)).status for imported in (left_out, reply)]
        report.equal(f"import: a swap with {error}: {option} makes a no of a yes", [0, 1], statuses)


def standard_input(program, report):
    """import - reads standard input; gzip is named; an initial value of no register is warned of."""
    ran = subprocess.run(program.line(("import", "-")), input=STORE.encode(), capture_output=True, cwd=program.folder, check=False)
    report.equal("import -: standard input", (0, TEXT, COUNTED), (ran.returncode, ran.stdout, ran.stderr))
    path = program.write("store.edn.gz", gzip.compress(STORE.encode()))
    refused = f"fcbench: cannot read {path}: the file is compressed: decompress it with zcat first\n"
    report.answers("import: gzip", program.run("import", path), "", 4, refused)
    path = program.write("queue.edn", WRONGLY_EMPTY.format(":error :gone"))
    ran = program.run("import", "--initial", "0", path)
    report.equal(
        "import: --initial without a register",
        (0, ["fcbench: warning: --initial writes nothing: the history has no register that it names"]),
        (ran.status, warnings_of(ran)),
    )


def imports_are_refused(program, report):
    """What cannot be mapped is named with its line, and files that cannot be read or written are named."""
    for text, why in REFUSED:
        path = program.write("refused.edn", text)
        ran = program.run("import", path)
        report.holds(f"import: {why}", (ran.status, ran.out) == (2, b"") and ran.err.decode().startswith(f"fcbench: {path}, {why}"), ran)
    store, missing = program.write("store.edn", STORE), f"{program.folder}/not_there/names.edn"
    for words, says in ((("import", missing), f"cannot read {missing}"), (("import", "--names", missing, store), f"cannot write {missing}")):
        ran = program.run(*words)
        report.holds(f"import: {says}", (ran.status, ran.out) == (4, b"") and ran.err.decode().splitlines()[-1].startswith(f"fcbench: {says}"), ran)
    twice = program.write("twice.edn", "{:value 1, :is :a} {:value 2, :is :a}")
    ran = program.run("judge", "--names", twice, program.write("imported.edn", TEXT))
    report.holds("judge: a table of names that is not one to one", ran.status == 2 and b":a is value 2, and another value too" in ran.err, ran)
    report.holds("import: no file is left", not os.path.exists(missing))


# A lock that another one unlocks, as judge reads it, and as a client writes it with names.
UNLOCKED = """{:process 0, :type :invoke, :f :lock, :value "alice"}
{:process 0, :type :ok, :f :lock}
{:process 1, :type :invoke, :f :unlock, :value "bob"}
{:process 1, :type :ok, :f :unlock}
"""
RELEASED = UNLOCKED.replace(":f :lock", ":f :acquire").replace(":f :unlock", ":f :release")
# How a lock may be written: the option of import, its warnings, and the statuses of import and of the judgement of its text.
LOCKS = (
    (UNLOCKED, (), [], 0, 1),
    (RELEASED, (), ["left out: 2 owners"], 0, 0),
    (RELEASED, ("--owners",), [], 0, 1),
    (RELEASED, ("--check-owners",), [], 2, None),
    (UNLOCKED, ("--check-owners",), [], 2, None),
    (UNLOCKED.replace(', :value "bob"', ""), (), ["left out: 1 owners"], 0, 0),
    (UNLOCKED.replace(":ok, :f :lock", ":ok, :f :lock, :value 17").replace("bob", "alice"), (), ["left out: 1 replies"], 0, 0),
)


def owners_of_locks(program, report):
    """A lock that is unlocked by another owner is a no after import, as without it, also by the command that judge advises. Owners that are left
    out are counted, and so are tokens."""
    example = f"{EXAMPLES}/unlocked_by_another.history.edn"
    imported = program.run("import", example)
    judged = [program.run("judge", path).status for path in (example, program.write("imported.edn", imported.out))]
    report.equal("import: a lock of integers keeps its owners", ([1, 1], b""), (judged, imported.err))
    for text, options, warnings, status, verdict in LOCKS:
        ran = program.run("import", *options, program.write("lock.edn", text))
        said = [line.removeprefix("fcbench: warning: ") for line in warnings_of(ran)]
        is_said = len(said) == len(warnings) and all(map(str.startswith, said, warnings))
        after = program.run("judge", program.write("imported.edn", ran.out)).status if ran.status == 0 else None
        report.equal(f"import {options}: {text}", (status, True, verdict), (ran.status, is_said, after), said)
    for text, options in ((UNLOCKED, ""), (RELEASED, " --owners")):
        path = program.write("advised.edn", text)
        advice = subprocess.run(program.line(("judge", path)), capture_output=True, cwd=program.folder, check=False).stdout.decode().splitlines()[-1]
        line = f"fcbench import --names names.edn{options} {path} > judged.edn && fcbench judge --names names.edn judged.edn"
        ran = subprocess.run(["sh", "-c", line.replace("fcbench ", f"{program.tools} ")], capture_output=True, cwd=program.folder, check=False)
        report.equal(f"import: what judge advises keeps owners: {text}", (f"; it can be imported: {line}", 1), (advice, ran.returncode))


# A process that goes on after its operation timed out.
GOES_ON = """{:process 0, :type :invoke, :f :write, :value 1}
{:process 0, :type :info, :f :write}
{:process 0, :type :invoke, :f :read}
{:process 0, :type :ok, :f :read, :value 2}
"""
# Two logs that are joined: the read was before the write.
FIRST_LOG = """{:process 0, :type :invoke, :f :write, :value 1, :time 100}
{:process 0, :type :ok, :f :write, :value 1, :time 200}
"""
SECOND_LOG = """{:process 1, :type :invoke, :f :read, :time 50}
{:process 1, :type :ok, :f :read, :value nil, :time 90}
"""


def joined_logs(program, report):
    """A process that goes on after :info is another one, under a name. Logs that were joined are a no with a warning, and a yes with --by-time; a
    completion before its invocation is refused."""
    path, names = program.write("info.edn", GOES_ON), f"{program.folder}/names.edn"
    ran = program.run("import", "--names", names, path)
    report.equal("import: a process that goes on", 1, len(warnings_of(ran)), ran.err)
    judged = program.run("judge", "--names", names, program.write("imported.edn", ran.out))
    report.holds("import: a process that goes on has a name", judged.status == 1 and b": process [0 2], :read nil, :ok 2\n" in judged.out, judged)
    path = program.write("joined.edn", FIRST_LOG + SECOND_LOG)
    for options, first, verdict in (((), "times go back: 2 operations ", 1), (("--by-time",), "--by-time moved 4 of 4 operations: ", 0)):
        ran = program.run("import", *options, path)
        said = warnings_of(ran)
        judged = program.run("judge", program.write("imported.edn", ran.out)).status
        report.holds(f"import: joined logs {options}", len(said) == 1 and said[0].startswith(f"fcbench: warning: {first}") and judged == verdict, ran)
    early = program.write("early.edn", FIRST_LOG.replace("200", "20"))
    why = f"fcbench: {early}, line 2: operation 0: by its :time the :ok of process 0 is before its :invoke in line 1\n"
    report.answers("import: --by-time: a completion before its invocation", program.run("import", "--by-time", early), "", 2, why)


# A history with a warning of each sort, and the options with which it has one.
WARNED = (
    (GOES_ON, ()),
    (RELEASED, ()),
    (FIRST_LOG + SECOND_LOG, ()),
    (FIRST_LOG + SECOND_LOG, ("--by-time",)),
    ("{:process 0, :type :invoke, :f :dequeue}\n{:process 0, :type :fail, :f :dequeue, :error :empty}\n", ()),
    ("{:process 0, :type :invoke, :f :dequeue}\n{:process 0, :type :ok, :f :dequeue}\n", ("--initial", "0")),
    ('{:process 0, :type :invoke, :f :lock, :value "OK"}\n', ()),
    ("{:process 0, :type :invoke, :f :read, :time 1.5}\n", ()),
)
STRICT = "fcbench: nothing is written, since there is a warning and --strict is given"


def strict_imports(program, report):
    """With --strict a history with a warning ends with 2: after the lines that it has without, one says so, and neither a text nor a table is
    written. One without a warning is imported as without it."""
    names = f"{program.folder}/strict.names.edn"
    for text, options in WARNED:
        path = program.write("strict.edn", text)
        ran = program.run("import", *options, path)
        strict = program.run("import", "--strict", "--names", names, *options, path)
        report.equal(f"import {options}: a warning: {text}", (0, True), (ran.status, bool(warnings_of(ran))), ran.err)
        came = strict.status, strict.out, strict.err.decode().splitlines()[-1], warnings_of(strict), os.path.exists(names)
        report.equal(f"import --strict {options}: {text}", (2, b"", STRICT, warnings_of(ran), False), came, strict.err)
    path = program.write("strict.edn", '{:process 0, :type :invoke, :f :write, :value "a", :object :x}\n')
    ran, strict = (program.run("import", *options, path) for options in ((), ("--strict", "--names", names)))
    came = strict.status, strict.out, warnings_of(strict), os.path.exists(names)
    report.equal("import --strict: lines that only count", (0, ran.out, [], True), came, strict.err)


# ---- generated files

FILES = 500
KEYS = (":x", ":test/y", '"k 1"', '"a \\"b\\", {c} [d]"', "3", "70000", "-1")
VALUES = (":v{}", ":test/v{}", '"job {}"', '"{} \\\\ [:a, nil] }}"', "{}", "-{}", "1{}000000000000000000000")
PROCESSES = ("0", "7", '"n1"', '"n 2, b"')


def drawn(seed):
    """A file of calls of one process after another on the registers of some keys, its key and value that is read after it was replaced, and
    the number of the event and the process that reads it."""
    rng, last, events = random.Random(f"imported {seed}"), {}, []
    keys = rng.sample(KEYS, rng.randrange(1, len(KEYS)))

    def call(f, key, value, reply):
        process = rng.choice(PROCESSES)
        for kind, own in (("invoke", value), ("ok", reply)):
            times = f":index {len(events)}, :time {len(events) * 1000}"
            events.append(f"{{{times}, :process {process}, :type :{kind}, :f :{f}, :value [{key} {own}]}}")
        return process

    def write(key):
        last[key] = rng.choice(VALUES).format(len(events) + 10)
        call("write", key, last[key], last[key])

    for _ in range(rng.randrange(12)):
        key = rng.choice(keys)
        if rng.random() < 0.5:
            write(key)
        else:
            call("read", key, "nil", last.get(key, "nil"))
        if rng.random() < 0.1:
            events.append(f"{{:index {len(events)}, :process :nemesis, :type :info, :f :start, :value {{\"n1\" #{{:cut}}}}}}")
    key = rng.choice(keys)
    write(key)
    old = last[key]
    write(key)
    place = len(events)
    process = call("read", key, "nil", old)
    form = rng.choice(("{}", "[{}]"))
    tag = rng.choice(("", "#jepsen.history.Op"))
    return form.format("\n".join(tag + event for event in events)), events, key, old, place, process


def named(table, sort, number):
    return table.get((sort, number), number)


def told_back(events, text, table):
    """Whether each operation of a text has the words of its event, by the table of names."""
    for event, line in zip(events, text.splitlines(), strict=True):
        match = re.fullmatch(r"{:process (\d+), :type :(\w+), :f :(\w+), :value (-?\d+|nil), :object (\d+), :time (\d+), :index (\d+)}", line)
        if not match:
            of_nemesis = re.fullmatch(r"{:process :nemesis, :f :(\w+), :index (\d+)}", line)
            if not of_nemesis or not event.startswith("{:index %s, :process :nemesis, :type :info, :f :%s, " % of_nemesis.group(2, 1)):
                return False
            continue
        process, kind, f, value, on, moment, index = match.groups()
        words = f"[{named(table, 'object', on)} {named(table, 'value', value)}]"
        if event != f"{{:index {index}, :time {moment}, :process {named(table, 'process', process)}, :type :{kind}, :f :{f}, :value {words}}}":
            return False
    return True


def judged_in_words(program, seed):
    """What is wrong with the import of a generated file and its judgement in the words of the file, or None."""
    file, events, key, old, place, process = drawn(seed)
    stem = f"generated.{seed}"
    store, names = program.write(f"{stem}.edn", file), f"{program.folder}/{stem}.names.edn"
    imported = program.run("import", "--independent", "--names", names, store)
    with open(names, encoding="utf-8") as lines:
        entries = [re.fullmatch(r"{:(\w+) (-?\d+), :is (.*)}\n", line).groups() for line in lines]
    table = {(sort, number): name for sort, number, name in entries}
    if not len(entries) == len(table) == len({(sort, name) for sort, _, name in entries}):
        return f"not one to one: {entries}"
    if imported.status != 0 or not told_back(events, imported.out.decode(), table):
        return f"other words: {file} {imported}"
    ran = program.run("judge", "--names", names, program.write(f"{stem}.text.edn", imported.out))
    own = next((number for (sort, number), name in table.items() if (sort, name) == ("object", key)), None)
    on = key if own is None else f"{own}, which is {key}"
    wanted = (f"; object {on}: impossible\n", f"; events {place} and {place + 1}: process {process}, :read nil, :ok {old}\n")
    return None if ran.status == 1 and all(words in ran.out.decode() for words in wanted) else f"{wanted}: {file} {ran}"


def generated_files(program, report):
    """Imports files of tuples, keywords and strings: the table of names, which is one to one, gives each operation the words of the file, also
    that which judge names as impossible."""
    for seed, wrong in enumerate(at_once(lambda seed: judged_in_words(program, seed), range(FILES))):
        report.equal(f"import: generated file {seed}", None, wrong)
    return f"{FILES} files"


PARTS = (imports, failed_operations, failed_swaps, standard_input, imports_are_refused, owners_of_locks, joined_logs, strict_imports, generated_files)
