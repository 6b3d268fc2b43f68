"""The files of import: the table of names, which replaces a table and nothing else; their lengths; and names on a terminal."""
import json
import os
import shutil
import stat
import subprocess

STORE = '{:process 0, :type :invoke, :f :write, :value "a"}\n'
TABLE = '{:value 0, :is "a"}\n'
# Files that are there, and are no table of names.
OTHERS = (STORE, "notes\n", "; a comment\n", "{:value 1}", "\xff", "{:value 1, :is :a} 7", "[]")
# Files that may be replaced.
TABLES = ("", TABLE, "; made by hand\n{:value 1, :is :a}\n")


def replaced_tables(program, report):
    """The table of names replaces a table, also one to which a link leads, and no other file: neither the history, nor the output."""
    store, names = program.write("store.edn", STORE), f"{program.folder}/names.edn"
    for text in OTHERS:
        program.write("names.edn", text.encode("latin-1"))
        ran = program.run("import", "--names", names, store)
        refused = f"fcbench: cannot write {names}: it is there, and is no table of names"
        report.equal(f"import: --names on {text!r}", (4, b"", refused), (ran.status, ran.out, ran.err.decode().splitlines()[-1]))
        with open(names, encoding="latin-1") as file:
            report.equal(f"import: {text!r} is left as it is", text, file.read())
    for text in TABLES:
        for path in (names, f"{program.folder}/link.edn"):
            program.write("names.edn", text)
            if not os.path.lexists(path):
                os.symlink("names.edn", path)
            ran = program.run("import", "--names", path, store)
            with open(names, encoding="utf-8") as file:
                report.equal(f"import: --names on the table {text!r}", (0, TABLE), (ran.status, file.read()), ran.err)
    report.holds("import: a link stays one", os.path.islink(f"{program.folder}/link.edn"))
    integers = program.write("integers.edn", "{:process 0, :type :invoke, :f :read}\n")
    for other, path, why in ((store, store, "it is the history"), (integers, f"./{integers}", "it is the history"), (store, ".", "it is no file")):
        ran = program.run("import", "--names", path, other)
        report.equal(f"import: --names {path}: {why}", (f"fcbench: cannot write {path}: {why}", 4), (ran.err.decode().splitlines()[-1], ran.status))
    with open(f"{program.folder}/output.edn", "wb") as out:
        ran = program.run("import", "--names", "output.edn", store, stdout=out)
    report.equal("import: the table is not the output", (4, 0), (ran.status, os.path.getsize(f"{program.folder}/output.edn")), ran.err)
    report.equal("import: no other file is left", [], [it for it in os.listdir(program.folder) if it.startswith(".")])


# Names of objects that no keyword can have, or that a terminal does not show.
NAMES = ("\x1b[2J", "\x9b2J", "\u202eabc", "a\nyes: 1 operations, 1 objects", "", "my key", "a\"b", "\x7f", "\u2028")


def read_of_another(name):
    """The lines of a register that shows a value that nothing writes, on an object of this name, and on one that has it as its key."""
    events = ("invoke", "write", 1), ("ok", "write", 1), ("invoke", "read", None), ("ok", "read", 2)
    for on in (name, {name: 1}, [name]):
        yield "".join(json.dumps({"process": 0, "type": kind, "f": f, "value": value, "object": on}) + "\n" for kind, f, value in events)


def shown(text):
    """Whether a terminal shows each character of a text."""
    return all(it == "\n" or (it.isprintable() and it not in "\u2028\u2029") for it in text)


def names_on_terminals(program, report):
    """The table of names is read as it was written. Names in it, in lines of judge and in messages have no control character, and no line of them
    begins as a verdict; nor has the name of a file."""
    for name in NAMES:
        for text in read_of_another(name):
            imported = program.run("import", "--names", "names.edn", program.write("store.json", text))
            with open(f"{program.folder}/names.edn", encoding="utf-8", newline="") as file:
                table = file.read()
            judged = program.run("judge", "--names", "names.edn", program.write("imported.edn", imported.out))
            os.remove(f"{program.folder}/names.edn")
            out = judged.out.decode()
            is_well = (imported.status, judged.status) == (0, 1) and out.startswith("; object 0, which is ") and "\nyes" not in out
            report.holds(f"import: the name {name!r}: {text}", is_well and all(map(shown, (out, table, imported.err.decode()))), (imported, judged))
    for words in (("import", "a\x1b[2J\n.edn"), ("find", "b\x1b[2J.edn"), ("judge", "--names", "c\x9b.edn", "imported.edn")):
        ran = program.run(*words)
        report.holds(f"the name of a file: {words}", ran.status == 4 and shown(ran.err.decode()) and ran.err.count(b"\n") == 1, ran)


def discards(program, report):
    """Thirty thousand discards are passed over, and deep ones are refused; judge says of both that the text is malformed."""
    event = "{:process 0, :type :invoke, :f :read, :value nil, :object 0}\n"
    many = 30_000
    for text, status, out in (("#_1 " * many + event, 0, event), ("#_ " * many + "1 " * many + event, 0, event), ("#_[" * many + event, 2, "")):
        path = program.write("discards.edn", text)
        ran = program.run("import", path)
        report.equal(f"import: {text[:9]}", (status, out), (ran.status, ran.out.decode()), ran.err[:300])
        judged = program.run("judge", path)
        report.equal(f"judge: {text[:9]}", (2, b"malformed history: E9 at byte 0\n"), (judged.status, judged.out), judged.err[:300])


def lengths_of_imports(program, report):
    """A history of more than 4 GiB, and a table of names of more than 256 MiB, are refused before they are read."""
    path, history = f"{program.folder}/long.edn", program.write("history.edn", STORE)
    for most, words in ((1 << 32, ("import", path)), (1 << 28, ("judge", "--names", path, history)), (1 << 28, ("draw", "--names", path, history))):
        with open(path, "wb") as file:
            file.truncate(most + 1)
        ran = program.run(*words)
        os.remove(path)
        report.answers(f"a length of {most + 1}: {words[0]}", ran, "", 4, f"fcbench: cannot read {path}: it has more than {most} bytes\n")


# A finder that prints a right reason with a note of the least integer, which stands before all events.
FINDER = """#!/bin/sh
echo '{:object 0, :cuts [], :note "a; event -9223372036854775808 is"}'
"""


def notes_of_other_finders(program, report):
    """judge --names prints the note of another finder with its number, though it is before all events."""
    events = program.write("store.json", next(read_of_another("x")))
    imported = program.run("import", "--initial", "1", "--names", "names.edn", events)
    finder = f"{program.folder}/finder"
    program.write("finder", FINDER)
    os.chmod(finder, stat.S_IRWXU)
    ran = program.run("judge", "--names", "names.edn", program.write("imported.edn", imported.out), env={"FCBENCH_FINDER": finder})
    report.holds("judge --names: a note of another finder", ran.status == 1 and b"; a; event -9223372036854775808 is\n" in ran.out, ran)


# How many failed operations with errors there are, the most times of its instructions that twice as many take, and the most instructions for a
# byte of them.
FAILED = 150
MOST_OF_TWICE = 2.3
MOST_OF_BYTE = 1000


def failed_with_errors(count):
    """Swaps that failed, the first hundred with errors that are long and differ, and as many as that with short ones."""
    call = "{{:process 0, :type :{}, :f :cas, :value [1 2]{}}}\n"
    errors = [f':error "{"x" * 400}{it}"' for it in range(100)] + [f':error "y{it}"' for it in range(count)]
    return "".join(call.format("invoke", "") + call.format("fail", f", {it}") for it in errors)


def cost_of_errors(program, report):
    """Failed operations after a hundred long errors cost what they are long, and twice as many cost about twice as much, in instructions."""
    if not shutil.which("valgrind"):
        return "valgrind is missing"
    least, once, twice = (program.instructions("import", program.write(f"errors.{it}.edn", failed_with_errors(it * FAILED))) for it in (0, 1, 2))
    text = len(failed_with_errors(FAILED)) - len(failed_with_errors(0))
    report.holds("import: what failed operations cost", twice - least <= MOST_OF_TWICE * (once - least), (least, once, twice))
    report.holds("import: what a byte of them costs", once - least <= MOST_OF_BYTE * text, (once - least) / text)
    return f"{(once - least) / text:.0f} instructions for a byte of failed operations"


PARTS = (replaced_tables, names_on_terminals, discards, lengths_of_imports, notes_of_other_finders, cost_of_errors)
