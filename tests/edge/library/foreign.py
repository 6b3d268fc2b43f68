"""Libraries that are not libfcbench: each caller, and the half of the library that is not proved, take an answer only if its lines fit its
status."""
import os
import shutil
import subprocess
import sys

from ..running import ROOT, at_once
from .embedding import C, CPP, LIBRARY, SOURCES, done, missing

YES = "yes: 1 operations, 1 objects\nqueue: 1 objects, 1 operations\n"
NO = "; object 0: impossible\n; {:object 0, :cuts []}\n"
OPEN = "; object 0: open\n"
MALFORMED = "malformed history: H8 at map 2\n"
ORDER = "{:object 0, :order []}\n"
SHOWN = "not linearizable: object 0: 1 of 2 operations have no valid order\n"
NOT_SHOWN = "object 0: not shown: the part has a valid order\n"
NO_MEMORY = "out of memory\n"
REFUSED = "no: C1 object 0 has no certificate\n"
# Of each function the answers that it may give: the status, and the lines.
ANSWERS = {
    "judge": [(0, YES), (1, NO), (1, OPEN + NO), (2, MALFORMED), (3, OPEN), (3, NO_MEMORY), (3, "malformed evidence: E3 at byte 0\n")],
    "check": [(0, YES), (1, REFUSED), (2, MALFORMED), (2, "malformed certificates: K1 at form 0\n"), (3, NO_MEMORY)],
    "refute": [
        *((1, SHOWN), (1, NOT_SHOWN + SHOWN), (2, MALFORMED), (2, "malformed reasons: N1 at form 0\n")),
        *((3, NOT_SHOWN), (3, ""), (3, NO_MEMORY)),
    ],
    "find": [(0, ORDER), (0, ""), (2, MALFORMED), (3, "{:object 0, :search {:steps 10}}\n"), (3, "")],
}
ANSWERS["verify"] = ANSWERS["judge"]
# Lines of no answer of any function, whatever the status.
OF_NONE = ("yes: x\n; object 0: open\n", "yes", "y", YES[:-1], NO[:-1], "all is well\n", "\n", REFUSED[:-1], ORDER[:-1])


def is_answer(function, status, lines):
    """Whether a function may give this status with these lines. find may give any lines of its own with 3."""
    return (status, lines) in ANSWERS[function] or function == "find" and status == 3 and lines.startswith(("{:object ", "; object "))


def foreign(function):
    """Statuses and lines that are no answer of a function: those of its answers in other pairs, and of judge more, with lines that nothing
    prints."""
    texts = dict.fromkeys(lines for _, lines in ANSWERS[function])
    cases = [(status, lines) for status in (0, 1, 2, 3) for lines in (*texts, *(("",) if function == "judge" else ()))]
    if function == "judge":
        cases += [(status, lines) for status in (0, 1) for lines in OF_NONE] + [(status, YES) for status in (4, 64, 70, 256)] + [(1, REFUSED)]
    return [case for case in cases if not is_answer(function, *case)]


CPP_CALLER = """#include <fcbench.hpp>
#include <cstdio>
#include <cstring>
int main(int, char **words) try {
    const char *name = words[1];
    const fcbench::Answer answer = !std::strcmp(name, "judge") ? fcbench::judge("") : !std::strcmp(name, "find") ? fcbench::find("")
        : !std::strcmp(name, "check") ? fcbench::check("", "") : !std::strcmp(name, "refute") ? fcbench::refute("", "") : fcbench::verify("", "");
    std::printf("%u", static_cast<unsigned>(answer.verdict()));
} catch (const fcbench::NoAnswer &) {
    std::puts("no answer");
    return 9;
}
"""
RUST_CALLER = """#[allow(dead_code)]
#[path = "SOURCES/rust/src/lib.rs"]
mod fcbench;
fn main() {
    let answer = match std::env::args().nth(1).unwrap().as_str() {
        "judge" => fcbench::judge(""),
        "find" => fcbench::find(""),
        "check" => fcbench::check("", ""),
        "refute" => fcbench::refute("", ""),
        _ => fcbench::verify("", ""),
    };
    print!("{}", answer.verdict as u32);
}
"""
GO_CALLER = """package main

import (
	"fmt"
	"os"
	"foreign/fcbench"
)

func main() {
	var answer fcbench.Answer
	switch os.Args[1] {
	case "judge":
		answer = fcbench.Judge("")
	case "find":
		answer = fcbench.Find("")
	case "check":
		answer = fcbench.Check("", "")
	case "refute":
		answer = fcbench.Refute("", "")
	default:
		answer = fcbench.Verify("", "")
	}
	fmt.Print(uint32(answer.Verdict))
}
"""
PYTHON_CALLER = """import sys
import fcbench
call = getattr(fcbench, sys.argv[1])
answer = call("") if sys.argv[1] in ("judge", "find") else call("", "")
print(int(answer.verdict), end="")
"""
# A caller of the half of the library that is not proved. The history has one pending operation.
C_CALLER = """#include <fcbench.h>
#include <stdio.h>
#include <string.h>
int main(int count, char **words) {
    const char *text = count > 2 && strcmp(words[2], "of_no_history") == 0 ? "{" : "{:process 0, :type :invoke, :f :read}";
    uint8_t out[500];
    size_t needed, room = count > 2 && strcmp(words[2], "no_room") == 0 ? 0 : sizeof out;
    uint32_t status = strcmp(words[1], "judge") == 0
        ? fcbench_judge((const uint8_t *)text, strlen(text), FCBENCH_STEPS, out, room, &needed)
        : fcbench_find((const uint8_t *)text, strlen(text), out, room, &needed);
    printf("%u %zu", status, needed);
    return 0;
}
"""


def go_program(program, report):
    """Builds the caller in Go, over the package as it is."""
    folder = f"{program.folder}/go_caller"
    os.makedirs(f"{folder}/fcbench")
    for name in ("fcbench.go", "fits.go"):
        shutil.copy(f"{SOURCES}/go/{name}", f"{folder}/fcbench")
    with open(f"{folder}/go.mod", "w") as file:
        file.write("module foreign\n")
    with open(f"{folder}/main.go", "w") as file:
        file.write(GO_CALLER)
    env = {"CGO_CFLAGS": f"-I{ROOT}/include", "CGO_LDFLAGS": f"{program.folder}/libforeign.a", "GOFLAGS": "-mod=mod"}
    done(report, "the caller in Go is built", ["go", "build", "-o", "../in_go", "."], FOLDER=folder, GOCACHE=f"{program.folder}/go", **env)
    return [f"{program.folder}/in_go"]


def callers(program, report):
    """The command line of a caller in each language that is here, by its name."""
    folder, source = program.folder, f"{ROOT}/tests/edge/library/foreign.c"
    done(report, "a foreign library is built", ["gcc", f"-I{ROOT}/include", "-fPIC", "-c", source, "-o", f"{folder}/foreign.o"])
    done(report, "and joined", ["ar", "rcs", f"{folder}/libforeign.a", f"{folder}/foreign.o"])
    done(report, "and shared", ["gcc", "-shared", "-o", f"{folder}/foreign.so", f"{folder}/foreign.o"])
    found = {"Python": [sys.executable, f"{folder}/{program.write('in_python.py', PYTHON_CALLER)}"]}
    if not missing("g++"):
        done(report, "the caller in C++ is built", [*CPP, f"-I{SOURCES}/cpp", f"{folder}/{program.write('in_cpp.cpp', CPP_CALLER)}",
                                                    f"{folder}/libforeign.a", "-o", f"{folder}/in_cpp"])
        found["C++"] = [f"{folder}/in_cpp"]
    if not missing("cargo"):
        text = RUST_CALLER.replace("SOURCES", SOURCES)
        done(report, "the caller in Rust is built", ["rustc", "--edition", "2021", f"{folder}/{program.write('in_rust.rs', text)}", "-L", folder,
                                                     "-l", "static=foreign", "-o", f"{folder}/in_rust"])
        found["Rust"] = [f"{folder}/in_rust"]
    if not missing("go", "gcc"):
        found["Go"] = go_program(program, report)
    return found


def asked(program, words, status, lines):
    """Runs a caller over a library that gives this status and these lines."""
    env = {**os.environ, "FOREIGN_STATUS": str(status), "FOREIGN_LINES": lines, "FCBENCH_SO": f"{program.folder}/foreign.so",
           "PYTHONPATH": f"{SOURCES}/python", "PYTHONDONTWRITEBYTECODE": "1", "RUST_BACKTRACE": "0"}
    ran = subprocess.run(words, env=env, capture_output=True, text=True)
    return ran.returncode, ran.stdout


def foreign_libraries(program, report):
    """Over a library that gives other lines than its status has, each caller ends with an error, and gives no verdict. It takes those of an
    answer."""
    if missing("gcc"):
        return missing("gcc")
    found, count = callers(program, report), 0
    for language, words in found.items():
        cases = [(name, *case, True) for name, right in ANSWERS.items() for case in right]
        cases += [(name, *case, False) for name in ANSWERS for case in foreign(name)]
        ended = at_once(lambda case: asked(program, [*words, case[0]], case[1], case[2]), cases)
        for (name, status, lines, is_right), (came, said) in zip(cases, ended):
            is_well = (came, said) == (0, str(status)) if is_right else came != 0 and not said[:1].isdigit()
            report.holds(f"embedding: {language}: {name}: status {status} and {lines!r}", is_well, (came, said))
        count += len(cases)
    return f"{', '.join(found)}: {count} calls"


def foreign_half(program, report):
    """The half of the library that is not proved hands on what fits alone: otherwise its status is 70, and there are no lines."""
    if missing("gcc"):
        return missing("gcc")
    folder, source = program.folder, f"{ROOT}/tests/edge/library/foreign.c"
    done(report, "the two halves are taken apart", ["ar", "x", LIBRARY, "finder.o"], FOLDER=folder)
    caller = f"{folder}/{program.write('in_c.c', C_CALLER)}"
    objects, libraries = (caller, source, f"{folder}/finder.o"), ("-lpthread", "-ldl", "-lm")
    done(report, "the caller in C is built", [*C, "-DPROVED_HALF", *objects, *libraries, "-o", f"{folder}/in_c"])
    wanted = {(status, lines): f"{status} {len(lines)}" for status, lines in ANSWERS["verify"]} | dict.fromkeys(foreign("judge"), "70 0")
    for (status, lines), said in wanted.items():
        came = asked(program, [f"{folder}/in_c", "judge"], status, lines)
        report.equal(f"embedding: fcbench_judge over {status} and {lines!r}", (0, said), came)
    for status, lines, said in ((0, YES, "3 0"), (2, MALFORMED, f"2 {len(MALFORMED)}"), (2, YES, "70 0"), (1, NO, "3 0")):
        came = asked(program, [f"{folder}/in_c", "find", "of_no_history"], status, lines)
        report.equal(f"embedding: fcbench_find, whose finder reads no history, over {status} and {lines!r}", (0, said), came)
    for status, lines in ((0, YES), (1, REFUSED), (0, ""), (0, REFUSED), (70, YES), (3, YES)):
        wanted = 0 if (status, lines) == (0, YES) else 3
        came = asked(program, [f"{folder}/in_c", "find"], status, lines)
        report.equal(f"embedding: fcbench_find over {status} and {lines!r}", (0, f"{wanted} {len(ORDER)}"), came)
    for status, lines, said in ((0, YES, f"0 {len(YES)}"), (1, NO, f"1 {len(NO)}"), (0, "", "70 0"), (64, YES, "70 0")):
        came = asked(program, [f"{folder}/in_c", "judge", "no_room"], status, lines)
        report.equal(f"embedding: fcbench_judge without room over {status} and {lines!r}", (0, said), came)


# What the recorded queue of docs/tutorial.md is judged by, with the status and lines of that library, and what the script says.
NO_LIBRARIES = (
    ("/not/there.so", 0, YES, "ImportError: /not/there.so: "),
    ("without_functions.so", 0, YES, "AttributeError: "),
    ("foreign.so", 1, YES, "NoAnswer: fcbench_judge: "),
    ("foreign.so", 0, NO, "NoAnswer: fcbench_judge: "),
    ("foreign.so", 70, "", "NoAnswer: fcbench_judge: "),
)


def recorded_without_an_answer(program, report):
    """docs/record_queue.py --judge ends with 70, and with no verdict, if the library is missing or gives no answer."""
    if missing("gcc"):
        return missing("gcc")
    folder, source = program.folder, f"{ROOT}/tests/edge/library/foreign.c"
    done(report, "a foreign library is shared", ["gcc", f"-I{ROOT}/include", "-fPIC", "-shared", source, "-o", f"{folder}/foreign.so"])
    empty = f"{folder}/{program.write('empty.c', 'int nothing;')}"
    done(report, "a library without functions is shared", ["gcc", "-fPIC", "-shared", empty, "-o", f"{folder}/without_functions.so"])
    for library, status, lines, says in (("foreign.so", 0, YES, ""), ("foreign.so", 1, NO, ""), *NO_LIBRARIES):
        env = {**os.environ, "FOREIGN_STATUS": str(status), "FOREIGN_LINES": lines, "FCBENCH_SO": os.path.join(folder, library),
               "PYTHONDONTWRITEBYTECODE": "1"}
        ran = subprocess.run([sys.executable, f"{ROOT}/docs/record_queue.py", "--judge"], env=env, capture_output=True, text=True)
        is_well = (ran.returncode, ran.stdout) == ((70, "") if says else (status, lines)) and says in ran.stderr
        report.holds(f"embedding: record_queue.py over {library}: status {status} and {lines!r}", is_well, ran)
    return None


PARTS = (foreign_libraries, foreign_half, recorded_without_an_answer)
