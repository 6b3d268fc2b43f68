"""What ./install installs: the program, the library, the manual, and what shells complete. A shell that is missing is skipped, and the line of
the part says how to install it."""
import os
import re
import select
import shutil
import subprocess
import time

from .embedding import SOURCES, SECONDS, SECONDS_TO_PROVE, done, missing
from ..running import EXAMPLES, ROOT
from ..words import COMMANDS

COMPLETIONS = {
    "bash": "share/bash-completion/completions/fcbench",
    "fish": "share/fish/vendor_completions.d/fcbench.fish",
    "zsh": "share/zsh/site-functions/_fcbench",
}
BASH_COMPLETION = "/usr/share/bash-completion/bash_completion"
INSTALLED = sorted(
    [
        "bin/fcbench",
        "include/fcbench.h",
        "lib/libfcbench.a",
        "lib/libfcbench.so",
        "libexec/fcbench/commands.txt",
        "libexec/fcbench/fcbench-bench",
        "libexec/fcbench/fcbench-verifier",
        "libexec/fcbench/fcbench-tools",
        "share/man/man1/fcbench.1",
        *COMPLETIONS.values(),
    ]
)
# Words that are typed, and what is completed of the last one.
TYPED = (
    ("a command", ("fcbench", "ju"), ["judge"]),
    ("a command on shards", ("fcbench", "mer"), ["merge"]),
    ("an option", ("fcbench", "judge", "--ste"), ["--steps"]),
    ("another option", ("fcbench", "judge", "--str"), ["--strict"]),
    ("an option with a hyphen in its name", ("fcbench", "draw", "--at"), ["--at-least"]),
    ("the option for a table", ("fcbench", "find", "--pl"), ["--places"]),
    ("a value", ("fcbench", "search", "--first", "re"), ["return"]),
)


def put_in(folder):
    """What was put into a folder: the files there, and the folders that are empty."""
    paths = []
    for base, inner, files in os.walk(folder):
        paths += [f"{base}/{file}" for file in files]
        if not inner + files and base != folder:
            paths.append(base)
    return sorted(os.path.relpath(path, folder) for path in paths)


def times_in(folder):
    """When each file and folder in a folder was changed, and how long it is; without what git keeps."""
    times = {}
    for base, inner, files in os.walk(folder):
        inner[:] = [name for name in inner if name != ".git"]
        for path in (base, *(f"{base}/{file}" for file in files)):
            info = os.lstat(path)
            times[path] = (info.st_mtime_ns, info.st_size)
    return times


def installed(program, report):
    """./install prints each file that it puts under its prefix, and a caller can be built from these files alone."""
    prefix = f"{program.folder}/prefix"
    output = done(report, "./install", [f"{ROOT}/install", prefix], seconds=SECONDS_TO_PROVE)
    report.equal("installed: the files", INSTALLED, put_in(prefix))
    report.equal("installed: what ./install says", [f"{prefix}/{name}" for name in INSTALLED], sorted(output.split()))
    ran = subprocess.run([f"{prefix}/bin/fcbench", "judge", f"{EXAMPLES}/queue.history.edn"], capture_output=True)
    report.holds("installed: the program judges", ran.returncode == 0 and ran.stdout.startswith(b"yes: 2 operations"), ran)
    env = {**os.environ, "FCBENCH": "/bin/true", "FCBENCH_BENCH": "/bin/true", "FCBENCH_TOOLS": "/bin/true"}
    for words in (["judge", f"{EXAMPLES}/queue.history.edn"], ["--version"]):
        named = subprocess.run([f"{prefix}/bin/fcbench", *words], capture_output=True, env=env)
        report.holds(
            f"installed: {words[0]} is done by what is installed, whatever the environment names",
            named.returncode == 0 and named.stdout,
            named,
        )
    if not missing("gcc"):
        path = f"{program.folder}/installed_judge"
        words = ["gcc", f"-I{prefix}/include", f"{SOURCES}/c/test_judge.c", f"-L{prefix}/lib", "-l:libfcbench.a", "-lpthread", "-o", path]
        done(report, "a caller of what is installed is built", words)
        done(report, "and runs", [path], "passed")
    manual(f"{prefix}/share/man/man1/fcbench.1", report)
    nothing_elsewhere(program, report)
    return completions(prefix, program.folder, report)


def nothing_elsewhere(program, report):
    """./install writes below its prefix alone: nothing at home, where temporary files go, where it is called, or in the repository."""
    folders = {name: f"{program.folder}/{name}" for name in ("home", "temporary", "here", "elsewhere")}
    for folder in folders.values():
        os.mkdir(folder)
    env = {"PATH": os.environ["PATH"], "HOME": folders["home"], "TMPDIR": folders["temporary"]}
    before = times_in(ROOT)
    ran = subprocess.run([f"{ROOT}/install", folders["elsewhere"]], cwd=folders["here"], env=env, capture_output=True, text=True, timeout=SECONDS)
    report.equal("installed: once more, from another folder", (0, ""), (ran.returncode, ran.stderr))
    wanted = {"home": [], "temporary": [], "here": [], "elsewhere": INSTALLED}
    report.equal("installed: nothing outside of PREFIX", wanted, {name: put_in(folder) for name, folder in folders.items()})
    report.equal("installed: nothing in the repository", [], sorted({path for path, _ in before.items() ^ times_in(ROOT).items()}))


def completions(prefix, folder, report):
    """Each shell reads its file, and completes a command, an option, a value and a file."""
    typed, header = f"{prefix}/include/fcb", [f"{prefix}/include/fcbench.h"]
    words = (*TYPED, ("a file", ("fcbench", "judge", typed), header), ("a file of an option", ("fcbench", "judge", "--names", typed), header))
    for shell, completes in (("bash", bash_completes), ("fish", fish_completes), ("zsh", zsh_completes)):
        if missing(shell):
            continue
        ran = subprocess.run([shell, "-n", f"{prefix}/{COMPLETIONS[shell]}"], capture_output=True, text=True)
        report.equal(f"installed: {shell} reads its completions", (0, "", ""), (ran.returncode, ran.stdout, ran.stderr))
        for what, typed, wanted in words:
            report.equal(f"installed: {shell} completes {what}", wanted, completes(prefix, folder, *typed))
        lacks = set(COMMANDS) - set(completes(prefix, folder, "fcbench", ""))
        report.equal(f"installed: commands that {shell} does not offer", set(), lacks)
    return missing(*COMPLETIONS)


def bash_completes(prefix, folder, *words):
    """What bash completes of the last of these words. Its package bash-completion, where it is installed, finds the file itself."""
    load = f". {BASH_COMPLETION}; _completion_loader fcbench" if os.path.exists(BASH_COMPLETION) else f". '{prefix}/{COMPLETIONS['bash']}'"
    line = f'{load}; COMP_WORDS=({" ".join(map(repr, words))}); COMP_CWORD={len(words) - 1}; _fcbench; echo "${{COMPREPLY[*]}}"'
    env = {"PATH": os.environ["PATH"], "HOME": f"{folder}/bash", "XDG_DATA_DIRS": f"{prefix}/share"}
    return subprocess.run(["bash", "-c", line], env=env, capture_output=True, text=True).stdout.split()


def fish_completes(prefix, folder, *words):
    """The same in fish, which finds the file itself where PREFIX/share is among the folders of data."""
    env = {"PATH": f"{prefix}/bin:{os.environ['PATH']}", "HOME": f"{folder}/fish", "XDG_DATA_DIRS": f"{prefix}/share:/usr/local/share:/usr/share"}
    ran = subprocess.run(["fish", "--private", "-c", f"complete -C '{' '.join(words)}'"], env=env, capture_output=True, text=True)
    return [line.partition("\t")[0] for line in ran.stdout.splitlines()]


def zsh_completes(prefix, folder, *words):
    """The same in zsh, which finds the file where its folder is in fpath. It completes on a terminal alone: these words
    and a tab are typed there, and a function with the name of the program says the words with which it is called."""
    own, its = os.openpty()
    env = {"PATH": os.environ["PATH"], "HOME": f"{folder}/zsh", "TERM": "dumb"}
    shell = subprocess.Popen(["zsh", "-f", "-i"], stdin=its, stdout=its, stderr=its, env=env, start_new_session=True)
    os.close(its)
    begin = f"fpath=('{prefix}/share/zsh/site-functions' $fpath); autoload -Uz compinit; compinit -D -u"
    try:
        # The line that is typed has no `ready` in it, so what says `ready` is the prompt after it.
        told(own, f"{begin}; fcbench() {{ print -r -- \"<$*>\" }}; PS1=rea''dy\r", b"ready")
        output = told(own, f"{' '.join(words)}\t\r", b">")
    finally:
        shell.kill()
        shell.wait()
        os.close(own)
    offered = re.findall(r"^([\w-]+) +-- ", output, re.M)
    return offered or re.findall(r"[^\s<]+(?=>)", output)


def told(end, keys, until, seconds=120):
    """Types these keys on a terminal, and returns what came until this did."""
    os.write(end, keys.encode())
    came, late = b"", time.monotonic() + seconds
    while until not in came and time.monotonic() < late:
        if select.select([end], [], [], 0.1)[0]:
            came += os.read(end, 4096)
    return came.decode(errors="replace")


def manual(page, report):
    """The manual has each section of three pages, and roff has nothing to say of it."""
    with open(page) as file:
        text = file.read()
    heads = []
    for name in ("commands", "formats", "import"):
        with open(f"{ROOT}/docs/{name}.md") as file:
            heads += re.findall(r"^## (.*)$", file.read(), re.M)
    report.equal("installed: sections of the manual", [], [head for head in heads if f'.SH "{head}"' not in text.replace("\\-", "-")])
    if shutil.which("groff"):
        ran = subprocess.run(["groff", "-man", "-ww", "-z", "-Tutf8", page], capture_output=True, text=True)
        report.equal("installed: groff says nothing of the manual", (0, ""), (ran.returncode, ran.stderr))


PARTS = (installed,)
