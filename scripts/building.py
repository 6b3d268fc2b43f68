"""What the scripts share that build something: the record beside a file that was built, the folder in which it is built, and the end of all that
was started. A record has the SHA-256 of the file and of all that it was built of. The file is current while both are as the record says: no
time counts."""
import contextlib
import fcntl
import hashlib
import os
import shutil
import signal
import subprocess
import sys
import tempfile
import time

TOP = os.path.dirname(os.path.dirname(os.path.realpath(__file__)))
NOT_THERE, NOT_BUILT = 127, 70
SIGNALS = (signal.SIGHUP, signal.SIGINT, signal.SIGTERM)


def say(text):
    """Prints a line on standard error."""
    print(f"fcbench: {text}", file=sys.stderr, flush=True)


def fail(text, status=NOT_BUILT):
    """Ends the script, and says why."""
    say(text)
    sys.exit(status)


def end(number, _):
    """Ends the script at a signal as an error does: first what it started ends, and its folder is removed. A second signal changes nothing."""
    for each in SIGNALS:
        signal.signal(each, signal.SIG_IGN)
    sys.exit(128 + number)


def run(main, *arguments):
    """Runs the main function of a script. A file that cannot be read or written, and a program that fails, end it with 70."""
    for number in SIGNALS:
        signal.signal(number, end)
    try:
        main(*arguments)
    except (OSError, subprocess.CalledProcessError) as error:
        fail(f"not built: {error}")


def hold():
    """Lets a signal wait while something begins or ends that must not outlive the script."""
    signal.pthread_sigmask(signal.SIG_BLOCK, SIGNALS)


def let_go():
    """Lets the signals come, also those that waited."""
    signal.pthread_sigmask(signal.SIG_UNBLOCK, SIGNALS)


def files_in(top, folder, *left_out):
    """Returns the paths, from `top`, of the files of a folder, and of the folders in it except those with these names."""

    def refuse(error):
        raise error

    paths = []
    for base, folders, files in os.walk(f"{top}/{folder}", onerror=refuse):
        folders[:] = [name for name in folders if name not in left_out]
        paths += [f"{base[len(top) + 1:]}/{file}" for file in files]
    return paths


def copy(paths, folder):
    """Copies these files of the repository into a folder."""
    for path in paths:
        os.makedirs(os.path.dirname(f"{folder}/{path}"), exist_ok=True)
        shutil.copyfile(f"{TOP}/{path}", f"{folder}/{path}")


def sums(top, paths):
    """Returns a line for each of these files, with the SHA-256 of its content and its path from `top`."""
    lines = []
    for path in sorted(paths):
        with open(f"{top}/{path}", "rb") as file:
            lines.append(f"{hashlib.sha256(file.read()).hexdigest()}  {path}\n")
    return "".join(lines)


def record(made, sources):
    """Returns what the record of a file says if it was built of these sources."""
    return sums(os.path.dirname(made), [os.path.basename(made)]) + sources


def is_current(made, sources):
    """Whether a file is there, and its record says that it was built of these sources."""
    try:
        with open(f"{made}.sha256", errors="replace") as file:
            return file.read() == record(made, sources)
    except OSError:
        return False


def keep(new, made, sources):
    """Puts a file that was built of these sources into its place, and then its record. A program that runs is replaced, and not written over."""
    os.makedirs(os.path.dirname(made), exist_ok=True)
    shutil.copy(new, f"{made}.new")
    os.replace(f"{made}.new", made)
    with open(f"{made}.sha256.new", "w") as file:
        file.write(record(made, sources))
    os.replace(f"{made}.sha256.new", f"{made}.sha256")


def remove(made):
    """Removes the record of a file that was built, and then the file, if they are there."""
    for path in (f"{made}.sha256", made):
        with contextlib.suppress(FileNotFoundError):
            os.remove(path)


@contextlib.contextmanager
def in_turn(made):
    """Waits while another run of a script builds this file."""
    os.makedirs(os.path.dirname(made), exist_ok=True)
    with open(f"{made}.lock", "w") as lock:
        try:
            fcntl.flock(lock, fcntl.LOCK_EX | fcntl.LOCK_NB)
        except BlockingIOError:
            say(f"waiting for another run, which builds {made}")
            fcntl.flock(lock, fcntl.LOCK_EX)
        yield


@contextlib.contextmanager
def work_folder(prefix):
    """Makes a folder among the temporary ones, and removes it at the end. What was ended may write there for a moment longer."""
    hold()
    folder = tempfile.mkdtemp(prefix=prefix)
    try:
        let_go()
        # rt runs what it built as another user.
        os.chmod(folder, 0o711)
        yield folder
    finally:
        hold()
        for _ in range(100):
            shutil.rmtree(folder, ignore_errors=True)
            if not os.path.exists(folder):
                break
            time.sleep(0.1)
        let_go()


@contextlib.contextmanager
def started(words, **how):
    """Starts a program in a group of its own, and ends the group if the program is still at work at the end."""
    hold()
    with subprocess.Popen(words, start_new_session=True, preexec_fn=let_go, **how) as program:
        try:
            let_go()
            yield program
        finally:
            hold()
            if program.poll() is None:
                os.killpg(program.pid, signal.SIGTERM)
                program.wait()
                with contextlib.suppress(ProcessLookupError):
                    os.killpg(program.pid, signal.SIGKILL)
            let_go()


def files_of_tools(top):
    """Returns the paths of the files of the tools that cargo reads to build them."""
    packages = [name for name in os.listdir(f"{top}/tools") if os.path.exists(f"{top}/tools/{name}/Cargo.toml")]
    files = [path for package in packages for path in files_in(top, f"tools/{package}", "tests")]
    return ["tools/Cargo.toml", "tools/Cargo.lock", *files]


def build_by_cargo(package, name, text):
    """Has cargo build a package of the tools, tools/out/NAME, if it is missing or was built of other sources: from nothing, of a copy
    of the sources. Says this text first."""
    made = f"{TOP}/tools/out/{name}"
    if is_current(made, sums(TOP, files_of_tools(TOP))):
        return
    if not shutil.which("cargo"):
        fail("cargo, which builds the tools, is not on the PATH", NOT_THERE)
    with in_turn(made), work_folder("fcbench-cargo-") as folder:
        copy(files_of_tools(TOP), folder)
        sources = sums(folder, files_of_tools(folder))
        if is_current(made, sources):
            return
        say(text)
        words = ["cargo", "build", "--release", "--offline", "--quiet", "--target-dir", f"{folder}/target", "--package", package]
        with started(words, cwd=f"{folder}/tools") as cargo:
            if cargo.wait():
                sys.exit(NOT_BUILT)
        keep(f"{folder}/target/release/{name}", made, sources)
