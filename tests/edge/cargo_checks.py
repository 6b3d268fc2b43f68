"""The tools as a workspace of Rust: how they are built, their own tests, their layout, and what the compiler warns of. cargo needs no network:
they use no library but std."""
import shutil
import subprocess

from .running import ROOT

TOOLS = f"{ROOT}/tools"
CHECKS = (
    ("test", "--workspace", "--quiet"),
    ("fmt", "--all", "--check"),
    ("clippy", "--workspace", "--all-targets", "--quiet", "--", "-D", "warnings"),
)
# What cargo needs for a check beside itself, with Debian's package of it.
NEEDED = {"fmt": ("rustfmt", "rustfmt"), "clippy": ("cargo-clippy", "rust-clippy")}


def built():
    """The path of the tools, built where that is needed."""
    subprocess.run([f"{TOOLS}/build"], check=True)
    return f"{TOOLS}/out/fcbench-tools"


def cargo(command, *words):
    """Runs a command of cargo on the tools. cargo fmt looks nothing up, and takes no --offline."""
    offline = () if command == "fmt" else ("--offline",)
    return subprocess.run(["cargo", command, *offline, *words], cwd=TOOLS, capture_output=True, text=True)


def rust_of_tools(program, report):
    """The tests of the tools pass, their layout is that of rustfmt, and clippy warns of nothing."""
    skipped = []
    for command, *words in CHECKS:
        name, package = NEEDED.get(command, ("cargo", "cargo"))
        if not shutil.which(name):
            skipped.append(f"cargo {command}: SKIPPED: missing, apt-get update; apt-get install -y {package}")
            continue
        ran = cargo(command, *words)
        report.equal(f"tools: cargo {command}", 0, ran.returncode, ran.stdout[-3000:] + ran.stderr[-3000:])
    ran = cargo("metadata", "--format-version=1", "--no-deps", "--quiet")
    report.holds("tools: no library but std", '"source":"' not in ran.stdout and ran.returncode == 0, ran.stderr)
    return "; ".join(skipped)


PARTS = (rust_of_tools,)
