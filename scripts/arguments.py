"""The command line of a script: its help, arguments that it refuses, and its end if its output is cut."""
import os
import signal
import sys


def arguments_or_exit(doc, are_known):
    """Returns the arguments of a script. Prints `doc` on `--help`; refuses others with 64. If the output is cut, as by head, the script ends
    without a message."""
    signal.signal(signal.SIGPIPE, signal.SIG_DFL)
    arguments = sys.argv[1:]
    if arguments[:1] in (["-h"], ["--help"]):
        print(doc)
        sys.exit()
    if not are_known(arguments):
        fault = f"unknown arguments: {' '.join(arguments)}" if arguments else "an argument is missing"
        print(f"{os.path.basename(sys.argv[0])}: {fault}\n\n{doc}", file=sys.stderr)
        sys.exit(64)
    return arguments
