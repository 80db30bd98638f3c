"""Where the repository is, and the one-line refusal that all commands of this package share."""
import pathlib
import signal
import sys

TOP = pathlib.Path(__file__).resolve().parent.parent.parent


class Refused(Exception):
    """A command has no result; the text is one line that says why."""


def run(main, name):
    """Runs a command and exits with its status; a refusal, a missing file or Ctrl-C becomes one line and status 1."""
    signal.signal(signal.SIGTERM, signal.default_int_handler)
    try:
        sys.exit(main())
    except Refused as refusal:
        sys.exit(f"{name}: {refusal}")
    except OSError as fault:
        sys.exit(f"{name}: {fault.filename or 'output'}: {fault.strerror}")
    except KeyboardInterrupt:
        sys.exit(f"{name}: stopped; the same command goes on from here")


def report(name, faults, summary):
    """Prints each fault and then a line of counts, and returns the exit status."""
    for fault in faults:
        print(fault)
    print(f"{name}: {summary}, {len(faults)} faults")
    return 1 if faults else 0
