"""What the tests in Python have in common: `holds` for each case, and `conclude` at the end."""
import os
import sys

ROOT = os.path.dirname(os.path.dirname(os.path.dirname(os.path.abspath(__file__))))
TEST = os.path.relpath(os.path.abspath(sys.argv[0]), ROOT)
cases, faults = 0, 0


def fault(what):
    """Says what failed, counts it, and goes on."""
    global faults
    faults += 1
    print(f"{TEST}: FAILED: {what}", file=sys.stderr)


def holds(what, is_so):
    """Counts a case, which fails where it isn't so."""
    global cases
    cases += 1
    if not is_so:
        fault(what)


def conclude(passed):
    """The exit status of the test, which prints this line where nothing failed."""
    if not faults:
        print(passed)
    return 1 if faults else 0
