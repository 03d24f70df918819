"""The tests and programs of the crates, as tasks of side_by_side.py."""
import sys

import side_by_side
from crates import ROOT
from kit import RT

# a test that isn't proved runs with checks, which takes longer
SECONDS = "300"
# so many lines are compiled while one is proved
COMPILED = 4


def unproved(crate):
    """What runs of a crate without a proof: its tests, and its program."""
    work = crate.lines_compiled() // COMPILED
    if crate.has_tests():
        words = [RT, "try", "--test", "--seconds", SECONDS]
        yield side_by_side.Task(f"{crate.name}-tests", lambda jobs: words, work=work, memory=2e9, cwd=crate.folder, what="run, not proved", alone=True)
    if crate.is_program:
        words_of_program = [sys.executable, f"{ROOT}/tools/play", crate.name]
        yield side_by_side.Task(f"{crate.name}-run", lambda jobs: words_of_program, work=work, memory=2e9, what="run, not proved", alone=True)


def played(crate, after=()):
    """The run of a program that is built."""
    words = [sys.executable, f"{ROOT}/tools/play", crate.name, f"{crate.folder}/out/{crate.name}"]
    return side_by_side.Task(f"{crate.name}-run", lambda jobs: words, after, what="run", alone=True)
