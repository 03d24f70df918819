"""What is tried of the library and the program once they stand in target/, as tasks of side_by_side.py."""
import side_by_side


def trial(name, words, *after, what="passed"):
    return side_by_side.Task(name, lambda jobs: words, after, what=what, alone=True)


def clients(library, *settings):
    """The clients, so many at a time as they are given jobs. They are the longest trial, so they come before others that can begin."""
    words = lambda jobs: ["env", f"RT_JOBS={jobs}", *settings, "bindings/test"]
    return side_by_side.Task("clients", words, [library], most=side_by_side.processors(), work=5, what="passed", alone=True)


def short(library, program):
    """The trials of `make test`. The library and the program stand in target/ after the tasks of these names."""
    return [
        trial("tools", ["tests/tools"]),
        trial("headers", ["bindings/headers"]),
        clients(library),
        trial("streams", ["tests/program", "target/vbr_run"], program),
        trial("scripts", ["tests/four-workers", "target/vbr_run"], program),
        trial("kept-inputs", ["tests/fuzz/run", "--kept"], library, program),
    ]


def long(library):
    """The trials of the gate, which leaves the program in target/, and the tests of vbr_set_tests as they were built."""
    return [
        trial("tools", ["tests/tools"]),
        trial("headers", ["bindings/headers"]),
        clients(library, "SOAK=100000000", "REALTIME=20000000"),
        trial("faults", ["tests/faults"]),
        trial("kept-inputs", ["tests/fuzz/run", "--kept"], library),
        trial("inputs", ["tests/fuzz/run", "300000", "20000"], "kept-inputs"),
        trial("instructions", ["bench/instructions", "--gate"], library),
    ]


def skipped(tasks):
    """The lines in which trials say what this machine lacks for a part of them."""
    return [line for it in tasks for line in it.text().split("\n") if line.startswith("skipped: ")]
