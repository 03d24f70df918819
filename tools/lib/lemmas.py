"""Where the lemmas are: the files of proofs/ that were written by hand for lemmas, crate by crate, and what each says of
itself in its first line. tools/lemmas prints them, and tools/docs-check judges the first lines.

A file is listed in the place that `mod` lines give it. A file that has only such lines stands for the folder of its name. The
folders in which the kit looks for the proof of a function aren't listed: they are named after the function."""
import os
import re

import crates

# How many words the first sentence of a file may have, and how wide its line may be.
WORDS, COLUMNS = 20, 120
# The files that the kit names, in the folder of a function or type.
OF_KIT = {"Answers", "Invariants", "Proof", "Send", "Sync"}
MODULE = re.compile(r"^(?:pub )?mod (\w+)$")


class File:
    """A file of lemmas: its path in proofs/, its first line, and its modules."""

    def __init__(self, crate, path):
        self.path, self.full = path, f"crates/{crate}/proofs/{path}.antt"
        self.lines = crates.text_of(f"{crates.ROOT}/{self.full}").split("\n")
        self.modules = [it[1] for it in map(MODULE.match, self.lines) if it]
        self.is_folder = bool(self.modules) and all(not it or it.startswith("--") or MODULE.match(it) for it in self.lines)
        self.head = self.lines[0][3:] if self.lines[0].startswith("-- ") else ""


def files_of(crate):
    """The files of a crate, each folder ahead of what is in it."""

    def below(path, names):
        for name in names:
            inner = f"{path}{name}"
            if os.path.isfile(f"{crates.ROOT}/crates/{crate}/proofs/{inner}.antt"):
                file = File(crate, inner)
                yield file
                yield from below(f"{inner}/", file.modules)

    root = f"{crates.ROOT}/crates/{crate}/proofs/Lib.antt"
    if os.path.isfile(root):
        return list(below("", File(crate, "Lib").modules))
    # the folder of a module of src/ may have lemmas beside its functions
    folder = f"{crates.ROOT}/crates/{crate}/proofs"
    tops = sorted(it[:-5] for it in os.listdir(folder) if it.endswith(".antt")) if os.path.isdir(folder) else []
    return list(below("", tops))


def faults():
    """What is wrong with first lines: (path, line, what)."""
    for crate in crates.all_crates():
        for file in files_of(crate):
            if not file.head:
                yield file.full, 1, "its first line has no comment: what are its lemmas about?"
            elif not file.head.endswith(".") or re.search(r"\w\. [A-Z`]", file.head):
                yield file.full, 1, "its first line isn't one sentence"
            elif len(file.head.split()) > WORDS or len(file.lines[0]) > COLUMNS:
                yield file.full, 1, f"its first sentence has {len(file.head.split())} words on a line of {len(file.lines[0])} columns: {WORDS} and {COLUMNS} are enough"


def listed(crate):
    """The list of a crate, as rows of a table."""
    rows = []
    for file in files_of(crate):
        name = file.path.rsplit("/", 1)[-1]
        if file.is_folder:
            rows.append(f"| **`{crate}/proofs/{file.path}`** | **{file.head}** |")
        elif name not in OF_KIT:
            rows.append(f"| `{name}.antt` | {file.head} |")
    return rows


def page():
    """The lists of all crates that have lemmas, the lowest first."""
    parts = []
    for crate in crates.all_crates():
        rows = listed(crate)
        if rows:
            parts.append("\n".join([f"## {crate}", "", f"`crates/{crate}/proofs` has, in the order of its modules:", "", "| File | Its lemmas |", "|---|---|", *rows]))
    return "\n\n".join(parts)
