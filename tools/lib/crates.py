"""The crates of this repository, as crates.txt lists them and their folders have them."""
import hashlib
import os
import re

ROOT = os.path.dirname(os.path.dirname(os.path.dirname(os.path.abspath(__file__))))


class Crate:
    def __init__(self, name, named):
        self.name, self.named, self.deps = name, named, []
        self.folder = f"{ROOT}/crates/{name}"
        self.is_program = os.path.isfile(f"{self.folder}/src/main.rt")

    def below(self):
        """The crates that it stands on, the lowest first."""
        found = []
        for dep in self.deps:
            found += [it for it in [*dep.below(), dep] if it not in found]
        return found

    def files(self):
        """The files that its proof reads."""
        for part in ("src", "specs", "proofs"):
            for folder, folders, names in os.walk(f"{self.folder}/{part}"):
                folders.sort()
                yield from (f"{folder}/{name}" for name in sorted(names))

    def texts(self):
        """What its proof reads: the files, by their paths in it, and their texts."""
        return [(os.path.relpath(path, self.folder), text_of(path)) for path in self.files()]

    def lines(self):
        return sum(text_of(it).count("\n") for it in self.files())

    def lines_compiled(self):
        """How much code is compiled where its tests or its program are run: its own lines, and those of the crates below."""
        return sum(text_of(it).count("\n") for crate in [*self.below(), self] for it in crate.files() if it.endswith(".rt"))

    def has_tests(self):
        return any(re.search(r"#\[test\]", text_of(it)) for it in self.files() if it.endswith(".rt"))

    def edits(self):
        """Its edits that the prover must refuse, by their paths in it: those that the kit tries, and those that tools/edits does."""
        folders = [it for it in ("must-fail", "wrong-bodies", "wrong-statements") if os.path.isdir(f"{self.folder}/{it}")]
        return [f"{folder}/{it}" for folder in folders for it in sorted(os.listdir(f"{self.folder}/{folder}")) if it.endswith(".edit")]

    def stream(self, name):
        """What its program is given or has to print: the files stdin, stdout, args and status beside src/, or nothing."""
        try:
            with open(f"{self.folder}/{name}", "rb") as it:
                return it.read()
        except FileNotFoundError:
            return b""

    def arguments(self):
        return self.stream("args").decode().splitlines()

    def status(self):
        return int(self.stream("status") or b"0")

    def data(self):
        """The files of its folder data/, which its program is run in."""
        folder = f"{self.folder}/data"
        return [f"{folder}/{it}" for it in sorted(os.listdir(folder))] if os.path.isdir(folder) else []


def text_of(path):
    with open(path, encoding="utf-8", errors="replace") as it:
        return it.read()


def write_text(path, text):
    """Writes a file, with the folders that it is in."""
    os.makedirs(os.path.dirname(path) or ".", exist_ok=True)
    with open(path, "w", encoding="utf-8") as it:
        it.write(text)


def sum_of(parts):
    """A sum that tells whether something of this has changed."""
    return hashlib.sha256("\0".join(map(str, parts)).encode()).hexdigest()


def lines_of(crates):
    """The lines of crates.txt that list these crates."""
    names = {it.name for it in crates}
    return "".join(it for it in text_of(f"{ROOT}/crates.txt").splitlines(True) if re.split("[ :]", it)[0] in names)


def all_crates():
    """All crates by name, in the order of crates.txt, which has each behind those that it stands on."""
    found = {}
    for line in text_of(f"{ROOT}/crates.txt").split("\n"):
        head, _, deps = line.partition("#")[0].partition(":")
        for name in head.split()[:1]:  # what else stands there is its kind
            found[name] = Crate(name, deps.split())
    for it in found.values():
        it.deps = [found[name] for name in it.named if name in found]
    return found


def with_below(crates):
    """These crates and all that they stand on, the lowest first."""
    found = []
    for it in crates:
        found += [dep for dep in [*it.below(), it] if dep not in found]
    return found
