"""The bodies of functions in a source file, by the layout of `rt fmt`: a body ends at the column where its function begins."""
import difflib
import os
import re

HEADER = re.compile(r'\s*(pub(\([^)]*\))? )?((const|unsafe|extern "C") )*fn (\w+)')


def spans(text):
    """The functions of a file: of each its name, the line of its header, and the lines of its body, from its first to behind its
    last. What isn't laid out so has none."""
    found, header, body = [], None, None
    for number, line in enumerate(text.split("\n")):
        indent = len(line) - len(line.lstrip())
        if body is not None:
            if line == " " * header[2] + "}":
                found.append((header[0], header[1], range(body, number)))
                header = body = None
            continue
        named = HEADER.match(line)
        if named:
            header = named[5], number, indent
        if header and header[2] == indent and line.endswith("{"):
            body = number + 1
        elif header and header[2] == indent and line.endswith((";", "}")):
            header = None
    return found


def without_bodies(text):
    """A source file without the bodies of its functions. What isn't laid out by `rt fmt` is kept, and counts as a statement."""
    inside = {number for _, _, body in spans(text) for number in (*body, body.stop)}
    return "\n".join(line for number, line in enumerate(text.split("\n")) if number not in inside)


def changed_bodies(was, now):
    """The functions of a file, as name and line, whose bodies differ, if nothing else of the file does but what it imports; else none."""
    plain = [re.sub(r"(?m)^use .*\n", "", without_bodies(it)) for it in (was, now)]
    if plain[0] != plain[1]:
        return None
    lines = set()
    for kind, first, behind, _, _ in difflib.SequenceMatcher(None, was.split("\n"), now.split("\n"), autojunk=False).get_opcodes():
        if kind != "equal":
            lines.update(range(first, max(behind, first + 1)))
    return {(name, header) for name, header, body in spans(was) if any(it in body or it == body.stop for it in lines)}


def is_answer(path):
    """Whether a file of proofs is of one function's proof, which no statement names."""
    return os.path.basename(path) in ("Answers.antt", "Invariants.antt", "Proof.antt")
