"""What an edit of wrong-bodies/ or wrong-statements/ says to change: the texts of the files that it makes of those of its crate.

    file: src/finding.rt         a file of src/, specs/ or proofs/
    in: find_by                  a function or a definition there; without this line the text is looked for in the whole file
    old: Some(found) => ..       a text of one line, which stands there once
    new: Some(_) => ..           what stands in its place

A line `in:` holds until the next `file:` or `in:`, and pairs of `old:` and `new:` are applied one after the other."""
import os
import re

import bodies
from crates import text_of

# the head of a definition in .antt: what kind it is, and its name
DEFINITION = re.compile(r"(?:(?:pub|abbrev|unfoldable|opaque|data|record) +)*(\S+)")


class Unfit(Exception):
    """Why an edit can't be applied."""


def pairs(text):
    """The pairs of an edit: the file, the function or definition if one is named, the old text and the new one."""
    path = name = old = None
    for line in text.split("\n"):
        kind, _, rest = line.partition(":")
        if kind == "file":
            path, name = rest.strip(), None
            if os.path.normpath(path) != path or not path.startswith(("src/", "specs/", "proofs/")):
                raise Unfit(f"{path} is no file below src/, specs/ or proofs/")
        elif kind == "in":
            name = rest.strip()
        elif kind == "old":
            old = rest[1:]
        elif kind == "new":
            if not path or not old:
                raise Unfit("a line 'new:' has no line 'file:' or 'old:' before it")
            yield path, name, old, rest[1:]
            old = None


def lines_of(path, text, name):
    """The numbers of the lines of the functions or definitions of this name."""
    if path.endswith(".rt"):
        return [number for it, header, body in bodies.spans(text) if it == name for number in range(header, body.stop + 1)]
    found, is_inside = [], False
    for number, line in enumerate(text.split("\n")):
        if line[:1].strip():
            is_inside = DEFINITION.match(line)[1] == name
        if is_inside:
            found.append(number)
    return found


def replaced(path, text, name, old, new):
    """The text of a file with one pair applied."""
    lines = text.split("\n")
    looked = range(len(lines)) if name is None else lines_of(path, text, name)
    if not looked:
        raise Unfit(f"{path} has no {name}")
    found = [number for number in looked for _ in range(lines[number].count(old))]
    if len(found) != 1:
        raise Unfit(f"the text of a line 'old:' stands {len(found)} times in {f'{name} of ' if name else ''}{path}, and not once: {old.strip()}")
    lines[found[0]] = lines[found[0]].replace(old, new)
    return "\n".join(lines)


def edited(text, folder):
    """The texts that the edit changes, by their paths in the crate, which stands in this folder."""
    texts, were = {}, {}
    for path, name, old, new in pairs(text):
        if path not in texts:
            if not os.path.isfile(f"{folder}/{path}"):
                raise Unfit(f"there is no file {path}")
            texts[path] = were[path] = text_of(f"{folder}/{path}")
        texts[path] = replaced(path, texts[path], name, old, new)
    if texts == were:
        raise Unfit("it changes nothing")
    return texts
