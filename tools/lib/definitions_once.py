"""One name, one meaning: a public definition of specs/ has a name that no other file of specs/ has for one of its own. So a name
says which definition is meant in whatever crate it stands. tools/docs-check reads it:

- a name that two files define is a finding: let the upper one cite the lower one, or give one of them another name;
- so is a definition that has the name of a constructor (a case of a `data`) of another file."""
import re

SPEC = re.compile(r"crates/\w+/specs/.*\.antt$")
DEFINITION = re.compile(r"\s*((?:(?:abbrev|unfoldable|record|data|pub) )+)([^\s:({\[]+)")
CASE = re.compile(r"\s+([^\W\d]\S*) :")


def defined_in(text):
    """The public definitions of a file, and its constructors: (name, line, whether it is a constructor)."""
    in_data = False
    for number, line in enumerate(text.split("\n"), 1):
        found = DEFINITION.match(line)
        words = found[1].split() if found else []
        if in_data and not found and (case := CASE.match(line)):
            yield case[1], number, True
            continue
        in_data = "data" in words or in_data and line.startswith(" ")
        # a field of a record is public and stands indented; a definition of a module with parameters has its kind before it
        is_field = line.startswith(" ") and not {"abbrev", "record", "data", "unfoldable"} & set(words)
        if "pub" in words and found[2] not in ("mod", "use") and not is_field:
            yield found[2], number, False


def check(texts):
    """What has a name that another file has: [(path, line, what)]."""
    places = {}
    for path, text in texts.items():
        for name, line, is_case in defined_in(text) if SPEC.match(path) else ():
            places.setdefault(name, []).append((path, line, is_case))
    for name, found in places.items():
        definitions = [it for it in found if not it[2]]
        for path, line, _ in definitions:
            other = next((it for it in found if it[0] != path), None)
            if other:
                yield path, line, f"{name} is defined in {other[0]}:{other[1]} too: cite that one, or give this another name"
