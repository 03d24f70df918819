"""Which public items of a crate have no doc comment. Public is what a user can name: what is `pub` in lib.rt, in the modules that
`pub mod` leads to, and in those from which lib.rt passes something on by `pub use`."""
import os
import re

ITEM = re.compile(r'^ *pub (?:extern "C" )?(?:fn|struct|enum|const|trait|type) (\w+)')
PASSED_ON = re.compile(r"^pub use (?:crate::)?(\w+)::(\{[^}]*\}|\w+);", re.M)


def is_public(folder, path, sources):
    """Whether `pub mod` leads from lib.rt to a file."""
    place = os.path.relpath(path, folder)[:-3].split("/")
    if place == ["lib"]:
        return True
    above = ["lib", *("/".join(place[: k + 1]) for k in range(len(place) - 1))]
    return all(re.search(rf"^pub mod {name}\b", sources.get(f"{folder}/{file}.rt", ""), re.M) for file, name in zip(above, place))


def passed_on(folder, sources):
    """The files from which lib.rt passes something on."""
    return {f"{folder}/{module}.rt" for module, _ in PASSED_ON.findall(sources.get(f"{folder}/lib.rt", ""))}


def has_comment(lines, index):
    """Whether a doc comment stands before an item, ahead of its attributes."""
    index -= 1
    while index >= 0 and re.match(r"\s*#\[|.*\)\]$", lines[index]):
        index -= 1
    return index >= 0 and lines[index].lstrip().startswith("///")


def undocumented(folder, sources):
    """The public items of a crate without a doc comment, and its files with tests that don't say what these are of: (path, line, what)."""
    on = passed_on(folder, sources)
    for path, text in sources.items():
        lines, public = text.split("\n"), path in on or is_public(folder, path, sources)
        if "#[test]" in text and not lines[0].startswith("//! "):
            yield path, 1, "its first line doesn't say what it tests"
        for index, line in enumerate(lines):
            item = ITEM.match(line)
            if item and public and not has_comment(lines, index):
                yield path, index + 1, f"{item[1]} is public and has no doc comment"
