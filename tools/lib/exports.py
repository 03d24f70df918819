"""The exports of crates/vbr_c, and whether the interface for C declares each as it is: its name, its parameters by name and type, in
their order, and its result. What it does is said there alone: the comment of an export is the name of its call.

A slice is a pointer and how many there are, and the allocator of the kit is nothing. What a pointer may write, C may have as const. The
header calls a budget `steps`, and the number of a slice's items is named by what the call does with them."""
import glob
import re

from crates import ROOT, text_of
from interface import name_of

TYPES = {"u64": "uint64_t", "u32": "uint32_t", "i64": "int64_t", "i32": "vbr_answer", "Handle": "vbr_handle", "MapHandle": "vbr_map_handle", "Entry": "vbr_entry"}
TYPES.update({"Found": "vbr_found", "Incarnation": "vbr_incarnation", "ReportNumbers": "vbr_report", "HandleCursor": "vbr_cursor", "": "void"})


def exports():
    """The exports, each with its result and its parameters as C has them. A number of items has no name."""
    for path in sorted(glob.glob(f"{ROOT}/crates/vbr_c/src/*.rt")):
        for name, given, returns in re.findall(r'^pub extern "C" fn (\w+)\(([^)]*)\)(?: -> (\w+))?', text_of(path), re.M):
            parameters = [it for part in given.split(",") if part.strip() for it in in_c(*part.strip().split(": "))]
            yield name, TYPES[returns], parameters


def comments():
    """The exports with their comments."""
    for path in sorted(glob.glob(f"{ROOT}/crates/vbr_c/src/*.rt")):
        yield from re.findall(r'((?:^///.*\n)*)(?:^#.*\n)*^pub extern "C" fn (\w+)\(', text_of(path), re.M)


def in_c(name, kind):
    if name == "alloc":
        return []
    reference, item = re.match(r"(&mut |&|)\[?(\w+)\]?", kind).groups()
    name = "steps" if name == "budget" else name
    const = "const " if reference == "&" else ""
    return [f"{const}{TYPES[item]} {'*' if reference else ''}{name}", *(["size_t"] if "[" in kind else [])]


def is_declared(parameter, export):
    """Whether a parameter of a declaration is that of an export."""
    if export == "size_t":
        return parameter.startswith("size_t ")
    return parameter == export or parameter == f"const {export}" and "*" in export


def faults(header_prototypes, calls):
    """What isn't declared as it is exported, and what is declared and defined nowhere."""
    declared = {name: (returns, given) for name, returns, given in header_prototypes}
    for comment, name in comments():
        if name in declared and comment != f"/// `{name}` of vbr.h.\n":
            yield f"the comment of {name} in crates/vbr_c isn't: `{name}` of vbr.h"
    for call in calls:
        name, given = call.export()
        if call.is_hidden:
            declared[name] = call.returns, given
        elif call.proved_names:
            known = {name_of(it): it for it in given}
            declared[name] = call.returns, [known.get(it, f"size_t {it}") for it in call.proved_names]
    found = set()
    for name, returns, given in exports():
        found.add(name)
        if name not in declared:
            yield f"crates/vbr_c exports {name}, which isn't declared"
        elif declared[name][0] != returns or len(given) != len(declared[name][1]) or not all(map(is_declared, declared[name][1], given)):
            yield f"crates/vbr_c exports {name} as {returns} ({', '.join(given)}), and it is declared as {declared[name][0]} ({', '.join(declared[name][1])})"
    in_c_code = "\n".join(text_of(it) for it in glob.glob(f"{ROOT}/bindings/src/*.c"))
    for name in declared:
        if name not in found and not re.search(rf"^\w[\w *]*\b{name}\([^;{{]*\)\n\{{|^[A-Z_]+\({name}, ", in_c_code, re.M):
            yield f"{name} is declared, and neither crates/vbr_c nor a file of C in bindings/src has it"
