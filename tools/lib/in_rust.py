"""The crate for Rust, as far as it is made of bindings/interface: its files of calls, which have a form with a budget beside one without it,
and in library.rs the declarations of the library, and which of its calls are those of sets, and which those of maps."""
import functools
import glob
import re

from call_docs import IN_PLACE, MOST, laid_out, renewed, with_docs
from crates import ROOT, text_of
from interface import name_of, text_of_kind, type_of

TYPES = {"uint64_t": "u64", "size_t": "usize", "uint32_t": "u32", "int64_t": "i64", "int": "c_int", "vbr_answer": "i32", "vbr_entry": "Pair", "vbr_found": "Found"}
TYPES.update({"vbr_handle": "Raw", "vbr_map_handle": "Raw", "vbr_shared_handle": "SharedRaw", "vbr_cursor": "Cursor", "vbr_incarnation": "Stands", "vbr_report": "ReportNumbers"})
# The files, each with its source in bindings/interface, whose calls it has, and of which kind it is, if its source is for both.
FILES = {"pass": ("pass", "PassOf"), "changing": ("changing", "PassOf"), "holding": ("holding", "PassOf"), "set": ("kinds", "Pass", "set"), "map": ("kinds", "MapPass", "map")}
LOANS = {"record_lent": "RecordLent", "cache_lent": "CacheLent"}
FILES.update({it: (it, LOANS.get(it)) for it in ("record_map", "record_lent", "cache", "cache_lent", "cache_loads", "cache_options")})
# What the comment of the form with a budget says of it, and where it has what the other form says.
WITHIN = {"within": "with a budget of its own", "within_keys": "each key with this budget", "within_calls": "each of whose calls has this budget"}
SECTIONS = {"Errors": "The same as for {}.", "Panics": "As {} does."}
CALL = re.compile(r"((?: +///.*\n)+)( +)%(within\w*) ?(.*)\n((?: +%       .*\n)*)((?: +#\[.*\n)*) +pub fn (\w+)_within\(([^;{]*?),?\s*steps: Steps,?\s*\)([^{]*) \{\n")
BY_LOAN = re.compile(r"^    %by_loan (\w+): (.*)\n", re.M)
METHOD = r"((?: +///.*\n)+)((?: +#\[.*\n)*) +pub fn {}(<\w+>)?\(&(?:mut )?self, (.*)\) -> (.*) \{{\n"
LENT = re.compile(r" +/// let (?:mut )?mine = (\w+)\.lend_wait\(\);\n")
EXAMPLE = re.compile(r"^( *//[/!]) ```(.*)\n((?:\1.*\n)*?)\1 ```\n", re.M)
LIBRARY = f"{ROOT}/bindings/rust/src/library.rs"
MADE = "    // tools/interface makes these of the headers.\n"


@functools.lru_cache(maxsize=None)
def exported():
    """The types and numbers of the crate."""
    return set(re.findall(r"\b[A-Z]\w*", " ".join(re.findall(r"^pub use .*?;", text_of(f"{ROOT}/bindings/rust/src/lib.rs"), re.M | re.S))))


def framed(it):
    """An example with the hidden lines that it lacks: what it uses, unless it says so itself, and its end, if it asks for answers."""
    begin, how, body = it.groups()
    if how:
        return it[0]
    code = re.sub(f"^{begin}|//.*", "", body, flags=re.M)
    used = sorted(set(re.findall(r"(?<![:\w'])[A-Z]\w*", code)) & exported()) if "use vbr::" not in code else []
    uses = ["std::time::Duration"] * ("Duration::" in code and "use std::time" not in code)
    uses += [f"vbr::{{{', '.join(used)}}}" if len(used) > 1 else f"vbr::{it}" for it in used[:1]]
    end = [f"{begin} # Ok::<(), Box<dyn std::error::Error>>(())\n"] * ("?" in code and "Ok::<(), " not in code)
    return "".join([f"{begin} ```\n", *[f"{begin} # use {it};\n" for it in uses], body, *end, f"{begin} ```\n"])


def both_forms(it, owner):
    """The form of a call without a budget, and the comment and the head of the one with it."""
    comment, indent, mark, wanted, more, marks, name, given, returns = it.groups()
    link, given, refusal = f"[`{owner}::{name}`]", " ".join(given.split()), "Refusal::" * ("Refusal>" in returns)
    opening = (re.search(r"/// (let (?:mut )?handle = .*)", comment) or [""] * 2)[1]
    lines = [f"assert_eq!(handle.{name}_within({wanted}, Steps::new(1)), Err({refusal}OutOfSteps));"] if wanted else re.findall(" %       (.*)", more)
    if not any(" handle = " in it for it in lines):
        lines = [opening.replace("let mut ", "let ") if given.startswith("&self") else opening, *lines]
    said = [f"As {link}, {WITHIN[mark]}.", "", "```", *lines, "```"]
    for section, text in SECTIONS.items():
        said += ["", f"# {section}", "", text.format(link)] if f"/// # {section}\n" in comment else []
    passed, marks = re.findall(r"(?:^|, )(?:mut )?(\w+): ", given), f"{indent}#[inline]\n{marks}"
    body = f"{indent}    self.{name}_within({', '.join([*passed, 'self.steps()'])}){'' if returns else ';'}\n{indent}}}\n\n"
    within = "".join(f"{indent}/// {line}".rstrip() + "\n" for line in said) + marks + head(indent, f"{name}_within", f"{given}, steps: Steps", returns)
    return comment + marks + head(indent, name, re.sub(r"mut (?=\w+: )", "", given), returns) + body + within


def by_loan(name, loan, text):
    """A call of what lends, by a loan for it alone, with the comment, the example and the head that the loan's call has in this text."""
    comment, marks, types, given, returns = re.search(METHOD.format(name), text).groups()
    example, lent, link = EXAMPLE.search(comment), LENT.search(comment), f"[`{loan}::{name}`]"
    shown = LENT.sub("", example[0]).replace("mine.", f"{lent[1]}." if lent else "mine.")
    said = [comment[: example.start()], laid_out("    ", [f"It is {link}, by a loan for this call alone."]), f"    ///\n{shown}    ///\n"]
    said += [laid_out("    ", ["# Errors", f"The same as for {link}."]), marks.replace("    #[inline]\n", "")]
    begin = head("    ", f"{name}{types or ''}", f"&self, {given.replace('mut ', '')}", f" -> {returns}")
    passed = re.findall(r"(?:^|, )(?:mut )?(\w+): ", given)
    return "".join([*said, begin, f"        self.lend_wait().{name}({', '.join(passed)})\n    }}\n"])


def by_loans(it):
    """Such calls, of the file of the loan that a line names."""
    path = f"bindings/interface/{it[1]}.rs.in"
    text = with_docs(text_of(f"{ROOT}/{path}"), path)
    return "\n".join(by_loan(name, LOANS[it[1]], text) for name in it[2].split())


def head(indent, name, given, returns):
    """The head of a function, as cargo fmt lays it out."""
    line = f"{indent}pub fn {name}({given}){returns} {{\n"
    if len(line) <= MOST + 1:
        return line
    lines = "".join(f"{indent}    {it},\n" for it in re.split(r", (?=(?:mut )?\w+: )", given))
    return f"{indent}pub fn {name}(\n{lines}{indent}){returns} {{\n"


def number(prototype):
    """A call that returns a number of a set or a map, as a method."""
    name, returns, (handle, *given) = prototype
    this = "&self" if handle.startswith("const ") else "&mut self"
    given_here, passed = "".join(f", {name_of(it)}: {in_rust(type_of(it))}" for it in given), "".join(f", {name_of(it)}" for it in given)
    call = f"        // SAFETY: as for `has_within`.\n        unsafe {{ T::{constant_name(name)}(self.raw(){passed}) }}\n    }}"
    return f"    #[inline]\n    pub fn {name[4:]}({this}{given_here}){result(returns)} {{\n{call}"


def source(prototypes, name, owner, kind=None):
    """A file of the crate: of its source, for a kind if that is for both."""
    of = {it[0]: it for it in prototypes}
    path = f"bindings/interface/{name}.rs.in"
    text = with_docs(text_of_kind(text_of(f"{ROOT}/{path}"), kind), path)
    text = re.sub(r"^    %number (\w+)", lambda it: number(of[f"vbr_{it[1]}"]), text, flags=re.M)
    text = BY_LOAN.sub(by_loans, CALL.sub(lambda it: both_forms(it, owner), text))
    first, rest = EXAMPLE.sub(framed, text).split("\n", 1)
    return f"{first}\n// tools/interface makes this file of {path}.\n{rest}"


def in_rust(kind):
    """A type of C in the crate for Rust."""
    const, name, stars = re.match(r"(const )?(\w+) ?(\**)", kind).groups()
    return "*mut " * (len(stars) - 1) + ("" if not stars else "*const " if const else "*mut ") + TYPES[name]


def result(returns):
    return f" -> {in_rust(returns)}" if returns != "void" else ""


def declaration(prototype, visible):
    name, returns, given = prototype
    begin, end = f"    {visible}fn {name}(", f"){result(returns)};"
    given = [f"{name_of(it)}: {in_rust(type_of(it))}" for it in given]
    line = f"{begin}{', '.join(given)}{end}"
    if len(line) <= MOST:  # of a line that is full, cargo fmt has the result alone on the next one
        return line if len(line) < MOST else line.replace(") -> ", ")\n        -> ")
    return "\n".join([begin, *[f"        {it}," for it in given], f"    {end}"])


def constant(call, other, value):
    """The call of a kind as a constant of its type, without a value where that is none: what differs from the other kind's is an item."""
    (name, returns, given), (_, _, theirs) = call, other
    types = [[in_rust(type_of(it)) for it in each] for each in (given, theirs)]
    types = [one if one == its_like else re.sub("u64|Pair", "Self::Plain", one) for one, its_like in zip(*types)]
    begin, end = f'    const {constant_name(name)}: unsafe extern "C" fn(', f"){result(returns)}"
    line = f"{begin}{', '.join(types)}{end}"
    if len(line) + 2 > MOST:
        line = "\n".join([begin, *[f"        {it}," for it in types], f"    {end}"])
    if not value:
        return f"{line};\n"
    return f"{line} = {name};\n" if len(line.split("\n")[-1]) + len(name) + 4 <= MOST else f"{line} =\n        {name};\n"


def constant_name(name):
    return re.sub("^vbr_(map_)?|_within$", "", name).upper()


def constants(prototypes, others):
    """The calls that sets and maps have alike, as far as the crate uses them: of no kind, of sets, and of maps."""
    of, used = {it[0]: it for it in prototypes}, set(re.findall(r"\bT::([A-Z_]+)\b", others))
    both = [(it, of[of_map]) for name, it in of.items() if (of_map := name.replace("vbr_", "vbr_map_", 1)) in of and constant_name(name) in used]
    yield "".join(constant(it, other, False) for it, other in both)
    yield "".join(constant(it, other, True) for it, other in both)
    yield "".join(constant(other, it, True) for it, other in both)


def library_rs(prototypes, others):
    """The declarations of the calls that the other files name, visible where they do; and the constants of the trait that has both kinds."""
    text, parts = text_of(LIBRARY), constants(prototypes, others)
    block = re.compile(r'^extern "C" \{\n.*?^\}\n', re.M | re.S)
    text = re.sub(rf"({MADE})(?: {{4}}.*\n)*(?=\n)", lambda it: it[1] + next(parts), text)
    named, seen = set(re.findall(r"\bvbr_\w+", block.sub("", text))), set(re.findall(r"\bvbr_\w+", re.sub("//.*", "", others)))
    lines = "".join(declaration(it, "pub(crate) " if it[0] in seen else "") + "\n" for it in prototypes if it[0] in named | seen)
    return block.sub(lambda _: f'extern "C" {{\n{MADE}{lines}}}\n', text, count=1)


def files(prototypes):
    """What is made of the crate, by its path."""
    made = {f"{ROOT}/bindings/rust/src/{name}.rs": source(prototypes, *of) for name, of in FILES.items()}
    by_hand = {it: text_of(it) for it in sorted(glob.glob(f"{ROOT}/bindings/rust/src/*.rs")) if it != LIBRARY and it not in made}
    made.update({it: renewed(text, it[len(ROOT) + 1 :]) for it, text in by_hand.items() if IN_PLACE.search(text)})
    others = "\n".join({**by_hand, **made}.values())
    return {path[len(ROOT) + 1 :]: text for path, text in {**made, LIBRARY: library_rs(prototypes, others)}.items()}
