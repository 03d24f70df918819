"""The interface for C, from the source that has each call once, for sets and for maps: bindings/interface/vbr.h.in.

The source reads as the header does, and its first lines say what its marks mean. Here it is read, and laid out as the header."""
import re
import sys
import textwrap

import sections
from crates import ROOT, text_of

KINDS = ("set", "map")
MARKS = ("within", "proved", "shim", "drawn", "named", "was", "tsan", "hidden")
PROTOTYPE = re.compile(r"^(?=\w)((?:VBR_NODISCARD |VBR_NONNULL )*)(static inline )?([\w ]+?[ *]+)(vbr_\w+)\(([^{;]*?)\)((?:[A-Z_ ]|\(\"\w+\"\))*)[;{]", re.M)

# Around what calls a function by its old name.
NO_WARNING = "#ifdef __GNUC__", "#pragma GCC diagnostic push", '#pragma GCC diagnostic ignored "-Wdeprecated-declarations"', "#endif"
WARNINGS = "#ifdef __GNUC__", "#pragma GCC diagnostic pop", "#endif"


class Call:
    """A call of a set or of a map: its declaration, its comment, and what else is made of it."""

    def __init__(self, head, comment, said, columns, is_defined=False):
        self.columns, self.comment, self.is_defined = columns, comment, is_defined  # by the header itself
        self.marks, _, returns, self.name, given, self.attributes = head.groups()
        self.returns, self.given = returns.strip(), parameters(given)
        self.within, *self.example = said.get("within", [None])
        self.tsan, self.shim, self.drawn, self.is_hidden = said.get("tsan"), said.get("shim"), said.get("drawn"), "hidden" in said
        self.named, self.was = said.get("named", [None])[0], said.get("was", [None])[0]
        proved, _, names = said.get("proved", [""])[0].partition("(")
        self.proved, self.proved_names = proved, names.rstrip(")").split(", ") if names else None

    def export(self):
        """The name and the parameters of the function of the library: with a budget, if the call may be given one."""
        return (self.was or self.name, self.given) if self.within is None else (f"{self.name}_within", [*self.given, "uint32_t steps"])


def parameters(text):
    return [] if text == "void" else [" ".join(it.split()) for it in text.split(",")]


def name_of(parameter):
    return re.search(r"\w+$", parameter)[0]


def type_of(parameter):
    return parameter[: -len(name_of(parameter))]


def of_kind(text, kind):
    """A text as it is for a set, or for a map."""
    at = KINDS.index(kind)
    return re.sub(r"\{([^{}|]*)\|([^{}|]*)\}", lambda it: it[1 + at], text.replace("@", ("", "map_")[at]))


def blocks(source):
    """The source in blocks: the mark that each begins with, how many columns it has, and its lines."""
    how, columns, lines = "end", 0, []
    for line in source.split("\n"):
        mark = re.match(r"%(each|pairs|twice|end|inline)\b *(\d*)$", line)
        if mark:
            yield how, columns, lines
            how, columns, lines = mark[1], int(mark[2] or 0), []
        elif not line.startswith("%%"):
            lines.append(line)
    yield how, columns, lines


def items(lines):
    """The items of a block, which blank lines divide that aren't in a comment."""
    item, is_comment = [], False
    for line in lines:
        is_comment = (is_comment or line.startswith("/*")) and "*/" not in line
        if line or is_comment:
            item.append(line)
        elif item:
            yield item
            item = []
    if item:
        yield item


def lines_of(item, kind):
    """The lines of an item that are for this kind."""
    at = "both"
    for line in item:
        if line in ("%set", "%map", "%both"):
            at = line[1:]
        elif at in ("both", kind):
            yield line


def text_of_kind(source, kind):
    """A source that has no blocks, as it is for a set, or for a map; for neither, where it has no marks of kinds."""
    lines = [it for it in source.split("\n") if not it.startswith("%%")]
    return "\n".join(of_kind(it, kind) for it in lines_of(lines, kind)) if kind else "\n".join(lines)


def comment_of(lines, kind, columns):
    """A comment: sections, and prose that has marks, are filled, and all else stays as it is laid out."""
    laid = []
    for part in "\n".join(lines).split("\n\n"):
        found = sections.pieces(re.sub(r"^/\*", "", part))
        if part.startswith("       ") or of_kind(part, kind) == part and len(found) == 1:
            laid.append("\n".join(of_kind(it, kind) for it in part.split("\n")))
        else:
            laid.append("\n".join(piece(mark, of_kind(text, kind), columns, laid) for mark, text in found if mark or text))
    return "\n\n".join(laid)


def piece(mark, text, columns, before=True):
    """A piece of a comment: a sentence, a section or an item of it, with the mark that it begins with."""
    begin = "   " if before else "/* "
    if mark:
        begin = "   - " if mark == "-" else f"   {mark}: " if text else f"   {mark}:"
    return fill(text, columns, begin, "     " if mark == "-" else "   ") if text else begin


def fill(text, columns, begin="/* ", more="   "):
    return textwrap.fill(text, columns, initial_indent=begin, subsequent_indent=more, break_long_words=False, break_on_hyphens=False)


def declaration(begin, given, end, columns):
    """A declaration, whose further lines begin below its first parameter."""
    lines = [begin]
    given = given or ["void"]
    for number, it in enumerate(given):
        more = it + ("," if number + 1 < len(given) else end)
        if number and len(lines[-1]) + 1 + len(more) > columns:
            lines.append(" " * len(begin) + more)
        else:
            lines[-1] += " " * (number > 0) + more
    return "\n".join(lines)


def parts_of(item, kind):
    """The parts of an item for this kind: what its marks say, the lines of its comment, and the other ones."""
    said, comment, rest, last = {}, [], [], []
    for line in lines_of(item, kind):
        if line.startswith("%       "):
            last.append(of_kind(line[8:], kind))
        elif line.startswith("%"):
            mark, _, text = line[1:].partition(" ")
            if mark not in MARKS:
                sys.exit(f"bindings/interface: there is no mark %{mark}")
            last = said.setdefault(mark, [])
            last += [of_kind(text.strip(), kind)] if text else []
        elif not rest and (line.startswith("/*") or comment and "*/" not in comment[-1]):
            comment.append(line)
        else:
            rest.append(of_kind(line, kind))
    return said, comment, rest


def read_item(item, kind, columns):
    """An item for this kind: its text, and its call if it declares or defines one. Nothing, where it has no line for the kind."""
    said, comment, rest = parts_of(item, kind)
    comment = [comment_of(comment, kind, columns)] if comment else []
    head = PROTOTYPE.match(rest[0]) if rest else None
    if head and rest[0].endswith(";"):
        call = Call(head, "".join(comment), said, columns)
        return text_of_call(call), call
    if head:  # of a function that the header defines
        begin, end = f"{head[1]}{head[2] or ''}{head[3]}{head[4]}(", f"){head[6]}{{"
        rest[0] = declaration(begin, parameters(head[5]), end, columns)
        return "\n".join([*comment, *rest]), Call(head, "".join(comment), said, columns, is_defined=True)
    return "\n".join([*comment, *rest]), None


def text_of_call(call):
    """A call as the header has it; where it may be given a budget, the form that is given none, and then that one."""

    def declared(name, given, inline=""):
        begin = f"{call.marks}{inline}{spaced(call.returns)}{name}("
        return declaration(begin, given, f"){call.attributes.rstrip()};", call.columns)

    if call.is_hidden:
        return ""
    if call.was:
        old = declared(call.was, call.given)[:-1] + f' VBR_DEPRECATED("{call.name}"); /* the old name, for one version */'
        return f"{call.comment}\n{declared(call.name, call.given, 'static inline ')}\n{old}"
    if call.within is None:
        return f"{call.comment}\n{declared(call.name, call.given)}"
    prose = f"{call.within} within a budget of `steps`{' for each key' if call.returns == 'void' else ''}, as {call.name} does."
    example = "\n".join(f"       {it}" for it in call.example)
    within = f"{fill(prose, call.columns)}\n\n{example} */\n{declared(*call.export())}"
    return f"{call.comment}\n{declared(call.name, call.given, 'static inline ')}\n\n{within}"


def spaced(returns):
    return returns if returns.endswith("*") else returns + " "


def body_of_call(call):
    """The form without a budget, or that with the new name."""
    begin = declaration(f"static inline {spaced(call.returns)}{call.name}(", call.given, ") VBR_NOEXCEPT {", call.columns)
    steps = "vbr_map_steps_of" if call.name.startswith("vbr_map_") else "vbr_steps_of"
    returns = "" if call.returns == "void" else "return "
    made = f"{call.was}({', '.join(map(name_of, call.given))})" if call.was else f"{call.name}_within({', '.join([*map(name_of, call.given), f'{steps}(handle)'])})"
    return f"{begin}\n    {returns}{made};\n}}"


def made(source):
    """The header, and its calls in their order, of a set and of a map."""
    text, calls = [], []
    for how, columns, lines in blocks(source):
        if how in ("end", "inline"):
            if how == "inline":
                text += [*[body_of_call(it) for it in calls if it.within], "", *NO_WARNING, *[body_of_call(it) for it in calls if it.was], *WARNINGS]
            text += lines
            continue
        if how == "twice":
            text.append("\n\n".join(text_of_kind("\n".join(lines), kind).strip("\n") for kind in KINDS))
            continue
        listed = list(items(lines))
        order = [(it, kind) for kind in KINDS for it in listed] if how == "each" else [(it, kind) for it in listed for kind in KINDS]
        read = [read_item(it, kind, columns) for it, kind in order]
        text.append("\n\n".join(it for it, _ in read if it))
        calls += [it for _, it in read if it]
    return "\n".join(text), calls


def header_and_calls(name, of_c=True):
    """A header, and its calls, from its source in bindings/interface; or as the crate for Rust has them, without what is of C alone."""
    source = text_of(f"{ROOT}/bindings/interface/{name}.in")
    return made(re.sub("</?c>", "", source) if of_c else re.sub("<c>.*?</c>", "", source, flags=re.S))


def prototypes(header):
    """The functions of the library that a header declares, without those that it defines: name, type of the result, parameters."""
    header = re.sub(r"/\*.*?\*/", "", header, flags=re.S)
    for _, is_inline, returns, name, given, _ in PROTOTYPE.findall(header):
        if not is_inline and "typedef" not in returns:
            yield name, " ".join(returns.split()), parameters(given)


def examples(headers):
    """The lines of the example of each call, by its name."""
    told = re.findall(r"^/\* ((?:(?!\*/).)*?) ?\*/\n[^\n(]*?(vbr_\w+)\(", "\n".join(headers), re.M | re.S)
    return {name: re.findall(r"^       (.+?) ?$", comment, re.M) for comment, name in told}


def with_examples(text, of):
    """A client in C, which has the examples of calls in place of the marks that name them."""
    return re.sub(r"^( *)%example (.*)", lambda it: "\n".join(it[1] + line for name in it[2].split() for line in of[f"vbr_{name}"]), text, flags=re.M)
