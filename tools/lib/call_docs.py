"""What comments in Rust and in C++ have of the comments in C: the sections of a call, with the names that its answers have there.

A source of the crate, or of a header for C++, has lines for it; pass.rs.in and vbr.hpp.in say how they are written. They are of the call
without what stands between <c> and </c>. What C++ and Rust have and C has not is said once, in cpp_and_rust.in and of caches in caches.in.
The function that follows says which names there are: those of its result stand for answers, and those of its error for refusals. A file of
the crate that isn't made otherwise has such a line as a comment that isn't one of rustdoc, ahead of what is made of it, and `// %end` after
that."""
import functools
import re
import sys
import textwrap

import interface
import sections
from crates import ROOT, text_of

MOST, CPP_MOST = 126, 138  # columns of bindings/rust/rustfmt.toml, and of comments in vbr.hpp
HEADERS = "vbr.h", "vbr_lend.h", "vbr_records.h", "vbr_shared.h"
BESIDES = [f"{ROOT}/bindings/interface/{it}.in" for it in ("cpp_and_rust", "caches")]
MARK = re.compile(r"^( *)%(doc|errors|answer) ([\w.]+)(?:: (.*))?\n", re.M)
IN_PLACE = re.compile(r"^( *)// (%(?:doc|errors|answer) .*)\n(?: *///.*\n)*\1// %end\n", re.M)
DEFINE = re.compile(r"(/\*(?:(?!\*/).)*\*/)\n#define (VBR_\w+) ", re.S)
TYPE = re.compile(r"(/\*(?:(?!\*/).)*\*/)\ntypedef struct (\w+) \{\n(.*?)^\}", re.M | re.S)
FIELD = re.compile(r"(\w+);\s*/\* (.*?) \*/")
SAID = re.compile(r"^%said (\w+)\n(.*?)(?=^%said |\Z)", re.M | re.S)
IN_CPP = re.compile(r"^( *?)(/\* |   )%doc ([\w.]+)(?:: ([\w ]+))?\n((?:(?!.*\*/).+\n)*)(?=\n(?:.*\n)*?.*\*/\n *(?:template <.*>\n *)?(?:static )?(?:result<(bool|std::optional)|(found) )?)", re.M)
FIELD_IN_CPP = re.compile(r"%doc ([\w.]+)(?=(?:;.*)? \*/)")
ITEM_IN_CPP = re.compile(r"^( *   - \w+: )%doc (\w+)$", re.M)
HEAD = re.compile(r"^ *(?:%number |pub (?:(?:const |unsafe )?fn|const|type|struct|enum) ([^{;]*))", re.M)
# The answers that aren't refusals, by the result that has them. A call that gives a number or nothing has them in words.
ANSWERS = {"bool": ("`true`", "`false`"), "Option": ("`Some`", "`None`"), "Result": ("`Ok(())`", "`Err` of the slot")}
ANSWERS["Inherited"] = "[`Inherited::Whole`]", "[`Inherited::WithoutSlots`]"
COMPARED = {"VBR_YES": "[`Compared::Equal`]", "VBR_NO": "[`Compared::Absent`]", "VBR_OTHER": "[`Compared::Other`]"}
# The refusals, by the names that the errors of the crate have for them. A handle of the crate isn't empty.
REFUSALS = {"VBR_OUT_OF_STEPS": "OutOfSteps", "VBR_NO_SLOT": "NoSlot", "VBR_EPOCH_SPENT": "EpochSpent", "VBR_HELD": "Held", "VBR_RESHAPED": "Reshaped"}
REFUSALS.update({"VBR_BAD_SHAPE": "Shape", "VBR_BAD_KEYS": "Keys", "VBR_NO_MEMORY": "Memory", "VBR_NO_ROOM": "Slots", "VBR_MISSING": "Missing", "VBR_MIXED": "Mixed", "VBR_LOST": "Lost"})
OF_WALKS = ("VBR_RESHAPED",)
# The calls that sets and maps haven't alike, those with other names, and those of other types than a pass.
OF_SETS = "insert", "remove"
OF_MAPS = *OF_SETS, "get", "get_all", "replace", "put", "get_or_insert", "compare_exchange", "remove_if"
OTHERS = {"vbr_map_insert": "MapPass::try_insert", "vbr_open": "Table::open", "vbr_lend": "Table::lend", "VBR_CURSOR_BEGIN": "Cursor::first"}
OTHERS.update({f"vbr_{it}": f"HandleOf::{it}" for it in ("close", "report_all", "renew_all")})
OTHERS.update({"vbr_map_replace_held": "Held::replace", "vbr_records_read": "Records::read", "vbr_lender_renew": "Table::renew"})
OTHERS.update({f"vbr_{it}": f"SharedTable::{it[:-7] if it.endswith('_shared') else it[7:]}" for it in ("open_shared", "shared_size")})


def fail(what):
    sys.exit(f"interface: {what}")


@functools.lru_cache(maxsize=None)
def comments():
    """The sections of each header, call, type and number, by its name, without what is of C alone; of each field; and of what C has not.
    And what the list of answers says of each."""
    headers = [interface.header_and_calls(it, of_c=False)[0] for it in HEADERS]
    found = {name: sections.sections(comment) for it in headers for comment, _, name, _ in sections.calls(it)}
    found.update({name: sections.sections(comment) for it in headers for comment, name in DEFINE.findall(it)})
    for comment, name, fields in (of for it in headers for of in TYPE.findall(it)):
        found[name] = sections.sections(comment)
        found.update({f"{name}.{field}": (as_sentence(text), {}) for field, text in FIELD.findall(fields)})
    found.update({name: sections.sections(sections.first_comment(it)) for name, it in zip(HEADERS, headers)})
    found.update({name: sections.sections(text) for path in BESIDES for name, text in SAID.findall(text_of(path))})
    return found, sections.answers_said(headers[0])


def as_sentence(text):
    return f"{text[0].upper()}{text[1:]}."


def link(name):
    """The item of the crate that a name of C stands for, as a link."""
    is_map = name.startswith("vbr_map_")
    own = name[8:] if is_map else name[4:]
    owner = f"{'Map' * is_map}Pass" if own in (OF_MAPS if is_map else OF_SETS) else "PassOf"
    path = OTHERS.get(name) or OTHERS.get(f"vbr_{own}", f"{owner}::{own}")
    return f"[`{path.split('::')[-1] if path.startswith(owner) or name in OTHERS and is_map else path}`](crate::{path})"


def types(head):
    """The types of the answer and of the error of a function, without what they are of."""
    returns = head.rpartition(") -> ")[2].strip() if ") -> " in head else ""
    is_fallible = re.match(r"Result<(?:(\w+)(?:<.*>)?), (\w+)(?:<.*>)?>$", returns)
    return is_fallible.groups() if is_fallible else (re.match(r"\w*", returns)[0], None)


class Words:
    """The names of answers, refusals and calls of C, in the comment of a function with this result."""

    def __init__(self, head, where):
        self.where = where
        self.answer, self.error = types(head)
        yes, no = ANSWERS.get(self.answer, ("yes", "no"))
        self.answers = COMPARED if self.answer == "Compared" else {"VBR_YES": yes, "VBR_NO": no}

    def together(self, *parts):
        return parts

    def refusal(self, name):
        if self.error == REFUSALS[name]:
            return f"[`{self.error}`]"
        if name in OF_WALKS and self.error not in ("WalkError", "Refusal"):
            return f"[`WalkError::{REFUSALS[name]}`](crate::WalkError::{REFUSALS[name]})"
        return f"[`{self.error}::{REFUSALS[name]}`]" if self.error else fail(f"{self.where}: it has no error for {name}")

    def name(self, name):
        if name in self.answers:
            return self.answers[name]
        if name in REFUSALS:
            return self.refusal(name)
        return link(name) if name in OTHERS or name.startswith("vbr_") else name

    def of(self, text):
        """A text of C in the words of Rust."""
        text = re.sub(r"\ba null pointer\b", "`None`", text)
        text = re.sub(r"\b(?:vbr_[a-z_]+|VBR_CURSOR_BEGIN|VBR_[A-Z_]+)\b", lambda it: self.name(it[0]), text)
        left = re.search(r"vbr\(3\)|\bVBR_\w+|\bnull\b|->", re.sub(r"\(crate::.*?\)", "", text))
        if left:
            fail(f"{self.where}: Rust has no {left[0]}: {text}")
        return re.sub(r"(`[^`]*`|\(crate::[^)]*\))|\b([A-Za-z]+_\w+)\b", lambda it: it[1] or f"`{it[2]}`", text)


def returned(sentence, found, words):
    """What the call returns: each answer with when it is that, or what its section says."""
    text, items = found["Returns"]
    told = {names[0]: what.rstrip(".") for names, what in items if what and names[0] in words.answers} if words.answer in (*ANSWERS, "Compared") else {}
    if not told:
        return text if text[:1].isupper() else text and f"{'It is' if sentence.startswith('Returns ') else 'Returns'} {text}"
    written = [it[1] for _, what in found["Parameters"][1] if what and (it := re.match(r"(?:null, or )?where (.+?) (?:is|are) written", what))]
    names = {**words.answers, "VBR_YES": written[0]} if words.answer == "Option" and written else words.answers
    between = ". Returns " if any(re.search(r"[.;] ", it) for it in told.values()) else "; "
    return f"Returns {between.join(f'{names[name]} if {what}' for name, what in told.items())}."


def given(found):
    """What the parameters are that the call says something of, each a part by its own name."""
    return {it: f"`{it}` is {what}" for names, what in found.get("Parameters", ("", []))[1] if what for it in names}


def left(found):
    """What the call leaves, as a sentence."""
    text = found["Leaves"][0]
    after = re.match(r"after (VBR_\w+(?: (?:and|or) VBR_\w+)*),? (.*)", text, re.S)
    return text if text[:1].isupper() else f"After {after[1]} it leaves {after[2]}" if after else text and f"It leaves {text}"


def paragraphs(comment, wanted, words):
    """These parts of the comment of a call: its sentence and its notes by themselves, and the others after one another."""
    sentence, found = comment
    parts = {"sentence": sentence}
    if "Returns" in found:
        parts.update({"returns": returned(sentence, found, words), "leaves": left(found), "notes": found.get("Notes", ("",))[0]})
    said = {it: {**given(found), **parts}.get(it, "") for it in wanted or parts if wanted or parts[it]}
    for name, text in said.items():
        if not text:
            fail(f"{words.where}: it has no {name}")
    first, *others = said.get("sentence", "").split("\n\n")
    middle = " ".join(text for name, text in said.items() if name not in ("sentence", "notes"))
    laid = [*words.together(first, middle), *others, *said.get("notes", "").split("\n\n")]
    return [words.of(" ".join(it.split())) for it in laid if it]


def listed(names):
    return " and ".join(it for it in (", ".join(names[:-1]), names[-1]) if it)


def refused(found, but, words, answers):
    """The section Errors: the refusals, in the order in which they are tested, with what the call says of them; and what holds of them all."""
    items = [([it for it in names if it in REFUSALS and it not in but], what) for names, what in found["Returns"][1]]
    if words.error == "OutOfSteps":
        items = [([it for it in names if it == "VBR_OUT_OF_STEPS"], what) for names, what in items]
    items = [(names, what) for names, what in items if names]
    if not items:
        fail(f"{words.where}: it has no refusal")
    told = [listed([words.refusal(it) for it in names]) + (f": {words.of(' '.join(what.split()))}" if what else ".") for names, what in items]
    clauses = [it for it in answers[items[-1][0][-1]].split("; ") if re.match("no call |nothing ", it)]
    then = [f"{clauses[0].capitalize()} then."] if clauses else []
    if len(told) == 1:
        return [" ".join([*told, *then])]
    return [[f"- {it}" for it in told], *then]


def laid_out(indent, blocks):
    """Paragraphs and lists as a comment."""
    lines = []
    for block in blocks:
        begin = f"{indent}/// "
        items = [block] if isinstance(block, str) else block
        more = begin if isinstance(block, str) else f"{begin}  "
        lines += [f"{indent}///"] * bool(lines)
        lines += [textwrap.fill(it, MOST, initial_indent=begin, subsequent_indent=more, break_long_words=False, break_on_hyphens=False) for it in items]
    return "\n".join(lines) + "\n"


def comment(mark, after, where):
    """The comment in place of a line that asks for one, ahead of what comes after it."""
    indent, kind, name, more = mark.groups()
    calls, answers = comments()
    head = HEAD.search(after)
    words = Words(head[1] or "" if head else "", f"{where}: {name}")
    if name not in (answers if kind == "answer" else calls):
        fail(f"{words.where}: there is no such comment in C")
    if kind == "answer":
        return laid_out(indent, [words.of(as_sentence(answers[name]))])
    if kind == "doc":
        return laid_out(indent, paragraphs(calls[name], (more or "").split(), words))
    return laid_out(indent, ["# Errors", *refused(calls[name][1], re.findall(r"VBR_\w+", more or ""), words, answers)])


def with_docs(text, path):
    """A source of the crate, with the comments that are made in place of the lines that ask for them."""
    return MARK.sub(lambda it: comment(it, text[it.end() :], path), text)


def renewed(text, path):
    """A file of the crate, with the comments made anew that are below such lines."""

    def made(it):
        indent, asked = it.groups()
        lines = comment(MARK.match(f"{indent}{asked}\n"), text[it.end() :], path)
        return f"{indent}// {asked}\n{lines}{indent}// %end\n"

    return IN_PLACE.sub(made, text)


class CppWords:
    """The answers of a call as a member gives them: true and false, or a value and none; and refusals. It has the names of C else."""

    def __init__(self, answer, where):
        self.answer, self.where = answer, where
        yes, no = ANSWERS.get(answer, ("", ""))
        self.answers = {"VBR_YES": yes.strip("`"), "VBR_NO": no.strip("`").lower()}

    def together(self, *parts):
        return [" ".join(it for it in parts if it)]

    def of(self, text):
        return re.sub(r"\bVBR_[A-Z_]+", lambda it: f"refusal::{it[0][4:].lower()}" if it[0] in REFUSALS else it[0], text.replace("a null pointer", "none"))


def with_name(name, sentence):
    """The sentence of a call, which names it."""
    return f"{sentence[:-1]}{f' ({name})' if ', as ' in sentence else f', as {name} does'}."


def in_cpp(text, path):
    """A header for C++, whose members say what the call that they make does, in place of the line that asks for it, or what the field is."""
    calls, _ = comments()

    def sections_of(name):
        return calls[name] if name in calls else fail(f"{path}: {name}: there is no such comment in C")

    def made(it):
        indent, begin, name, parts, more, answer, found = it.groups()
        sentence, found_there = sections_of(name)
        words = CppWords("Option" if found or answer and "optional" in answer else answer, f"{path}: {name}")
        is_call = "Returns" in found_there
        wanted = parts.split() if parts else ["sentence", "returns"] if is_call else ["sentence"]
        said = paragraphs((with_name(name, sentence) if is_call else sentence, found_there), wanted, words)
        said[-1] = " ".join([said[-1], *more.split()])
        filled = [interface.fill(one, CPP_MOST, f"{indent}{'   ' if number else begin}", f"{indent}   ") for number, one in enumerate(said)]
        return "\n\n".join(filled) + "\n"

    def of_field(name):
        sentence = sections_of(name)[0]
        return " ".join(f"{sentence[0].lower()}{sentence[1:-1]}".split())

    text = ITEM_IN_CPP.sub(lambda it: interface.fill(of_field(it[2]), CPP_MOST, it[1], " " * it[1].index("-") + "  "), IN_CPP.sub(made, text))
    text = FIELD_IN_CPP.sub(lambda it: of_field(it[1]), text)
    left = re.search("%doc .*", text)
    return fail(f"{path}: {left[0]} stands where nothing is made of it") if left else text
