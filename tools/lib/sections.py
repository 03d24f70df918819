"""The comment of a call in a header, by its sections: one sentence, and then what stands after the words below. Parameters and answers are
items, each of the names before its colon. One of names alone, also on the line of Parameters itself, says that they mean what the first
comment of vbr.h, or its list of answers, says of them."""
import re

NAMES = ("Parameters", "Returns", "Leaves", "Notes")
MARK = re.compile(rf"\s*(?:({'|'.join(NAMES)}):|(-))(?: |$)")
ITEM = re.compile(r"((?:\w+, )*\w+)(?:: (.+)|\.)$", re.S)
CALL = re.compile(r"(/\*(?:(?!\*/).)*\*/)\n((?:VBR_NODISCARD |VBR_NONNULL |VBR_DEPRECATED\(\"\w+\"\) |static inline )*[\w ]+[ *]+(vbr_\w+)\(\s*([^{;]*?)\))(?: VBR_NOEXCEPT)?(?: VBR_NONNULL\w*)?(?:;| \{)", re.S)
REFERENCE = re.compile(r"what (vbr_\w+) (?:returns|leaves)")


def calls(header):
    """The functions of a header that have a comment: of each the comment, the declaration, the name, and the names of the parameters."""
    for comment, declared, name, given in CALL.findall(header):
        if "It is no part of the interface." not in comment and not comment.startswith("/* The old name of"):
            yield comment, declared, name, re.findall(r"(\w+)(?:,|$)", given.replace("void", ""))


def pieces(prose):
    """The pieces of prose, each with its mark: the sentence, which has none, the sections, and the items of a section."""
    found = [["", ""]]
    for line in prose.split("\n"):
        mark = MARK.match(line)
        if mark:
            found.append([mark[1] or mark[2], line[mark.end() :]])
        else:
            found[-1][1] += f" {line.strip()}" if line.strip() else "\n\n"
    return [(mark, text.strip()) for mark, text in found]


def sections(comment):
    """The sentence of a comment, and of each section its text and its items: names, and what is said of them."""
    found = {"": ("", [])}
    for mark, text in pieces(re.sub(r"^/\* |\*/$|^ {7}.*", "", comment, flags=re.M)):
        item = text != "none." and mark in ("-", "Parameters") and ITEM.match(text)
        if mark != "-":
            found[mark] = ("" if item else text, [])
        if item:
            found[list(found)[-1]][1].append((item[1].split(", "), item[2]))
    return found[""][0], {name: it for name, it in found.items() if name}


def first_comment(header):
    return re.match(r"/\*.*?\*/", header, re.S)[0]


def parameters_said(headers):
    """What the first comments of headers say of parameters, by their names."""
    found = [sections(first_comment(it))[1] for it in headers]
    return {it: what for each in found for names, what in each.get("Parameters", ("", []))[1] for it in names}


def answers_said(header):
    """What the list of answers says of each, by its name."""
    listed = re.search(r"^typedef enum vbr_answer \{\n#endif\n(.*?)^\} vbr_answer;", header, re.M | re.S)[1]
    return {name: " ".join(text.split()) for name, text in re.findall(r"(VBR_\w+) = -?\d+,?\s*/\* (.*?) \*/", listed, re.S)}


def faults(headers):
    """What the comments of the calls of these headers lack, or name that isn't there; the first one is vbr.h."""
    said, answers = parameters_said(headers.values()), answers_said(list(headers.values())[0])
    known = {name for text in headers.values() for _, _, name, _ in calls(text)}
    for header, text in headers.items():
        for comment, declared, name, given in calls(text):
            if not name.endswith("_within"):
                yield from (f"{header}: {name}: {it}" for it in of_call(comment, given, "vbr_answer " in declared.split(name)[0], known, said, answers))


def of_call(comment, given, is_answered, known, said, answers):
    sentence, found = sections(comment)
    if [it for it in found if it != "Notes"] != list(NAMES[:3]):
        yield f"its comment has these sections: {', '.join(found) or 'none'}"
        return
    if re.search(r"\.\s", sentence) or not sentence.endswith("."):
        yield f"its comment doesn't begin with one sentence: {sentence}"
    text, items = found["Parameters"]
    named = [it for names, _ in items for it in names]
    yield from (f"it has no parameter {it}" for it in named if it not in given)
    yield from (f"nothing is said of its parameter {it}" for it in given if it not in named)
    yield from (f"what {it} is isn't said" for names, what in items for it in names if not what and it not in said)
    text, items = found["Returns"]
    told = [*re.findall(r"\bVBR_[A-Z_]+", text), *[it for names, _ in items for it in names]] if is_answered else []
    yield from (f"there is no answer {it}" for it in told if it not in answers)
    if is_answered and not told and not REFERENCE.search(text):
        yield "it has no answer"
    yield from (f"there is no call {it}" for section in found.values() for it in REFERENCE.findall(section[0]) if it not in known)
