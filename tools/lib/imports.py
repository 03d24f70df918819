"""Imports that nothing uses: a `ghost use` of a source file whose name stands nowhere else in its code. The compiler says so of
a `use`, and the kit of those in written proofs."""
import re

IMPORT = re.compile(r"^\s*(?:pub )?(?:ghost )?use ([^;]+);", re.M)
GHOST = re.compile(r"^\s*ghost use ([^;]+);", re.M)
WORD = r"(?<![\w-]){}(?![\w-])"


def imported(clause):
    """The names that one `ghost use` brings into the file, as the file writes them."""
    path = " ".join(clause.split())
    braces = re.fullmatch(r"(.*?)\.\{(.*)\}", path)
    names = braces.group(2).split(",") if braces else [path.rsplit(".", 1)[1]]
    return [name.split(" as ")[-1].strip() for name in names if name.strip()]


def stands(name, code):
    """Whether the code has the name. An operator's parts stand around what it is applied to."""
    if "◌" in name or not re.match(r"\w", name):
        return all(part in code for part in name.split("◌") if part)
    return re.search(WORD.format(re.escape(name)), code) is not None


def faults(texts):
    """The imported names that source files don't use: (path, line, what)."""
    for path, text in texts.items():
        code = re.sub(r"//.*", "", IMPORT.sub("", text))
        unused = (it for clause in GHOST.findall(text) for it in imported(clause) if not stands(it, code))
        yield from ((path, 1, f"a `ghost use` imports {it}, which nothing in it uses") for it in unused)
