"""Whether what the comments of the interface say by hand stands in one place: in the sources of C, in cpp_and_rust.in and caches.in, in those
of C++, or in the crate. Two of these that have so many words after one another alike say a thing twice.

Only what users read is compared: no private parts. It finds copies, and nothing that is said again in other words."""
import glob
import re

from crates import ROOT, text_of

ALIKE = 10  # so many words after one another
PLACES = {"C": ["interface/vbr*.h.in"], "both": ["interface/cpp_and_rust.in", "interface/caches.in"], "C++": ["interface/vbr*.hpp.in"], "Rust": ["interface/*.rs.in", "rust/src/*.rs"]}
MADE = re.compile(r"^( *)// %(?:doc|errors|answer) .*\n(?: *///.*\n)*?\1// %end\n", re.M)
PRIVATE = re.compile(r"^namespace detail \{.*?^\} // namespace detail$|^private:.*?^\};", re.M | re.S)
RUST = re.compile(r"(?:^ *//!.*\n)+|(?:^ *///.*\n)+(?=(?: *#\[.*\n)* *(?:pub (?!\(crate\))|[A-Z]\w*[ ,({]))", re.M)


def without_marks(source):
    """A source as it is for a set, without the lines that say what is made of it."""
    source = re.sub(r"^%(?!doc).*\n|</?c>|@", "", source, flags=re.M)
    return re.sub(r"\{([^{}|]*)\|[^{}|]*\}", r"\1", source)


def comments(path):
    """The comments of a file for those who call it, by paragraphs, without examples."""
    text = without_marks(MADE.sub("", text_of(path)))
    if path.endswith((".rs", ".rs.in")):
        text = re.sub(r"^( *)%(number)?.*$", lambda it: f"{it[1]}{'pub ' if it[2] else '///'}", text, flags=re.M)  # what is made there
        found = [re.sub(r"```.*?```", "\n\n", re.sub(r"^ *//[/!] ?", "", it, flags=re.M), flags=re.S) for it in RUST.findall(text)]
    elif path.endswith(("cpp_and_rust.in", "caches.in")):
        found = [text]
    else:
        found = [re.sub(f"^{indent}", "", it, flags=re.M) for indent, it in re.findall(r"( *)/\*(.*?)\*/", PRIVATE.sub("", text), re.S)]
    return [it for each in found for it in re.split(r"\n[ \t]*\n|^.*%doc .*$|^ {7}.*$", each, flags=re.M) if "It is no part of the interface." not in each]


def runs(paragraph):
    """The runs of so many words in a paragraph."""
    words = re.findall(r"[\w']+", re.sub(r"\]\([^)]*\)", "]", paragraph))
    return [tuple(words[i : i + ALIKE]) for i in range(len(words) - ALIKE + 1)]


def faults():
    """The paragraphs that say by hand what another place says by hand."""
    seen = {}
    for place, patterns in PLACES.items():
        for path in (path for it in patterns for path in sorted(glob.glob(f"{ROOT}/bindings/{it}")) if is_by_hand(path)):
            for paragraph in comments(path):
                alike = [run for run in runs(paragraph) if seen.setdefault(run, (place, path))[0] != place]
                if alike:
                    yield f"{path[len(ROOT) + 1 :]} says by hand what {seen[alike[0]][1][len(ROOT) + 1 :]} says: {' '.join(alike[0])}"


def is_by_hand(path):
    return "tools/interface makes this file" not in text_of(path)
