"""The form of contracts, and what the code does that contracts don't say. tools/docs-check reads both:

- a function has at most eight clauses, and no line of a contract is over a hundred columns wide. So is no line of a view
  or of an invariant (`ghost view`, `ghost invariant`);
- on the words that threads share, each function of `vbr_slots` calls what ON_SHARED_WORDS says of it, and nothing else
  does anything to them. A contract speaks of a step as an event: that a step which loads is a load in the code too is
  seen here. An `|` with 0 in its place, say, would meet the same contract."""
import re

CLAUSES, COLUMNS = 8, 100

# What is called on the shared words, in its order: the calls of the kit's `atomic_table`. `split_seat` and `join_seat` are a
# load each, by its README.
ON_SHARED_WORDS = {
    "stepping.rt": {
        "load_link_at": "load",
        "load_word": "load",
        "read_epoch_as": "load",
        "store": "store",
        "store_at": "store",
        "exchange": "compare_exchange",
        "exchange_at": "compare_exchange",
        "fetch_or": "fetch_or",
        "fetch_and": "fetch_and",
        "meet_as": "split_seat join_seat load split_seat",
        "note_runner": "split_seat",
        "note_again": "split_seat",
        "catch_up_as": "join_seat load",
    },
    "snapshot.rt": {
        "snapshot": "load_new_seat split_seat",
        "halt_all": "join_seat",
        "read_all_as": "load",
    },
    "warming.rt": {"peek": "peek"},
    "free_slots.rt": {"free_about": "peek"},
    "opening.rt": {"build": "split_seat"},
    "closing.rt": {"close": "load_new_seat join_seat"},
}
SLOTS = "crates/vbr_slots/src/"

FUNCTION = re.compile(r'\s*(?:pub(?:\([^)]*\))? )?(?:(?:const|unsafe|extern "C") )*fn (\w+)')
CLAUSE = re.compile(r"\s*(?:requires|ensures)\b")
STATED = re.compile(r"\s*(?:pub )?ghost (?!use\b)")


def clause_end(lines, index):
    """The number of the line at which the clause ends that begins in this one."""
    depth = 0
    while True:
        depth += lines[index].count("{") - lines[index].count("}")
        if depth <= 0 or index + 1 == len(lines):
            return index
        index += 1


def form_faults(path, text):
    """What is too long or too wide in a source file: (line, what is wrong)."""
    lines, function, clauses, index = text.split("\n"), "", [], 0
    while index < len(lines):
        line = lines[index]
        found = FUNCTION.match(line)
        function = found.group(1) if found else function
        if CLAUSE.match(line) or STATED.match(line):
            end = clause_end(lines, index)
            for number in range(index, end + 1):
                if len(lines[number]) > COLUMNS:
                    yield number + 1, f"a line of a contract has {len(lines[number])} columns, and may have {COLUMNS}: break it, or give what it says a name in specs/"
            if CLAUSE.match(line):
                clauses.append(index + 1)
            index = end
        elif line.strip() and not line.lstrip().startswith("//"):
            if len(clauses) > CLAUSES:
                yield clauses[0], f"{function} has {len(clauses)} clauses, and may have {CLAUSES}: put what belongs together into one record of specs/"
            clauses = []
        index += 1


def check_form(texts):
    """The contracts of these files that don't keep the form: (path, line, what)."""
    return [(path, *it) for path, text in texts.items() for it in form_faults(path, text)]


def bodies(text):
    """Each function of a source file, by the layout of `rt fmt`: (name, line, its text without contracts and comments)."""
    lines, name, index = text.split("\n"), None, 0
    while index < len(lines):
        line, found = lines[index], FUNCTION.match(lines[index])
        if name is None and found:
            name, start, indent, kept = found.group(1), index + 1, line[: len(line) - len(line.lstrip())], []
        if name is not None and CLAUSE.match(line):
            index = clause_end(lines, index)
        elif name is not None and not line.lstrip().startswith("//"):
            kept.append(line)
            if line.startswith(indent) and not line.startswith(indent + " ") and line.endswith((";", "}")):
                yield name, start, "\n".join(kept)
                name = None
        index += 1


def on_shared_words(body):
    """What a function calls on the shared words, in its order; None where it hands them to something else."""
    calls = []
    for found in re.finditer(r"\bshared\b(?:\s*\.\s*(\w+)\s*(?:::<[^()]*>)?\()?", re.sub(r"let shared = &[\w.\s]*\.shared;", "", body)):
        if not found.group(1):
            return None
        calls.append(found.group(1))
    return calls


def check_shared_words(texts):
    """Where a function of vbr_slots does something else to the shared words than it should: [(path, line, what)]."""
    faults, seen = [], set()
    for path, text in texts.items():
        if not path.startswith(SLOTS):
            continue
        known = ON_SHARED_WORDS.get(path[len(SLOTS) :], {})
        for name, line, body in bodies(text):
            calls = on_shared_words(body)
            wanted = known.get(name, "").split()
            seen |= {(path, name)} if wanted else set()
            if calls != wanted:
                does = "hands the shared words on" if calls is None else f"calls {', '.join(calls) or 'nothing'} on the shared words"
                faults.append((path, line, f"{name} {does}, where tools/lib/contracts.py has {', '.join(wanted) or 'nothing'}: what is proved of look-ups is that their events are loads, and that these are loads in the code is seen here"))
    for file, known in ON_SHARED_WORDS.items():
        for name in known:
            if (SLOTS + file, name) not in seen:
                faults.append(("tools/lib/contracts.py", 1, f"ON_SHARED_WORDS has {name}, and {SLOTS}{file} has no such function"))
    return faults
