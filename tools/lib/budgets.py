"""The formulas of budgets and costs in the documents, and whether each is one that is proved.

PROVED has each formula with the definition that it comes from, which is computed and compared: a definition of crates/*/specs that is
one line, a sum or a product of numbers, of what it is given, and of others like it. n is the number of nodes in the bucket, m that of
the disturbances, w is slots / 64, rounded up, and t the steps to take a slot. A text names a formula where it has a number of n, or of (n + m), and adds to it."""
import re

from crates import ROOT, text_of

SOURCES = ["vbr_at_table/specs/costs/Budgets.antt", "vbr_list/specs/calls/Budgets.antt", "vbr_list/specs/look_ups/Next.antt", "vbr_list/specs/traversals/Disturbed.antt"]
# What a call is given: a slot of its own pool or one of the shared pool, and whether it reads, compares or stores a value.
OWN, SHARED = {"pool": 1}, {"pool": 0}
VALUE = {"value": 1}
# Each formula, its definition, and what the definition is given beside n, m and w.
PROVED = [
    ("5n + 11", "enough_to_look_up", {}),
    ("5n + 4", "look_up_costs", {}),
    ("5n + 6", "costs_among", {"times": 0, "reading": 2}),
    ("5n + 11", "enough_to_seek", {}),
    ("5n + 3", "seek_costs", {}),
    ("5n + 5", "seek_costs", VALUE),
    ("9n + 11", "enough_to_search", {}),
    ("9n + 3", "find_costs", {}),
    ("9n + 10", "remove_costs", {}),
    ("9n + 12", "remove_costs", VALUE),
    ("9n + 12", "enough_to_unlink", {}),
    ("9n + 14", "enough_to_unlink", VALUE),
    ("9n + 11", "enough_in_hand_among", {"each": 7, "times": 0}),
    ("9n + 6", "costs_in_hand_among", {"each": 7, "times": 0, "after": 3}),
    ("9n + 17", "costs_in_hand_among", {"each": 12, "times": 0, "after": 14}),
    ("9n + 19", "costs_in_hand_among", {"each": 12, "times": 0, "after": 16}),  # and the old node has left its list
    ("18n + 82", "enough_with_a_slot", {}),
    ("18n + 82", "enough_to_insert", OWN),
    ("18n + w + 20", "enough_to_insert", SHARED),
    ("18n + 77", "insert_costs", OWN),
    ("18n + w + 15", "insert_costs", SHARED),
    ("18n + t + 14", "enough_past", {}),
    ("18n + t + 9", "insert_costs_past", {"storing": 0}),
    ("(m + 1)(5(n + m) + 11)", "enough_among", {}),
    ("(m + 1)(5(n + m) + 4)", "costs_among", {"reading": 0}),
    ("(m + 1)(5(n + m) + 3)", "seek_costs_among", {"reading": 0}),
    ("(m + 1)(5(n + m) + 5)", "seek_costs_among", {"reading": 2}),
    ("(m + 1)(9(n + m) + 11)", "enough_to_search_among", {}),
    ("(m + 1)(9(n + m) + 3)", "find_costs_among", {}),
    ("(m + 1)(9(n + m) + 6) + 4", "remove_costs_among", {"reading": 0}),
    ("(m + 2)(9(n + m) + 7) + 68", "enough_to_insert_among", {"taking": 68}),
    ("m(9(n + m) + 12)", "searches_more", {"each": 12}),
    ("18(n + m) + t + 14 + m(9(n + m) + 12)", "enough_to_store_among", {}),
]
GAP = r"\s*"
NAMED = re.compile(rf"(?<![\w.])(\d+){GAP}[*×·]?{GAP}(n\b|\(n{GAP}\+{GAP}m\))((?:\s*[+-]\s*(?:\d+\b|[A-Za-z_]\w*))+)")
# Where a line of a comment begins.
LEADER = re.compile(r"^[ \t]*(?:///|//!|//|%+)", re.M)


def definitions():
    """The definitions of one line: the names of what each is given, and its body."""
    found = {}
    for path in SOURCES:
        for name, given, body in re.findall(r"^(\w+)((?: (?:\w+|\[\]|\(\w+ ∷ \w+\)))*) = ([^=\n]+)$", text_of(f"{ROOT}/crates/{path}"), re.M):
            found.setdefault(name, []).append((re.findall(r" (\w+|\[\]|\(.*?\))", given), body))
    return found


class Number:
    """The value of a definition: a sum of products of applications, by the numbers that there are."""

    def __init__(self, known, numbers):
        self.known, self.numbers = known, numbers

    def of(self, name, arguments):
        """A name, applied to texts of which some are numbers."""
        if name in ("listed_for", "nodes_listed_in"):
            return self.numbers["n"]
        if name == "most_to_take":  # its first line is of an empty pool
            return self.sum(self.known[name][0 if not self.numbers["pool"] else 1][1], {})
        if name == "flag_words":
            return self.numbers["w"]
        if name == "POOL":
            return int(re.search(r"pub const POOL: usize = (\d+);", text_of(f"{ROOT}/crates/vbr_slots/src/pass.rt"))[1])
        if name == "max":  # that of a pool of its own is the other number of a formula with two
            return arguments[1]
        if name in ("steps_to_value_of", "steps_to_value"):
            return (2 if name == "steps_to_value_of" else 1) * self.numbers["value"]
        given, body = self.known[name][0]
        return self.sum(body, dict(zip(given, arguments)))

    def sum(self, body, given):
        tokens = re.findall(r"\d+|[\w.]+|[()+*]", body)
        value, rest = self.terms(tokens, given)
        assert not rest, body
        return value

    def terms(self, tokens, given):
        value, tokens = self.product(tokens, given)
        while tokens and tokens[0] == "+":
            more, tokens = self.product(tokens[1:], given)
            value += more
        return value, tokens

    def product(self, tokens, given):
        value, tokens = self.applied(tokens, given)
        while tokens and tokens[0] == "*":
            more, tokens = self.applied(tokens[1:], given)
            value *= more
        return value, tokens

    def applied(self, tokens, given):
        if tokens[0].isdigit():
            return int(tokens[0]), tokens[1:]
        if tokens[0] == "(":
            value, tokens = self.terms(tokens[1:], given)
            return value, tokens[1:]
        name, tokens, arguments = tokens[0], tokens[1:], []
        while tokens and tokens[0] not in "+*)":
            if tokens[0] == "(":
                value, tokens = self.terms(tokens[1:], given)
                arguments, tokens = [*arguments, value], tokens[1:]
            else:
                word, tokens = tokens[0], tokens[1:]
                arguments.append(int(word) if word.isdigit() else given.get(word, word))
        if not arguments and name in given:
            return given[name], tokens
        return self.of(name, arguments), tokens


def computed(formula, numbers):
    """The value of a formula as documents write it."""
    text = re.sub(r"(\d|\))(?=[nmwt(])|(?<=[nmwt])(?=\()", lambda it: f"{it[0]}*", formula)
    return eval(text, {"__builtins__": {}}, numbers)


def is_defined(formula, name, given, known):
    """Whether the formula has the value of its definition."""
    for n, m, w, t in ((0, 0, 100, 9), (3, 1, 200, 68), (1000, 70, 30000, 30006)):
        m = given.get("times", m)
        numbers = {"n": n, "w": w, "pool": 1, "value": 0, **{it: given[it] for it in ("pool", "value") if it in given}}
        parameters = {"nodes": n, "times": m, "taking": t, **given}
        value = Number(known, numbers).of(name, [parameters.get(it, it) for it in known[name][0][0]])
        if computed(formula, {"n": n, "m": m, "w": w, "t": t}) != value:
            return False
    return True


def plain(text):
    return re.sub(r"[\s*×·]+", "", text)


def faults_of_list():
    """The formulas of PROVED that aren't what their definitions say: (path, line, what)."""
    known = definitions()
    for formula, name, given in PROVED:
        if name not in known or not is_defined(formula, name, given, known):
            yield "tools/lib/budgets.py", 1, f"{formula} isn't what {name} says"


def faults(texts):
    """The formulas of these texts that aren't proved: of each the path, the line and what is wrong."""
    proved = {plain(it[0]) for formula, _, _ in PROVED for it in NAMED.finditer(formula)}
    for path, text in texts.items():
        for it in NAMED.finditer(LEADER.sub(lambda it: " " * len(it[0]), text)):
            if plain(it[0]) not in proved:
                yield path, text[: it.start()].count("\n") + 1, f"{' '.join(it[0].split())} is no formula that is proved: PROVED of tools/lib/budgets.py has those"
