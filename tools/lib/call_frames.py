"""Call frames: what stands in .eh_frame, by which debuggers, profilers and the unwinder of the C library come from an instruction of a
function to its caller (DWARF 5, 6.4; System V ABI for x86-64, 3.7). Rattle's compiler writes none.

`add_to` writes them for each function of an object that has none. It follows the machine code from the function's first instruction,
over jumps and jump tables. So it knows ahead of each instruction how far rsp is below the canonical frame address (CFA), which is where
rsp was ahead of the call, and where the caller's registers are kept. What is written holds at each instruction, not only at calls. Code
is read, and stays as it is. A function with a step that can't be followed is refused, with its name and the step: nothing is guessed.
It is taken for granted that code keeps to the ABI: a call returns with rsp and the kept registers as they were, and what is kept is not
overwritten through another register than rsp."""
import re
import struct
from typing import NamedTuple, Tuple

from elf import RELATIVE, Object

# the registers that a function leaves to its caller as they were, with DWARF's numbers, and by each name
NUMBERS = {"rbx": 3, "rbp": 6, "r12": 12, "r13": 13, "r14": 14, "r15": 15}
KEPT = {**{it: "rbx" for it in ("rbx", "ebx", "bx", "bl", "bh")}, **{it: "rbp" for it in ("rbp", "ebp", "bp", "bpl")}}
KEPT.update({f"{it}{width}": it for it in ("r12", "r13", "r14", "r15") for width in ("", "d", "w", "b")})
ON_STACK = re.compile(r"(-?(?:0x)?[0-9a-f]+)?\(%rsp")
BY_RSP = re.compile(r"(add|sub)q \$(-?\w+), %rsp")
PUSH_POP = re.compile(r"(push|pop)q %?(\S+)")
SETS_RSP = re.compile(r"enter|leave|ret|push|pop(?!cnt)|iret|.*, %[re]?spl?$|(?:inc|dec|neg|not|xchg|xadd|cmpxchg)\S* .*%[re]?spl?\b(?!\))")
JUMP = re.compile(r"(j\w+) 0x([0-9a-f]+)")
PADDING = re.compile(r"nop|int3|xchgw %ax, %ax")
AT_ENTRY = 8  # the return address alone
# What all functions have in common: version 1, "zR", code in bytes, data in steps of -8, the return address as column 16, and addresses
# in 4 bytes, relative to where they stand. At the entry CFA is rsp + 8, and the return address lies 8 below it.
COMMON = struct.pack("<IB3sBBBBB", 0, 1, b"zR\0", 1, 0x78, 16, 1, 0x1B) + bytes([0x0C, 7, 8, 0x80 | 16, 1])


class Refused(ValueError):
    """Functions whose frames aren't known at some instruction, and why."""


class Frame(NamedTuple):
    """Ahead of an instruction: how far rsp is below the CFA, and how far below it the caller's registers are kept."""

    depth: int = AT_ENTRY
    kept: Tuple[Tuple[str, int], ...] = ()

    def lowest(self):
        """How far below the CFA the lowest memory is that has something of the caller's."""
        return max([AT_ENTRY, *(it for _, it in self.kept)])

    def pushed(self, name):
        kept = dict(self.kept)
        if name in NUMBERS:
            kept.setdefault(name, self.depth + 8)
        return Frame(self.depth + 8, tuple(kept.items()))

    def popped(self, name):
        kept = dict(self.kept)
        if kept.get(name) == self.depth:
            del kept[name]
        elif name == "rsp" or name in NUMBERS and name not in kept:
            raise Refused(f"it changes {name} without keeping it first")
        return Frame(self.depth - 8, tuple(kept.items()))

    def is_touched_by(self, text):
        """Whether an instruction names memory by rsp where something of the caller's is kept."""
        named = ON_STACK.search(text)
        return named and not text.startswith("lea") and self.depth - self.lowest() <= int(named[1] or "0", 0) < self.depth

    def changed(self, text):
        """The frame after an instruction that goes on to another."""
        moved, push_pop = BY_RSP.fullmatch(text), PUSH_POP.fullmatch(text)
        if push_pop:
            return (self.pushed if push_pop[1] == "push" else self.popped)(push_pop[2])
        if moved:
            by = int(moved[2], 0)
            return self._replace(depth=self.depth + (by if moved[1] == "sub" else -by))
        if SETS_RSP.match(text):
            raise Refused("it sets rsp otherwise than by push, pop, add and sub")
        if self.is_touched_by(text):
            raise Refused("it touches memory where something of its caller's is kept")
        unkept = {KEPT[it] for it in re.findall(r"%(\w+)", text) if it in KEPT} - set(dict(self.kept))
        if unkept:
            raise Refused(f"it uses {min(unkept)} without keeping it first")
        return self

    def after(self, text):
        new = self.changed(text)
        if new.depth < new.lowest():
            raise Refused("it frees memory where something of its caller's is kept")
        return new


class Code:
    """The instructions of a function, and where each may lead."""

    def __init__(self, of, function):
        here = [it for it in of.instructions[function.section] if function.begin <= it[0] < function.end]
        self.function, self.texts = function, dict(here)
        self.following = dict(zip(self.texts, [*list(self.texts)[1:], function.end]))
        self.outward = {it.at for it in of.relocations.get(function.section, [])}
        begins = tables_of(of, function)
        self.tables = {it for begin in begins for it in table_targets(of, function, begin, begins)}

    def leads_to(self, at):
        """The addresses in the function that may come next after an instruction, and whether the function may end there."""
        text, following = self.texts[at], self.following[at]
        jump = JUMP.match(text)
        if not text:
            raise Refused("it isn't known what it does")
        if text == "retq":
            return [], True
        if text.startswith(("ud2", "int3", "hlt")):
            return [], False
        if jump:
            to, others = int(jump[2], 16), [] if jump[1] == "jmp" else [following]
            ends = not self.outward.isdisjoint(range(at, following)) or not self.function.begin <= to < self.function.end
            return others if ends else [to, *others], ends
        if text.startswith(("loop", "xbegin")) or text.startswith("j") and not self.tables:
            raise Refused("it jumps to where isn't known")
        return sorted(self.tables) if text.startswith("j") else [following], False

    def step(self, at, frame):
        """The addresses that may come next, and the frame there."""
        try:
            next_ones, ends = self.leads_to(at)
            if ends and frame != Frame():
                raise Refused("it ends with a frame that isn't its caller's")
            return next_ones, frame.after(self.texts[at]) if next_ones else frame
        except Refused as why:
            raise Refused(f"at {at:#x}, {self.texts[at]}: {why}") from None

    def frames(self):
        """The frame ahead of each instruction that the function can come to, by address."""
        known, ahead = {}, [(self.function.begin, Frame())]
        while ahead:
            at, frame = ahead.pop()
            if at not in self.texts:
                raise Refused(f"it goes on at {at:#x}, where no instruction of it begins")
            if known.setdefault(at, frame) != frame:
                raise Refused(f"it comes to {at:#x} with more than one frame")
            next_ones, frame = self.step(at, frame)
            ahead += [(it, frame) for it in next_ones if known.get(it) != frame]
        lost = [f"{at:#x}, {text}" for at, text in self.texts.items() if at not in known and not PADDING.match(text)]
        if lost:
            raise Refused(f"nothing leads to {lost[0]}")
        return known


def tables_of(of, function):
    """Where the data begins that a function names relative to an instruction: section and address. Jump tables are among it."""
    named = (it for it in of.relocations.get(function.section, []) if function.begin <= it.at < function.end and it.kind == RELATIVE)
    return {(section, at + 4) for section, at in map(of.target, named) if section not in of.instructions}


def table_targets(of, function, begin, begins):
    """Where a jump table leads, whose entries of 4 bytes are relative to its begin; none if it isn't one of this function."""
    section, base = begin
    entries, at = {it.at: it for it in of.relocations.get(section, [])}, base
    while at in entries and entries[at].kind == RELATIVE and (at == base or (section, at) not in begins):
        of_code, value = of.target(entries[at])
        target = value - (at - base)
        if of_code != function.section or not function.begin <= target < function.end:
            return
        yield target
        at += 4


def number(value):
    """An unsigned number in LEB128."""
    return bytes([value]) if value < 128 else bytes([value & 127 | 128]) + number(value >> 7)


def advance(by):
    """DW_CFA_advance_loc, in the shortest of its forms."""
    if by < 64:
        return bytes([0x40 | by])
    return struct.pack("<BB", 2, by) if by < 256 else struct.pack("<BH", 3, by) if by < 65536 else struct.pack("<BI", 4, by)


def change(old, new):
    """What makes one frame of another: DW_CFA_def_cfa_offset, DW_CFA_restore and DW_CFA_offset."""
    depth = b"" if old.depth == new.depth else b"\x0e" + number(new.depth)
    restored = [bytes([0xC0 | NUMBERS[name]]) for name, _ in old.kept if name not in dict(new.kept)]
    kept = [bytes([0x80 | NUMBERS[name]]) + number(at // 8) for name, at in new.kept if (name, at) not in old.kept]
    return b"".join([depth, *restored, *kept])


def described(known, begin):
    """The call frame instructions of a function."""
    made, at, frame = b"", begin, Frame()
    for there in sorted(known):
        if known[there] != frame:
            made += advance(there - at) + change(frame, known[there])
            at, frame = there, known[there]
    return made


def entry(content):
    """An entry of .eh_frame: its length, which is made whole words of 8 bytes, and its content."""
    padded = content + bytes(-(len(content) + 4) % 8)
    return struct.pack("<I", len(padded)) + padded


def framed(of, section):
    """The functions that have frames: section and address of each."""
    begins, at = set(), section.at
    while at < section.at + section.size:
        length, of_common = struct.unpack_from("<II", of.data, at)
        if of_common:
            begins.add(at + 8 - section.at)
        at += 4 + length
    return {of.target(it) for it in of.relocations[of.sections.index(section)] if it.at in begins}


def outside_functions(of, functions):
    """Code of no function, which nothing could be written for."""
    for section, instructions in of.instructions.items():
        inside = [(it.begin, it.end) for it in functions if it.section == section]
        for at, text in instructions:
            if not PADDING.match(text) and not any(begin <= at < end for begin, end in inside):
                yield f"{of.sections[section].name} at {at:#x}, {text}: no function has it"


def all_frames(of, functions):
    """The frames of these functions; stops with all that are refused."""
    known, refused = {}, []
    for it in functions:
        try:
            known[it] = Code(of, it).frames()
        except Refused as why:
            refused.append(f"{it.name}: {why}")
    if refused:
        raise Refused("\n".join(refused))
    return known


def add_to(path):
    """Writes the frames of each function of an object that has none; the object has some already, of other functions."""
    of = Object(path)
    written, moved = of.section(".eh_frame"), of.section(".rela.eh_frame")
    functions, have = of.functions(), framed(of, written)
    outside = list(outside_functions(of, functions))
    if outside:
        raise Refused("\n".join(outside))
    content, places = of.content(written), of.content(moved)
    common = len(content)
    content += entry(COMMON)
    for it, known in all_frames(of, [it for it in functions if (it.section, it.begin) not in have]).items():
        places += struct.pack("<QQq", len(content) + 8, of.section_symbol(it.section) << 32 | RELATIVE, it.begin)
        content += entry(struct.pack("<IiIB", len(content) + 4 - common, 0, it.end - it.begin, 0) + described(known, it.begin))
    of.rewrite(path, {written: content, moved: places})
