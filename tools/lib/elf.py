"""An object of ELF for x86-64: its sections, symbols and relocations, and its instructions as the kit's llvm-objdump prints them."""
import re
import struct
from typing import Dict, List, NamedTuple

import kit

EXECUTABLE, SYMBOLS, RELOCATIONS, FUNCTION, OF_SECTION, RELATIVE = 4, 2, 4, 2, 3, 2  # SHF_EXECINSTR, SHT_SYMTAB, SHT_RELA, STT_FUNC, STT_SECTION, R_X86_64_PC32
LINE = re.compile(r"^ *([0-9a-f]+):\s+(?:(?:notrack|bnd)\s+)?([^#<\n]*)", re.M)


class Section(NamedTuple):
    name: str
    kind: int
    flags: int
    at: int  # where it begins in the file
    size: int
    link: int
    info: int
    header: int  # where its header begins


class Symbol(NamedTuple):
    name: str
    kind: int
    section: int
    at: int
    size: int


class Relocation(NamedTuple):
    at: int
    kind: int
    symbol: int
    addend: int


class Function(NamedTuple):
    name: str
    section: int
    begin: int
    end: int


class Object:
    """What a file of ELF has. Sections, symbols and relocations are as in the file, and go by their numbers."""

    def __init__(self, path):
        with open(path, "rb") as it:
            self.data = it.read()
        self.sections = self.read_sections()
        table = next(it for it in self.sections if it.kind == SYMBOLS)
        self.symbols = [self.read_symbol(table, it) for it in range(table.size // 24)]
        self.relocations: Dict[int, List[Relocation]] = {it.info: self.read_relocations(it) for it in self.sections if it.kind == RELOCATIONS}
        self.instructions = self.disassembled(path)

    def read_sections(self):
        (begin,) = struct.unpack_from("<Q", self.data, 0x28)
        count, of_names = struct.unpack_from("<HH", self.data, 0x3C)
        headers = [(at, *struct.unpack_from("<IIQQQQII", self.data, at)) for at in range(begin, begin + 64 * count, 64)]
        names = headers[of_names][5]
        return [Section(self.text_at(names + name), kind, flags, at, size, link, info, header) for header, name, kind, flags, _, at, size, link, info in headers]

    def read_symbol(self, table, number):
        name, kind, _, section, at, size = struct.unpack_from("<IBBHQQ", self.data, table.at + 24 * number)
        return Symbol(self.text_at(self.sections[table.link].at + name), kind & 15, section, at, size)

    def read_relocations(self, section):
        read = (struct.unpack_from("<QQq", self.data, at) for at in range(section.at, section.at + section.size, 24))
        return [Relocation(at, info & 0xFFFFFFFF, info >> 32, addend) for at, info, addend in read]

    def text_at(self, at):
        return self.data[at : self.data.index(b"\0", at)].decode()

    def content(self, section):
        return self.data[section.at : section.at + section.size]

    def disassembled(self, path):
        """The instructions of each section of code, in their order: address and text."""
        printed = kit.llvm("llvm-objdump", "--disassemble", "--no-show-raw-insn", path, capture_output=True, text=True).stdout
        parts = re.split(r"^Disassembly of section (.*):$", printed, flags=re.M)[1:]
        code = [i for i, it in enumerate(self.sections) if it.flags & EXECUTABLE and it.size]
        if [self.sections[it].name for it in code] != parts[::2]:
            raise ValueError(f"llvm-objdump prints other sections of code than {path} has")
        return {it: [(int(at, 16), " ".join(text.split())) for at, text in LINE.findall(part)] for it, part in zip(code, parts[1::2])}

    def functions(self):
        """The functions, each once, even if it has several names."""
        found = {(it.section, it.at, it.at + it.size): it.name for it in self.symbols if it.kind == FUNCTION and it.size and it.section in self.instructions}
        return [Function(name, *place) for place, name in sorted(found.items())]

    def target(self, relocation):
        """The section that a relocation names, and where in it."""
        symbol = self.symbols[relocation.symbol]
        return symbol.section, symbol.at + relocation.addend

    def section(self, name):
        found = [it for it in self.sections if it.name == name]
        if len(found) != 1:
            raise ValueError(f"the object has {len(found)} sections {name}, and not one")
        return found[0]

    def section_symbol(self, section):
        return next(i for i, it in enumerate(self.symbols) if it.kind == OF_SECTION and it.section == section)

    def rewrite(self, path, contents):
        """Writes the file with other contents of some sections: after all else, and with their places in the headers."""
        data = bytearray(self.data)
        for section, content in contents.items():
            data += bytes(-len(data) % 8)
            struct.pack_into("<QQ", data, section.header + 24, len(data), len(content))
            data += content
        with open(path, "wb") as it:
            it.write(data)
