"""Linking once more, in Python: the bytes that `link_objects` is to give, or the fault. It was written from docs/LINKING.md, apart from
the crates, and it is tried against the GNU linker by `against-gnu-ld`.

    reference.py OUT IN.. [--entry SYMBOL]     links, or prints `object O K A`
"""
import struct
import sys
from collections import namedtuple

PROGBITS, SYMTAB, STRTAB, RELA, NOBITS, REL = 1, 2, 3, 4, 8, 9
WRITE, ALLOC, EXECINSTR = 1, 2, 4
ABS, LORESERVE = 0xFFF1, 0xFF00
R_NONE, R_32, R_26, R_HI16, R_LO16 = 0, 2, 4, 5, 6
TEXT, DATA = 0x00400000, 0x10000000
MASK = 0xFFFFFFFF

Section = namedtuple("Section", "type flags offset size link info align")
Symbol = namedtuple("Symbol", "name value binding index")
Relocation = namedtuple("Relocation", "target offset symbol type")


class Fault(Exception):
    def __init__(self, object, kind, at=0):
        super().__init__(f"object {object} {kind} {at}")
        self.answer = (object, kind, at)


def is_placed(section):
    return section.type in (PROGBITS, NOBITS) and bool(section.flags & ALLOC)


# ---- one object: kinds 1 to 8


class Object:
    def __init__(self, number, file):
        self.number, self.file = number, file
        self.read_header()
        self.check_sections()
        self.read_symbols()
        self.read_relocations()

    def fail(self, kind, at=0):
        raise Fault(self.number, kind, at)

    def read_header(self):
        file = self.file
        if len(file) < 52 or file[:7] != b"\x7fELF\1\2\1" or struct.unpack_from(">HHI", file, 16) != (1, 8, 1):
            self.fail(1)
        (start,), (size, count) = struct.unpack_from(">I", file, 32), struct.unpack_from(">HH", file, 46)
        if size != 40 or start and count and start + 40 * count > len(file):
            self.fail(2)
        headers = [struct.unpack_from(">10I", file, start + 40 * i) for i in range(count)] if start and count else []
        self.sections = [Section(h[1], h[2], h[4], h[5], h[6], h[7], h[8]) for h in headers]

    def target(self, section):
        """The placed section that a section of relocations is for, by its number, or None."""
        if section.info < len(self.sections) and is_placed(self.sections[section.info]):
            return section.info

    def check_sections(self):
        tables = [i for i, s in enumerate(self.sections) if s.type == SYMTAB]
        self.table = tables[0] if tables else None
        self.tables = tables
        self.strings = None
        if tables:
            link = self.sections[self.table].link
            if link < len(self.sections) and self.sections[link].type == STRTAB:
                self.strings = link
        for i, s in enumerate(self.sections):
            is_read = (
                (is_placed(s) and s.type == PROGBITS)
                or i in (self.table, self.strings)
                or (s.type == REL and self.target(s) is not None)
            )
            if is_read and s.offset + s.size > len(self.file):
                self.fail(3, i)
        for i, s in enumerate(self.sections):
            if is_placed(s) and s.align not in (0, *(1 << k for k in range(13))):
                self.fail(4, i)

    def read_symbols(self):
        self.symbols = []
        if self.table is None:
            return
        if len(self.tables) > 1:
            self.fail(5, self.tables[1])
        table = self.sections[self.table]
        if table.size % 16 or self.strings is None:
            self.fail(5, self.table)
        s = self.sections[self.strings]
        strings = self.file[s.offset : s.offset + s.size]
        for i in range(table.size // 16):
            name, value, _, info, _, index = struct.unpack_from(">IIIBBH", self.file, table.offset + 16 * i)
            end = strings.find(b"\0", name)
            if end < 0 or info >> 4 > 2 or index < LORESERVE and index >= len(self.sections):
                self.fail(5, i)
            self.symbols.append(Symbol(strings[name:end], value, info >> 4, index))
        for i, symbol in enumerate(self.symbols):
            if symbol.index >= LORESERVE and symbol.index != ABS:
                self.fail(6, i)

    def read_relocations(self):
        self.relocations = []
        for i, s in enumerate(self.sections):
            if s.type not in (REL, RELA) or self.target(s) is None:
                continue
            if s.type == RELA or s.size % 8:
                self.fail(7, i)
            target = self.sections[s.info]
            for k in range(s.size // 8):
                offset, info = struct.unpack_from(">II", self.file, s.offset + 8 * k)
                symbol = info >> 8
                if symbol >= len(self.symbols) or target.type != PROGBITS or offset % 4 or offset + 4 > target.size:
                    self.fail(7, offset)
                self.relocations.append(Relocation(s.info, offset, symbol, info & 0xFF))
        for r in self.relocations:
            if r.type not in (R_NONE, R_32, R_26, R_HI16, R_LO16):
                self.fail(8, r.offset)


# ---- all objects: kinds 9 to 14


def group_of(section):
    """0 code, 1 other sections that are only read, 2 those with bytes that can be written, 3 those of zeros."""
    if section.flags & EXECINSTR:
        return 0
    if not section.flags & WRITE:
        return 1
    return 2 if section.type == PROGBITS else 3


def layout(objects):
    """The place of each placed section, by object and number, and the ends of the four groups."""
    places, ends, at = {}, [], TEXT
    for group in range(4):
        if group == 2:
            at = DATA
        for o in objects:
            for i, s in enumerate(o.sections):
                if is_placed(s) and group_of(s) == group:
                    align = s.align or 1
                    at = -(-at // align) * align
                    places[o.number, i] = at
                    at += s.size
        ends.append(at)
    return places, ends


class Names:
    """What each name means: the object and the symbol that define it, or 0, or None."""

    def __init__(self, objects):
        self.strong, self.weak, self.needed = {}, {}, set()
        for o in objects:
            for i, s in enumerate(o.symbols):
                if s.binding == 0:
                    continue
                if s.index == 0:
                    if s.binding == 1:
                        self.needed.add(s.name)
                elif s.binding == 1:
                    if s.name in self.strong:
                        raise Fault(o.number, 10, i)
                    self.strong[s.name] = (o, s)
                else:
                    self.weak.setdefault(s.name, (o, s))

    def definition(self, name):
        return self.strong.get(name) or self.weak.get(name)


def lower_half(relocations, k):
    """The next R_MIPS_LO16 behind relocation k, of its section and symbol."""
    r = relocations[k]
    for later in relocations[k + 1 :]:
        if later.type == R_LO16 and (later.target, later.symbol) == (r.target, r.symbol):
            return later


def signed(number, bits):
    return number - (1 << bits) if number >> (bits - 1) else number


def link(files, entry=b"__start"):
    objects = [Object(i, file) for i, file in enumerate(files)]
    pairs = {}
    for o in objects:
        for k, r in enumerate(o.relocations):
            if r.type == R_HI16:
                pairs[o.number, k] = lower_half(o.relocations, k)
                if pairs[o.number, k] is None:
                    raise Fault(o.number, 9, r.offset)
    names = Names(objects)
    places, (code_end, text_end, data_end, zeros_end) = layout(objects)

    def place_of(o, symbol):
        """The value of a symbol that is defined, or None where its section is not placed."""
        if symbol.index == ABS:
            return symbol.value
        place = places.get((o.number, symbol.index))
        return None if place is None else (place + symbol.value) & MASK

    def value_of(o, number):
        symbol = o.symbols[number]
        if number == 0:
            return 0
        if symbol.binding == 0:
            return place_of(o, symbol)
        definition = names.definition(symbol.name)
        if definition:
            return place_of(*definition)
        return None if symbol.name in names.needed else 0

    for o in objects:
        for r in o.relocations:
            if r.type != R_NONE and value_of(o, r.symbol) is None:
                raise Fault(o.number, 11, r.offset)
    if text_end - TEXT > 1 << 24 or data_end - DATA > 1 << 24 or zeros_end - DATA > 1 << 30:
        raise Fault(0, 12)

    text, data = bytearray(text_end - TEXT), bytearray(data_end - DATA)

    def part(address):
        return (text, address - TEXT) if address < DATA else (data, address - DATA)

    for o in objects:
        for i, s in enumerate(o.sections):
            if is_placed(s) and s.type == PROGBITS:
                to, at = part(places[o.number, i])
                to[at : at + s.size] = o.file[s.offset : s.offset + s.size]
    for o in objects:
        for k, r in enumerate(o.relocations):
            if r.type == R_NONE:
                continue
            place, value = places[o.number, r.target], value_of(o, r.symbol)
            to, at = part(place + r.offset)
            (word,) = struct.unpack_from(">I", to, at)
            if r.type == R_32:
                word = (word + value) & MASK
            elif r.type == R_26:
                addend = (word & 0x03FFFFFF) << 2
                if o.symbols[r.symbol].binding:
                    addend = signed(addend, 28)
                goal = (value + addend) & MASK
                if goal % 4 or goal >= 0x10000000:
                    raise Fault(o.number, 13, r.offset)
                word = word & 0xFC000000 | goal >> 2
            elif r.type == R_HI16:
                low, low_at = part(place + pairs[o.number, k].offset)
                (low_word,) = struct.unpack_from(">I", low, low_at)
                ahl = ((word & 0xFFFF) << 16) + signed(low_word & 0xFFFF, 16)
                word = word & 0xFFFF0000 | (ahl + value + 0x8000 & MASK) >> 16
            else:
                word = word & 0xFFFF0000 | (word + value) & 0xFFFF
            struct.pack_into(">I", to, at, word)

    start = names.definition(entry)
    at = None
    if start and start[1].index != ABS:
        at = place_of(*start)
    if at is None or not any(is_placed(s) and s.flags & EXECINSTR for o in objects for s in o.sections):
        raise Fault(0, 14)

    segments = [(TEXT, text_end - TEXT, 5, bytes(text))]
    if zeros_end > DATA:
        segments.append((DATA, zeros_end - DATA, 6, bytes(data)))
    return written(at, segments, [(PROGBITS, ALLOC | EXECINSTR, TEXT, code_end - TEXT)])


# ---- the file


def aligned(at):
    return -(-at // 4) * 4


def written(entry, segments, sections):
    """An executable file: its header, the program headers, the bytes of the segments and the section headers."""
    at = 52 + 32 * len(segments)
    headers, contents, offsets = b"", bytearray(at), []
    for address, memory, flags, bytes_ in segments:
        at = aligned(len(contents))
        contents += bytes(at - len(contents)) + bytes_
        offsets.append((address, len(bytes_), at))
        headers += struct.pack(">8I", 1, at, address, address, len(bytes_), memory, flags, 4)
    table = aligned(len(contents))
    contents += bytes(table - len(contents)) + bytes(40)
    for type_, flags, address, size in sections:
        offset = next((at + address - first for first, size_, at in offsets if first <= address < first + size_), 0)
        contents += struct.pack(">10I", 0, type_, flags, address, offset, size, 0, 0, 4, 0)
    header = b"\x7fELF\1\2\1" + bytes(9) + struct.pack(">HHIIIII", 2, 8, 1, entry, 52, table, 0)
    header += struct.pack(">6H", 52, 32, len(segments), 40, 1 + len(sections), 0)
    contents[: len(header) + len(headers)] = header + headers
    return bytes(contents)


def main(words):
    entry = "__start"
    if "--entry" in words:
        at = words.index("--entry")
        entry = words[at + 1]
        del words[at : at + 2]
    files = [open(name, "rb").read() for name in words[1:]]
    try:
        file = link(files, entry.encode())
    except Fault as fault:
        print(fault)
        return 84
    with open(words[0], "wb") as out:
        out.write(file)
    print("bytes", len(file))
    return 0


if __name__ == "__main__":
    sys.exit(main(sys.argv[1:]))
