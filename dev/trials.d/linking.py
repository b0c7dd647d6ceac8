"""Objects of the GNU assembler and of gcc at random, linked by `nested link` and by the GNU linker with a script that names their sections in the
order of docs/LINKING.md: each byte of both segments, and the entry. Where one refuses objects, the other has to do so, for the same reason. A third
of the cases has an object of which some numbers are others: these, of which the GNU linker takes more and less, are linked by
bench/link/reference.py, which was written from docs/LINKING.md alone, and the whole program or the fault has to be the same.

Left out, since docs/LINKING.md differs: common symbols, small data, relocations of code that does not depend on its place, sections that may be
merged, and two sections of one name in an object, which a script cannot tell apart.
"""
import os
import re
import struct
import sys
from contextlib import contextmanager

from c_sources import Sources, flags
from common import TOP

sys.path.insert(0, os.path.join(TOP, "bench", "link"))
import reference

CASES = 1500
TEXT, DATA = 0x00400000, 0x10000000
# sections by name: the flags and the type
SECTIONS = {".text": ("ax", "progbits"), ".text.hot": ("ax", "progbits"), ".code": ("awx", "progbits"), ".rodata": ("a", "progbits")}
SECTIONS |= {".constants": ("a", "progbits"), ".nothing": ("a", "nobits"), ".data": ("aw", "progbits"), ".data.own": ("aw", "progbits")}
SECTIONS |= {".bss": ("aw", "nobits"), ".zeros": ("aw", "nobits")}
# what the GNU linker says of a fault, by the kind of docs/LINKING.md
SAID = {9: r"LO16|HI16", 10: r"multiple definition", 11: r"undefined reference|discarded section", 13: r"truncated to fit|non-instruction-aligned"}


class Symbol:
    def __init__(self, name, owner, binding, section):
        self.name, self.owner, self.binding, self.section = name, owner, binding, section


class Objects:
    """The texts of a few objects, which refer to each other."""

    def __init__(self, random):
        self.random = random
        count = random.choice((1, 1, 2, 3, 4))
        self.sections = [[".text"] * (i == 0) + [n for n in SECTIONS if random.random() < 0.45 and (i or n != ".text")] for i in range(count)]
        self.symbols = [Symbol("__start", 0, "globl", ".text")]
        for i, names in enumerate(self.sections):
            for n in range(random.randrange(5) if names else 0):
                binding = random.choice(("globl", "globl", "weak", "local", "local"))
                name = f"shared{random.randrange(3)}" if binding == "weak" and random.random() < 0.7 else f"s{i}_{n}"
                if all(s.name != name or s.owner != i for s in self.symbols):
                    self.symbols.append(Symbol(name, i, binding, random.choice(names)))
        if random.random() < 0.3:
            self.add_number(Symbol("shared0", random.randrange(count), "globl", None))
        if random.random() < 0.03:
            self.add_number(Symbol("__start", count - 1, random.choice(("globl", "weak")), None))
        self.texts = [self.text(i) for i in range(count)]

    def add_number(self, symbol):
        """A symbol that stands for a number, where its object has no other one of the name."""
        if all((s.name, s.owner) != (symbol.name, symbol.owner) for s in self.symbols):
            self.symbols.append(symbol)

    def text(self, i):
        lines = [".set noreorder", ".set noat", ".set nomacro"]
        for name in self.sections[i]:
            flags, kind = SECTIONS[name]
            lines += [
                f'.section {name},"{flags}",@{kind}',
                f".balign {1 << self.random.choice((2, 2, 3, 4, 6))}" if kind == "progbits" else f".balign {1 << self.random.randrange(7)}",
            ]
            inside = [s for s in self.symbols if s.owner == i and s.section == name]
            parts = [self.unit(i, name) for _ in range(self.random.choice((0, 1, 4, 12)))]
            for s in inside:
                parts.insert(self.random.randrange(len(parts) + 1), [f".{s.binding} {s.name}"] * (s.binding != "local") + [f"{s.name}:"])
            lines += [line for part in parts for line in part]
            if name == ".text" and any(s.name == "__start" for s in inside):
                lines.append("nop")
        for s in self.symbols:
            if s.owner == i and s.section is None:
                lines += [f".{s.binding} {s.name}", f"{s.name} = {4 * self.random.getrandbits(20):#x}"]
        if self.random.random() < 0.2:
            lines.append(".weak nowhere")
        return "\n".join(lines) + "\n"

    def symbol(self, i, within=None):
        """A name that object i may use, in executable sections where it is to be jumped to."""
        random = self.random
        if random.random() < 0.005:
            return "missing"
        fitting = [
            s.name
            for s in self.symbols
            if (s.binding != "local" or s.owner == i) and (within is None or s.section is None or s.section in within) and (s.name != "nowhere")
        ]
        return random.choice(fitting) if fitting else "__start"

    def reference(self, i):
        offset = self.random.choice((0, 0, 4, -4, 0x7FFC, 0x8000, -0x8000, 0x12344))
        return f"{self.symbol(i)}{offset:+d}"

    def unit(self, i, section):
        random = self.random
        flags, kind = SECTIONS[section]
        if kind == "nobits":
            return [f".space {random.randrange(1, 40)}"]
        if "x" not in flags:
            return [f".word {self.reference(i)}"] if random.random() < 0.5 else [f".word {random.getrandbits(32):#x}"]
        choice = random.random()
        if choice < 0.25:
            name = self.symbol(i, (".text", ".text.hot", ".code") if random.random() < 0.99 else None)
            return [f"{random.choice(('j', 'jal'))} {name}{random.choice((0, 0, 4, 8, -4)):+d}", "nop"]
        if choice < 0.6:
            symbol = self.reference(i)
            upper = [f"lui $4,%hi({symbol})"] * random.choice((1, 1, 1, 2))
            lower = [f"addiu $4,$4,%lo({symbol})"] * random.choice((1, 1, 2))
            return upper + lower if random.random() < 0.99 else upper
        return [f".word {self.reference(i)}"] if choice < 0.7 else [f"addu $2,$3,${random.randrange(32)}"]


# ---- objects


def placed_sections(path):
    """The names of the sections of an object that are placed, in their order, each with the part of the program that it goes into."""
    with open(path, "rb") as file:
        data = file.read()
    (table,), (count, names) = struct.unpack_from(">I", data, 32), struct.unpack_from(">HH", data, 48)
    headers = [struct.unpack_from(">10I", data, table + 40 * i) for i in range(count)]
    start = headers[names][4]
    named = [(data[start + h[0] : data.index(b"\0", start + h[0])].decode(), h[1], h[2]) for h in headers]
    part = lambda kind, flags: 1 if flags & 4 else 2 if not flags & 1 else 3 if kind == 1 else 4
    return [(name, part(kind, flags)) for name, kind, flags in named if kind in (1, 8) and flags & 2]


def script(names, sections):
    """A script for the GNU linker: both segments, with their sections part by part."""
    parts = {n: [] for n in (1, 2, 3, 4)}
    for file, placed in zip(names, sections):
        for section, part in placed:
            parts[part].append(f'KEEP("{file}"({section}))')
    of = lambda *numbers: " ".join(text for n in numbers for text in parts[n])
    return f"SECTIONS {{ .first {TEXT:#x} : {{ {of(1, 2)} }} .second {DATA:#x} : {{ {of(3, 4)} }} /DISCARD/ : {{ *(*) }} }}\n"


def objects_of(trial, random):
    """The names of the objects of a case."""
    is_c = random.random() < 0.2
    if is_c:
        texts, command = Sources(random).texts, ("mips-linux-gnu-gcc", *flags(random))
    else:
        texts, command = Objects(random).texts, ("mips-linux-gnu-as", "-mips2", "-32", "-EB", "-mno-shared", "-no-mips16", "-G0")
    names = []
    for i, text in enumerate(texts):
        source = f"{i}.{'c' if is_c else 's'}"
        with open(trial.path(source), "w", encoding="ascii") as file:
            file.write(text)
        status, _, error = trial.call(*command, "-o", f"{i}.o", source)
        if status:
            raise RuntimeError(error.decode())
        names.append(f"{i}.o")
    return names


def memory_of(path):
    """The entry of a program, and the bytes of its segments by their addresses."""
    with open(path, "rb") as file:
        data = file.read()
    (entry, table), (count,) = struct.unpack_from(">II", data, 24), struct.unpack_from(">H", data, 44)
    headers = [struct.unpack_from(">8I", data, table + 32 * i) for i in range(count)]
    return entry, {h[2]: data[h[1] : h[1] + h[4]] + bytes(h[5] - h[4]) for h in headers if h[0] == 1 and h[5]}


@contextmanager
def ready(trial):
    trial.needs("mips-linux-gnu-as", "mips-linux-gnu-gcc", "mips-linux-gnu-ld")
    yield


def changed(random, file):
    """An object with some numbers of its header, its section headers, its symbols or its relocations changed, or cut."""
    file = bytearray(file)
    (table,), (count,) = struct.unpack_from(">I", file, 32), struct.unpack_from(">H", file, 48)
    headers = [struct.unpack_from(">10I", file, table + 40 * i) for i in range(count)]
    for _ in range(random.choice((1, 1, 2))):
        choice = random.random()
        if choice < 0.1:
            at, size = random.choice(((random.randrange(7), 1), (16, 2), (18, 2), (20, 4), (32, 4), (46, 2), (48, 2)))
        elif choice < 0.5:
            at, size = table + 40 * random.randrange(count) + 4 * random.choice((1, 2, 4, 5, 6, 7, 8)), 4
        elif choice < 0.95:
            # a symbol or a relocation
            tables = [h for h in headers if h[1] in (2, 9) and h[5]]
            if not tables:
                continue
            of = random.choice(tables)
            entry = of[4] + of[9] * random.randrange(of[5] // of[9])
            at, size = random.choice(
                ((entry, 4), (entry + 4, 4), (entry + 7, 1)) if of[1] == 9 else ((entry, 4), (entry + 4, 4), (entry + 12, 1), (entry + 14, 2))
            )
        else:
            del file[random.randrange(len(file)) :]
            break
        old = int.from_bytes(file[at : at + size], "big")
        others = (
            0,
            1,
            2,
            3,
            4,
            5,
            6,
            9,
            old + 1,
            old - 1,
            old + 4,
            old ^ 1 << random.randrange(8 * size),
            random.getrandbits(8 * size),
            len(file),
            0xFFF1,
            0xFFF2,
            2 * old,
        )
        file[at : at + size] = (random.choice(others) % 256**size).to_bytes(size, "big")
    return bytes(file)


def compare_with_reference(trial, k, random, names):
    """Links objects, of which one is changed, by `nested link` and by reference.py."""
    files = []
    for name in names:
        with open(trial.path(name), "rb") as file:
            files.append(file.read())
    at = random.randrange(len(files))
    files[at] = changed(random, files[at])
    with open(trial.path(names[at]), "wb") as file:
        file.write(files[at])
    status, _, line = trial.ask("link", "own", *names)
    try:
        wanted, program = "", reference.link(files)
    except reference.Fault as fault:
        wanted, program = f"nested: {fault}", None
    trial.came(f"changed, kind {wanted.split()[3]}" if wanted else "changed and linked")
    if line != wanted:
        return trial.differ(k, f"{line or 'linked'}; and {wanted or 'linked'}")
    if program is not None:
        with open(trial.path("own"), "rb") as file:
            if file.read() != program:
                trial.differ(k, "another program than that of reference.py")


def try_case(trial, k, _):
    random = trial.random(k)
    names = objects_of(trial, random)
    if random.random() < 0.33:
        return compare_with_reference(trial, k, random, names)
    sections = [placed_sections(trial.path(name)) for name in names]
    if any(len(dict(placed)) < len(placed) for placed in sections):
        return trial.leave_out("two sections of one name")
    with open(trial.path("script"), "w", encoding="ascii") as file:
        file.write(script(names, sections))
    for name in ("own", "theirs"):
        if os.path.exists(trial.path(name)):
            os.unlink(trial.path(name))
    status, _, line = trial.ask("link", "own", *names)
    theirs, _, error = trial.call("mips-linux-gnu-ld", "-EB", "-e", "__start", "-T", "script", "-o", "theirs", *names)
    error = error.decode()
    if status and theirs:
        kind = int(line.split()[3])
        trial.came(f"kind {kind}")
        if not re.search(SAID.get(kind, "$^"), error):
            trial.differ(k, f"{line}; and {error.strip()[-300:]}")
    elif status and line.split()[3] == "9" and re.search(SAID[9], error):
        # the GNU linker warns, and goes on
        trial.came("kind 9")
    elif status or theirs:
        trial.differ(k, f"{line or 'linked'}; and {error.strip()[-300:] or 'linked'}")
    else:
        trial.came("linked")
        compare(trial, k)


def compare(trial, k):
    (entry, own), (their_entry, theirs) = memory_of(trial.path("own")), memory_of(trial.path("theirs"))
    if entry != their_entry:
        trial.differ(k, f"entry {entry:08x}, and {their_entry:08x}")
    for start in sorted({*own, *theirs}):
        mine, other = own.get(start, b""), theirs.get(start, b"")
        trial.came("bytes", len(mine))
        if mine.rstrip(b"\0") != other.rstrip(b"\0") or len(mine) != len(other):
            at = next((i for i, (a, b) in enumerate(zip(mine, other)) if a != b), min(len(mine), len(other)))
            trial.differ(k, f"{start + at:08x}: {mine[at:at + 8].hex()}, and {other[at:at + 8].hex()} (of {len(mine)} and {len(other)} bytes)")
