"""Programs of gcc and ld and others, as they are and with fields of their headers changed, read by `nested` and by readelf. From what readelf tells
of a file follows by docs/ANSWERS.md the first check that it fails, which is to be the answer of `interp` with no step; and what `list` prints of
a program that passes are the words of its code at their places, for a file as gcc left it those that objdump shows.

Left out: files of more than 64 MiB (images, check 1) and of so many pages that are not 0 (check 5). Section headers whose number stands in
section 0, since e_shnum is 0: here there are no sections then. `list` is not asked of programs of a million words.
"""
import re
import struct
from contextlib import contextmanager

import mips

CASES = 2000
# the places and sizes of numbers: class, order of bytes, version, type, machine, version of the object, places of both tables, and of each of them
# the size of a header and how many there are; of a program header all but the physical address and the alignment; of a section header the type, the
# flags, the address and the size
HEADER = ((4, "B"), (5, "B"), (6, "B"), (16, "H"), (18, "H"), (20, "I"), (28, "I"), (32, "I"), (42, "H"), (44, "H"), (46, "H"), (48, "H"))
SEGMENT = (0, 4, 8, 16, 20, 24)
SECTION = (4, 8, 12, 20)
SOURCE = """
int numbers[2000] = {1, 2, 3}; int zeros[3000]; const int table[40] = {4, 5, 6}; static volatile int more = 7;
int sum(const int *a, int n) { int s = 0; while (n-- > 0) s += a[n] * (n % 3 ? more : 2); return s; }
void __start(void) { zeros[1] = sum(numbers, 2000) + sum(table, 40); for (;;) { } }
"""
FLAGS = "-O2 -mips2 -mabi=32 -msoft-float -mno-abicalls -fno-pic -G0 -ffreestanding -nostdlib -static -Wl,-e,__start -Wl,--build-id=none".split()
VARIANTS = (
    [],
    ["-s"],
    ["-Wl,-N"],
    ["-Wl,-n"],
    ["-O0"],
    ["-Wl,-Ttext=0x7efff000"],
    ["-Wl,-Tdata=0x7ef00000"],
    ["-Wl,-z,separate-code"],
    ["-ffunction-sections"],
    ["-r"],
    ["-g"],
)


# ---- files as they are made


def compiled(trial):
    """Programs of both compilers, by the order of bytes."""
    with open(trial.path("source.c"), "w", encoding="ascii") as file:
        file.write(SOURCE)
    made = []
    for compiler in ("mips-linux-gnu-gcc", "mipsel-linux-gnu-gcc"):
        for i, flags in enumerate(VARIANTS):
            name = f"{compiler[:6]}.{i}"
            flags = [f for f in FLAGS if f != "-static" or flags != ["-r"]] + flags
            made.append(built(trial, compiler, *flags, "-o", name))
    return [*made, built(trial, "gcc", "-nostdlib", "-static", "-Wl,-e,__start", "-o", "native")]


def built(trial, *words):
    status, _, error = trial.call(*words, "source.c")
    if status:
        raise RuntimeError(error.decode())
    with open(trial.path(words[-1]), "rb") as file:
        return file.read()


def with_code_sections(random):
    """A program of an executable segment and one of data, with code sections one after the other, that may touch, or be many."""
    order = random.choice("<>")
    count = random.choice((1, 2, 5, 64, 65, 70))
    words = [random.getrandbits(32) & ~(0xF << 28) for _ in range(40 + 3 * count)]
    if random.random() < 0.1:
        words[random.randrange(len(words))] = random.choice((0x44000000, 0xC4000000, 0xE4000000)) | random.getrandbits(26)
    text = random.choice((0x00400000, 0x00400000, 0x60000000, 0x7EF00000))
    # apart, as high as may be, or on the page where the code ends
    data = random.choice((0x10000000, 0x20000000, 0x7EFFF000, text + 4 * len(words), text + 4 * len(words) - random.choice((0, 0, 1))))
    file = bytearray(mips.program(order, text, [(text, 5, mips.bytes_of(words, order)), (data, 6, random.randbytes(random.randrange(1, 9000)))]))
    sections, at = [(0, 0, 0, 0)], text
    for _ in range(count):
        at += 4 * random.choice((0, 0, 1) if count < 60 else (1,))
        size = random.choice((4, 4, 8, 7, 0)) if count < 60 else 4
        at += random.choice((1, 2)) if random.random() < 0.01 else 0
        sections.append((1, random.choice((6, 6, 6, 2)) if count < 60 else 6, at, size))
        at += (size + 3) // 4 * 4
    file += bytes(-len(file) % 4)
    struct.pack_into(f"{order}I", file, 32, len(file))
    struct.pack_into(f"{order}H", file, 48, len(sections))
    for kind, flags, address, size in sections:
        # readelf wants a name and a place in the file
        file += struct.pack(f"{order}10I", 0, kind, flags, address, 4096 + address - text if kind else 0, size, 0, 0, 1, 0)
    return bytes(file)


def large(random):
    """A program of some 1,048,576 words of code, which is the most."""
    count = 1_048_576 + random.choice((-1, 0, 1))
    return mips.program(random.choice("<>"), 0x00400000, [(0x00400000, 5, bytes(4 * count))])


# ---- and changed


def other_number(random, old, size, length):
    most = 256**size - 1
    choices = (
        0,
        1,
        2,
        old + 1,
        old - 1,
        old + 4,
        old - 4,
        old ^ 1 << random.randrange(8 * size),
        2 * old,
        random.randrange(most + 1),
        most,
        length,
        length - old,
    )
    choices += (0x7F000000 - random.randrange(3), 0x00400000 + random.randrange(0x3000), 0x10000000, old & ~4095, 32, 40)
    return random.choice(choices) & most


def changed(random, file):
    """A file with some numbers of its header, its program headers or its section headers changed, or cut."""
    file = bytearray(file)
    if len(file) < 52 or file[4] != 1:
        return bytes(file)
    order = "<" if file[5] == 1 else ">"
    (phoff, shoff), (phnum, _, shnum) = struct.unpack_from(f"{order}II", file, 28), struct.unpack_from(f"{order}HHH", file, 44)
    for _ in range(random.choice((1, 1, 2, 3))):
        choice = random.random()
        if choice < 0.12:
            at, form = random.choice(HEADER)
        elif choice < 0.6 and phnum:
            at, form = phoff + 32 * random.randrange(phnum) + random.choice(SEGMENT), "I"
        elif choice < 0.9 and shnum:
            at, form = shoff + 40 * random.randrange(shnum) + random.choice(SECTION), "I"
        elif choice < 0.94:
            at, form = random.randrange(4), "B"
        else:
            del file[random.choice((random.randrange(len(file) + 1), random.randrange(60), max(0, len(file) - random.randrange(50)))) :]
            break
        size = struct.calcsize(form)
        if at + size <= len(file):
            (old,) = struct.unpack_from(f"{order}{form}", file, at)
            struct.pack_into(f"{order}{form}", file, at, other_number(random, old, size, len(file)))
    return bytes(file)


# ---- what readelf tells


class Told:
    """The header, the program headers and the section headers of a file, as readelf prints them."""

    def __init__(self, trial):
        _, out, _ = trial.call("readelf", "-hlSW", "file")
        header, _, self.tables = out.decode(errors="replace").partition("Section header string table index:")
        fields = dict(re.findall(r"^ +([A-Za-z/ ()]+?): +(.*)$", header, re.M))
        versions = re.findall(r"^ +Version: +(\S+)", header, re.M)
        self.is_elf = bool(fields)
        if not self.is_elf:
            return
        first = lambda name: int(fields[name].split()[0], 0)
        self.is_32 = fields["Class"] == "ELF32"
        self.has_order = "endian" in fields["Data"] and "unknown" not in fields["Data"]
        self.is_version_1 = versions[0] == "1" and int(versions[1], 0) == 1
        self.is_executable = fields["Type"].startswith("EXEC")
        self.is_mips = fields["Machine"].startswith("MIPS R3000") and "X" not in fields["Machine"]
        self.phoff, self.shoff = first("Start of program headers"), first("Start of section headers")
        self.phentsize, self.phnum = first("Size of program headers"), first("Number of program headers")
        self.shentsize, self.shnum = first("Size of section headers"), first("Number of section headers")
        self.extended = "(" in fields["Number of section headers"] or "(" in fields["Number of program headers"]

    def read_tables(self, with_sections):
        row = r"^ +(\S.*?) +0x([0-9a-f]+) 0x([0-9a-f]+) 0x[0-9a-f]+ 0x([0-9a-f]+) 0x([0-9a-f]+) (...) (?:0x)?[0-9a-f]+$"
        self.segments = [Segment(*r) for r in re.findall(row, self.tables, re.M)]
        row = r"^ +\[ *(\d+)\].*? ?(\S+) +([0-9a-f]{8}) ([0-9a-f]{6,8}) ([0-9a-f]{6,8}) [0-9a-f]{2,8} +([A-Za-z]*) +\d+ +\d+ +\d+$"
        self.sections = [Section(*r) for r in re.findall(row, self.tables, re.M)] if with_sections else []


class Segment:
    def __init__(self, kind, offset, address, in_file, in_memory, flags):
        self.is_dynamic, self.is_loaded = kind in ("DYNAMIC", "INTERP"), kind == "LOAD"
        self.offset, self.address, self.in_file, self.in_memory = (int(n, 16) for n in (offset, address, in_file, in_memory))
        self.end, self.end_in_file = self.address + self.in_memory, self.address + self.in_file
        self.is_live = self.is_loaded and self.in_memory > 0
        self.writes, self.executes = "W" in flags, "E" in flags


class Section:
    def __init__(self, number, kind, address, _, size, flags):
        self.number, self.address, self.size = int(number), int(address, 16), int(size, 16)
        self.is_code = kind == "PROGBITS" and "A" in flags and "X" in flags and self.size > 0


# ---- the checks of docs/ANSWERS.md


def first_at(items, fails):
    return next((i for i, item in enumerate(items) if fails(item)), None)


def elf_fault(told, length):
    """The first of the checks 1 to 10, by the header, or none."""
    if length < 52:
        return 1, 0, 0
    if not told.is_elf:
        return 2, 0, 0
    checks = (
        (3, not told.is_32),
        (4, not told.has_order),
        (5, not told.is_version_1),
        (6, not told.is_executable),
        (7, not told.is_mips),
        (8, told.phnum == 0),
        (9, told.phentsize != 32),
        (10, told.phoff + 32 * told.phnum > length),
    )
    kind = next((kind for kind, fails in checks if fails), None)
    return (kind, 0, 0) if kind else None


def table_fault(told, length, has_sections):
    """The first of the checks 11 to 22, or none."""
    segments = told.segments
    live = [s for s in segments if s.is_live]
    faults = [
        (11, first_at(segments, lambda s: s.is_dynamic)),
        (12, first_at(segments, lambda s: s.is_loaded and s.in_file and s.offset + s.in_file > length)),
        (13, first_at(segments, lambda s: s.is_loaded and s.in_file > s.in_memory)),
        (14, first_at(segments, lambda s: s.is_live and s.end > 0x7F000000)),
    ]
    for kind, i in faults:
        if i is not None:
            return kind, i, 0
    for i, s in enumerate(segments):
        j = first_at(segments[i + 1 :], lambda t, s=s: s.is_live and t.is_live and s.address < t.end and t.address < s.end)
        if j is not None:
            return 15, i, i + 1 + j
    i = first_at(segments, lambda s: s.is_live and s.writes and s.executes)
    if i is not None:
        return 16, i, 0
    if has_sections and told.shentsize != 40:
        return 17, 0, 0
    if has_sections and told.shoff + 40 * told.shnum > length:
        return 18, 0, 0
    inside = lambda s: any(t.executes and t.address <= s.address and s.address + s.size <= t.end_in_file for t in live)
    for kind, fails in ((19, lambda s: s.is_code and not inside(s)), (20, lambda s: s.is_code and s.address % 4)):
        i = first_at(told.sections, fails)
        if i is not None:
            return kind, i, 0
    ranges = code_ranges(told, has_sections)
    if not any(last > first for first, last in ranges):
        return 21, 0, 0
    written = [(s.address >> 12, s.end - 1 >> 12) for s in live if s.writes]
    pages = [
        page for first, last in ranges if last > first for page in range(first >> 12, (last - 1 >> 12) + 1) if any(a <= page <= b for a, b in written)
    ]
    return (22, min(pages), 0) if pages else None


def code_ranges(told, has_sections):
    """The code: for each code section, or each executable segment where there are no sections, its words from first to last."""
    if has_sections:
        return [(s.address, s.address + s.size // 4 * 4) for s in told.sections if s.is_code]
    live = [s for s in told.segments if s.is_live and s.executes]
    return [((s.address + 3) // 4 * 4, max((s.address + 3) // 4 * 4, s.end_in_file // 4 * 4)) for s in live]


def joined(ranges):
    """Ranges that rise and do not touch."""
    made = []
    for first, last in sorted(r for r in ranges if r[1] > r[0]):
        if made and first <= made[-1][1]:
            made[-1] = (made[-1][0], max(made[-1][1], last))
        else:
            made.append((first, last))
    return made


def image_fault(told, file, order, runs, heap, stack):
    """The first of the checks of images, or none."""
    words = sum(last - first for first, last in runs) // 4
    if words > 1_048_576:
        return 2, words, 0
    if len(runs) > 64:
        return 3, len(runs), 0
    segments = joined([(s.address >> 12, (s.end - 1 >> 12) + 1) for s in told.segments if s.is_live])
    pages = sum(last - first for first, last in segments) + heap + stack + 1
    if pages > 65_536:
        return 4, pages, 0
    start = segments[-1][1]
    parts = [*segments, (start, start + heap), (0x7FFFF - stack, 0x7FFFF), (0x7FFFF, 0x80000)]
    shared = [max(a[0], b[0]) for i, a in enumerate(parts) for b in parts[i + 1 :] if max(a[0], b[0]) < min(a[1], b[1])]
    if shared:
        return 6, min(shared), 0
    for at, word in code_words(told, file, order, runs):
        if word >> 26 in (0x11, 0x31, 0x39):
            return 7, at, word
    return None


def code_words(told, file, order, runs):
    """The words of the code with their addresses."""
    live = [s for s in told.segments if s.is_live and s.executes]
    for first, last in runs:
        whole = next((s for s in live if s.address <= first and last <= s.end_in_file), None)
        if whole:
            data = file[whole.offset + first - whole.address :][: last - first]
        else:
            data = b"".join(byte_at(live, file, at) for at in range(first, last))
        yield from zip(range(first, last, 4), struct.unpack(f"{order}{(last - first) // 4}I", data))


def byte_at(live, file, at):
    s = next(s for s in live if s.address <= at < s.end_in_file)
    return file[s.offset + at - s.address :][:1]


# ---- both


def refusal(kind, fault):
    """The line that refuses a file; an image's last number is hexadecimal."""
    return f"nested: {kind} {fault[0]} {fault[1]} {fault[2]:{'08X' if kind == 'image' else 'd'}}"


def read_by_readelf(trial, file):
    """The line that refuses a file for what it is, or none, and what readelf tells of a program; or a rule by which the file is left out."""
    told = Told(trial)
    fault = elf_fault(told, len(file))
    if fault:
        return refusal("elf", fault), None, None
    if told.extended:
        return None, None, "numbers in section 0"
    has_sections = told.shoff > 0 and told.shnum > 0
    reads = has_sections and told.shentsize == 40 and told.shoff + 40 * told.shnum <= len(file)
    told.read_tables(reads)
    if len(told.segments) != told.phnum or reads and len(told.sections) != told.shnum:
        raise RuntimeError(f"readelf shows {len(told.segments)} of {told.phnum} and {len(told.sections)} of {told.shnum} headers")
    fault = table_fault(told, len(file), has_sections)
    told.runs = joined(code_ranges(told, has_sections))
    return (refusal("elf", fault) if fault else None), told, None


def expected(told, file, order, heap, stack):
    """The line that refuses a program for want of an image, or none."""
    fault = image_fault(told, file, order, told.runs, heap, stack)
    return refusal("image", fault) if fault else None


def listed(out):
    return [(int(line[:8], 16), int(line[10:18], 16)) for line in out.decode().splitlines()]


@contextmanager
def ready(trial):
    trial.needs("readelf", "gcc", "mips-linux-gnu-gcc", "mipsel-linux-gnu-gcc", "mips-linux-gnu-objdump")
    programs = compiled(trial)
    for i, file in enumerate(programs):
        shown_as_objdump(trial, i, file)
    yield programs


def try_case(trial, k, programs):
    random = trial.random(k)
    choice = random.random()
    file = random.choice(programs) if choice < 0.7 else with_code_sections(random) if choice < 0.995 else large(random)
    if choice < 0.995 and random.random() < 0.85:
        file = changed(random, file)
    with open(trial.path("file"), "wb") as out:
        out.write(file)
    heap, stack = random.choice((0, 256, 256, 4096)), random.choice((1, 64, 64, 2000, 32768 if random.random() < 0.2 else 64))
    refused, told, rule = read_by_readelf(trial, file)
    if rule:
        return trial.leave_out(rule)
    order = "<" if file[5:6] == b"\1" else ">"
    wanted = refused or expected(told, file, order, heap, stack) or "nested: spent"
    _, _, line = trial.ask("interp", "file", "--steps", "0", "--heap", str(heap), "--stack", str(stack))
    trial.came(" ".join(wanted.split()[1:3]) if wanted != "nested: spent" else "programs")
    if line != wanted:
        trial.differ(k, f"{line}; and {wanted}")
    if not refused and len(file) < 1 << 20:
        compare_list(trial, k, file, told, order)


def compare_list(trial, k, file, told, order):
    """`list` takes a program for one with the default heap and stack."""
    wanted = expected(told, file, order, 256, 64)
    _, out, line = trial.ask("list", "file")
    words = [] if wanted else list(code_words(told, file, order, told.runs))
    trial.came("words", len(words))
    if line != (wanted or "") or listed(out) != words:
        trial.differ(k, f"list: {line or 'other words'}; and {wanted}")


def shown_as_objdump(trial, i, file):
    """The words of a program as it was made, beside those that objdump shows."""
    with open(trial.path("file"), "wb") as out:
        out.write(file)
    status, out, _ = trial.ask("list", "file")
    if status == 0:
        _, shown, _ = trial.call("mips-linux-gnu-objdump", "-d", "-z", "file")
        words = [(int(a, 16), int(w, 16)) for a, w in re.findall(r"^ *([0-9a-f]+):\t([0-9a-f]{8}) ", shown.decode(), re.M)]
        if listed(out) != words:
            trial.differ(-1 - i, "objdump shows other words")
