"""The words and texts of MIPS II instructions: `nested list` beside objdump for the processor R6000, which is that of MIPS II, and `nested asm`
beside the GNU assembler and linker. A case is 256 words at random and a text of 40 lines.

Left out, since docs/GUEST.md and docs/ASSEMBLER.md differ:
- Words of coprocessors (primary opcodes 10 to 13, 2F, 31 to 37 and 39 to 3F, hexadecimal), which are no instructions here. Those of floating
  point are in no program (the group `files` has them). JALX (1D), which objdump shows for every processor.
- SYNC with a number: objdump knows it of later processors alone, so it is asked as for MIPS32.
- In texts: signed immediates above 32,767, of which the GNU assembler makes two words, or none; targets that are numbers, which it takes for jumps
  alone; and JALR with one register twice, and branches that test and write register 31, which it refuses. BREAK has one number here, and two
  of ten bits there.
"""
import re
import struct
from contextlib import contextmanager

import mips

CASES = 1000
WORDS, LINES = 256, 40
TEXT, DATA = 0x00400000, 0x10000000
OTHERS = {*range(0x10, 0x14), 0x1D, 0x2F, *range(0x31, 0x38), *range(0x39, 0x40)}
FLOATS = (0x11, 0x31, 0x39)
OPS = [*range(1, 16), *range(0x14, 0x18), *range(0x20, 0x27), *range(0x28, 0x2C), 0x2E, 0x30, 0x38]


# ---- words


def word_at_random(random):
    choice = random.random()
    if choice < 0.2:
        word = random.getrandbits(32)
    elif choice < 0.5:
        word = mips.special(random.getrandbits(6), *(random.choice((0, 0, random.getrandbits(5))) for _ in range(4)))
    elif choice < 0.65:
        word = mips.immediate(1, random.getrandbits(5), random.getrandbits(5), random.getrandbits(16))
    else:
        word = mips.immediate(random.choice(OPS), random.getrandbits(5), random.choice((0, random.getrandbits(5))), random.getrandbits(16))
    return word ^ 1 << random.randrange(32) if random.random() < 0.1 else word


def number(text):
    return int(text, 0)


def normal(text):
    """An instruction as its mnemonic and numbers, of a text of either program."""
    name, _, rest = text.partition("\t" if "\t" in text else " ")
    numbers = [number(part) for part in re.findall(r"-?0[xX][0-9a-fA-F]+|-?\d+", rest)]
    if name == "jalr" and len(numbers) == 1:
        numbers.insert(0, 31)
    if name in ("neg", "negu"):
        name, numbers = name.replace("neg", "sub"), [numbers[0], 0, numbers[1]]
    if name in mips.DIVISIONS:
        # objdump puts register 0 before the two
        numbers = numbers[-2:]
    if name == "break":
        # two fields of ten bits
        first, second = (*numbers, 0, 0)[:2] if "," in rest or not numbers else (numbers[0], 0)
        numbers = [first << 10 | second]
    if name in ("syscall", "sync") and not numbers:
        numbers = [0]
    if name in mips.TRAPS and len(numbers) == 2:
        numbers.append(0)
    return name, *numbers


def own_normal(text):
    """The same of nested, whose BREAK has one number."""
    name, _, rest = text.partition(" ")
    return (name, number(rest)) if name == "break" else normal(text)


def objdump(trial, words, processor):
    with open(trial.path("words"), "wb") as file:
        file.write(struct.pack(f">{len(words)}I", *words))
    status, out, error = trial.call(
        "mips-linux-gnu-objdump",
        "-D",
        "-z",
        "-b",
        "binary",
        "-EB",
        "-m",
        processor,
        "-M",
        "no-aliases,reg-names=numeric",
        f"--adjust-vma={TEXT:#x}",
        "words",
    )
    lines = [line.split("\t", 2)[2] for line in out.decode().splitlines() if re.match(r" +[0-9a-f]+:\t", line)]
    assert status == 0 and len(lines) == len(words), error
    return [normal(line.strip()) for line in lines]


def is_numbered_sync(word):
    return word & ~0x7C0 == 0x0F and word != 0x0F


def try_words(trial, k, random):
    words = [w for w in (word_at_random(random) for _ in range(WORDS)) if w >> 26 not in FLOATS]
    with open(trial.path("listed"), "wb") as file:
        file.write(mips.program(">", TEXT, [(TEXT, 5, mips.bytes_of(words, ">"))]))
    status, out, line = trial.ask("list", "listed")
    if status:
        return trial.differ(k, f"list: {line}")
    listed = [text.split(" ", 2) for text in out.decode().splitlines()]
    theirs = objdump(trial, words, "mips:6000")
    later = objdump(trial, words, "mips:isa32r2") if any(map(is_numbered_sync, words)) else theirs
    for i, word in enumerate(words):
        at, shown, text = listed[i]
        if word >> 26 in OTHERS:
            wanted = (".word", word)
        else:
            wanted = later[i] if is_numbered_sync(word) else theirs[i]
        trial.came("no instruction" if wanted[0] == ".word" else "instructions")
        if (int(at.rstrip(":"), 16), int(shown, 16)) != (TEXT + 4 * i, word) or own_normal(text) != wanted:
            trial.differ(k, f"{word:08x} is {text}, and {wanted}")


# ---- texts


class Text:
    """Lines of assembly at random, with labels in both segments: those of nested, and those of the GNU assembler."""

    def __init__(self, random):
        self.random = random
        self.labels = {False: [f"word{i}" for i in range(4)], True: [f"here{i}" for i in range(4)]}
        left, in_text, lines = {of: list(names) for of, names in self.labels.items()}, True, []
        for _ in range(LINES):
            if left[in_text] and random.random() < 0.3:
                lines.append(left[in_text].pop() + ":")
            if random.random() < 0.08:
                in_text = not in_text
                lines.append(".text" if in_text else ".data")
            lines.append(self.instruction() if in_text and random.random() < 0.95 else self.data())
        for of, name in ((False, ".data"), (True, ".text")):
            lines += [name, *(label + ":" for label in left[of])]
        self.lines = [*lines, "syscall 0"]

    def own(self):
        return "\n".join(self.lines) + "\n"

    def gnu(self):
        """The same, where BREAK has two numbers, a division a third register, SYNC none, and nothing is rearranged or made of several words."""
        lines = [re.sub(r"^break (.*)", lambda m: f"break {number(m[1]) >> 10},{number(m[1]) & 1023}", line) for line in self.lines]
        lines = [re.sub(r"^(divu?) ", r"\1 $0,", line).replace("sync 0", "sync") for line in lines]
        return "\n".join([".set noreorder", ".set noat", ".set nomacro", *lines]) + "\n"

    def register(self):
        return f"${self.random.randrange(32)}"

    def shown(self, n):
        """A number, as it may be written."""
        if n < 0 or self.random.random() < 0.5:
            return str(n)
        return self.random.choice((f"{n:#x}", f"0x{n:X}", f"0x0{n:x}"))

    def between(self, first, last):
        return self.shown(self.random.choice((first, last, self.random.randint(first, last))))

    def data(self):
        if self.random.random() < 0.3:
            return f".space {4 * self.random.randrange(1, 5)}"
        return f".word {self.between(-(2**31), 2**32 - 1)}"

    def half(self):
        return f"%{self.random.choice(('hi', 'lo'))}({self.random.choice(self.labels[self.random.random() < 0.5])})"

    def signed(self):
        return self.half() if self.random.random() < 0.2 else self.between(-32768, 32767)

    def unsigned(self):
        return self.half() if self.random.random() < 0.2 else self.between(0, 65535)

    def target(self):
        return self.random.choice(self.labels[True])

    def instruction(self):
        r, between, signed, unsigned, target = self.register, self.between, self.signed, self.unsigned, self.target
        names = lambda *tables: self.random.choice([name for table in tables for name in table])
        makes = (
            lambda: f"{names(mips.THREE)} {r()},{r()},{r()}",
            lambda: f"{names(mips.VARIABLE_SHIFTS)} {r()},{r()},{r()}",
            lambda: f"{names(mips.SHIFTS)} {r()},{r()},{between(0, 31)}",
            lambda: f"{names(('addi', 'addiu', 'slti', 'sltiu'))} {r()},{r()},{signed()}",
            lambda: f"{names(('andi', 'ori', 'xori'))} {r()},{r()},{unsigned()}",
            lambda: f"lui {r()},{unsigned()}",
            lambda: f"{names(mips.PRODUCTS, mips.DIVISIONS)} {r()},{r()}",
            lambda: f"{names(('mfhi', 'mflo', 'mthi', 'mtlo', 'jr'))} {r()}",
            lambda: f"{names(mips.LOADS, mips.STORES)} {r()},{signed()}({r()})",
            lambda: f"{names(mips.BRANCHES_EQUAL)} {r()},{r()},{target()}",
            lambda: f"{names(mips.BRANCHES_ZERO, mips.BRANCHES_SIGN)} ${self.random.randrange(31)},{target()}",
            lambda: f"{names(('j', 'jal'))} {target()}",
            lambda: "jalr ${},${}".format(*self.random.sample(range(32), 2)),
            lambda: f"{names(mips.TRAPS)} {r()},{r()},{between(0, 1023)}",
            lambda: f"{names(mips.TRAP_IMMEDIATES)} {r()},{between(-32768, 32767)}",
            lambda: f"{names(('syscall', 'break'))} {between(0, 0xFFFFF)}",
            lambda: "sync 0",
        )
        return self.random.choice(makes)()


def segments(trial, name):
    """The bytes of the segments of a big-endian program by their addresses."""
    with open(trial.path(name), "rb") as opened:
        file = opened.read()
    (table,), (count,) = struct.unpack_from(">I", file, 28), struct.unpack_from(">H", file, 44)
    headers = [struct.unpack_from(">8I", file, table + 32 * i) for i in range(count)]
    return {h[2]: file[h[1] : h[1] + h[4]] for h in headers if h[0] == 1}


def try_text(trial, k, random):
    text = Text(random)
    for name, lines in (("own.s", text.own()), ("gnu.s", text.gnu())):
        with open(trial.path(name), "w", encoding="ascii") as file:
            file.write(lines)
    status, _, line = trial.ask("asm", "own.s", "own")
    if status:
        number_of_line = int(line.split()[2]) if line.startswith("nested: asm") else 1
        return trial.differ(k, f"asm: {line}: {text.own().splitlines()[number_of_line - 1]}")
    for words in (
        ("mips-linux-gnu-as", "-mips2", "-32", "-EB", "-o", "theirs.o", "gnu.s"),
        ("mips-linux-gnu-ld", "-EB", "-T", "script", f"-e{TEXT:#x}", "-o", "theirs", "theirs.o"),
    ):
        status, _, error = trial.call(*words)
        if status:
            return trial.differ(k, f"{words[0]}: {error.decode().strip()}")
    own, gnu = (segments(trial, name) for name in ("own", "theirs"))
    for address in (TEXT, DATA):
        mine, theirs = own.get(address, b""), gnu.get(address, b"")
        # the GNU assembler rounds sections up to 16 bytes
        theirs = theirs[: len(mine)] if not any(theirs[len(mine) :]) else theirs
        trial.came("words of texts", len(mine) // 4)
        if mine != theirs:
            at = next((i for i in range(0, len(mine), 4) if mine[i : i + 4] != theirs[i : i + 4]), 0)
            trial.differ(k, f"asm: {address + at:08x} is {mine[at:at + 4].hex()}, and {theirs[at:at + 4].hex()}")


SCRIPT = f"SECTIONS {{ .text {TEXT:#x} : {{ *(.text) }} .data {DATA:#x} : {{ *(.data) }} /DISCARD/ : {{ *(*) }} }}\n"


@contextmanager
def ready(trial):
    trial.needs("mips-linux-gnu-objdump", "mips-linux-gnu-as", "mips-linux-gnu-ld")
    with open(trial.path("script"), "w", encoding="ascii") as file:
        file.write(SCRIPT)
    yield


def try_case(trial, k, _):
    random = trial.random(k)
    try_words(trial, k, random)
    try_text(trial, k, random)
