"""Sequences of MIPS instructions: the same program, with the same registers and memory, by `nested interp` and by qemu's user mode.

A program that comes to its end writes its registers, HI, LO and memory; one that does not is compared by the kind of its fault, the address
of the instruction (of qemu's signal, that of the branch where the instruction stands in a delay slot) and the address that was accessed.

Left out, since the manual leaves it open, or docs/GUEST.md differs:
- Divisions by 0 (registers 21 and 22, the only divisors, are never 0).
- A branch or jump in a delay slot.
- Between an LL and its SC, a store. SC of an address that is not aligned or may not be written, where there is no link to it.
- Of an address that is neither aligned nor there, qemu tells the second where it is one of an instruction: either signal will do.
- A word with a bit in a field that is to be 0, and instructions of later processors, which that of qemu has (a MIPS32 4Kc): the words at
  fault are of a coprocessor that is not there, or of 64 bits.
"""
import os
import re
import struct
from contextlib import contextmanager

from mips import (
    ALIGNED,
    BRANCHES_EQUAL,
    BRANCHES_SIGN,
    BRANCHES_ZERO,
    DIVISIONS,
    IMMEDIATES,
    LOADS,
    NOP,
    PRODUCTS,
    SHIFTS,
    STORES,
    SYSCALL,
    THREE,
    TRAPS,
    TRAP_IMMEDIATES,
    VARIABLE_SHIFTS,
    bytes_of,
    constant,
    immediate,
    is_branch,
    jump,
    load,
    lui,
    program,
    special,
    store,
)

CASES = 2000
TEXT, FINISH, HANDLER, BODY, DATA = 0x00400000, 0x00400800, 0x00400A00, 0x00401000, 0x10000000
# in the data: from 0 on the registers with HI and LO, then the memory that is worked on, and a stack for the handler of signals
ARENA, ARENA_END, STACK, DATA_SIZE = 0x400, 0x1400, 0x2000, 0x4000
# registers that hold a sum of results, divisors, the code's address, places in the arena, the data's address, and the turns of a loop
SUM, DIVISORS, CODE, PLACES, BASE, TURNS = 20, (21, 22), 23, (24, 25), 26, 27
FREE = [r for r in range(32) if r not in (SUM, *DIVISORS, CODE, *PLACES, BASE, TURNS)]
EDGES = (0, 1, 2, 0x7FFF, 0x8000, 0xFFFF, 0x10000, 0x7FFFFFFF, 0x80000000, 0x80000001, 0xFFFF8000, 0xFFFFFFFE, 0xFFFFFFFF)
SIGILL, SIGTRAP, SIGFPE, SIGBUS, SIGSEGV = 4, 5, 8, 10, 11
# the signals that stand for a kind of fault; BREAK and traps of two codes are taken for those of arithmetic
SIGNALS = {
    1: {SIGSEGV},
    2: {SIGBUS},
    3: {SIGSEGV},
    4: {SIGSEGV},
    5: {SIGBUS},
    6: {SIGBUS},
    7: {SIGFPE},
    8: {SIGTRAP, SIGFPE},
    9: {SIGILL},
    11: {SIGTRAP, SIGFPE},
}
# words of no instruction: of coprocessors 2 and 3, and of 64 bits
NO_INSTRUCTIONS = (0x48000000, 0x4C000000, 0x64420001, 0x68A00000, 0xDC000000, 0xFC000000, 0x0000002D, 0x00000038, 0x0000001E)


def number(random):
    return random.choice(EDGES) if random.random() < 0.4 else random.getrandbits(32) if random.random() < 0.7 else random.getrandbits(8)


class Body:
    """Words at random. A branch names the number of a word that comes later; what lies past the end is the end."""

    def __init__(self, random):
        self.random, self.items = random, []
        # how often what may end the program is made
        self.risk = random.choice((0, 0, 0.01, 0.05, 0.2))
        size = random.choice((6, 20, 60))
        while len(self.items) < size:
            self.add_unit()

    def words(self):
        return [item(at, min(target, len(self.items))) for at, (item, target) in enumerate(self.items)]

    def add(self, *words):
        self.items += [(lambda at, target, word=word: word, 0) for word in words]

    def register(self):
        return self.random.randrange(32)

    def free(self):
        return self.random.choice(FREE)

    def add_unit(self):
        kinds = (
            (self.add_plain, 60),
            (self.add_branch, 14),
            (self.add_jump, 4),
            (self.add_loop, 2),
            (self.add_link, 4),
            (self.add_end, 60 * self.risk),
        )
        makes, weights = zip(*kinds)
        self.random.choices(makes, weights)[0]()

    # ---- what is no branch

    def add_plain(self):
        """A word, and most often one that adds what it has written to the sum, so that it is not lost."""
        word = self.plain()
        self.add(word)
        op, written = word >> 26, word >> 11 & 31 if word >> 26 == 0 else word >> 16 & 31
        if written in FREE and (op == 0 or 8 <= op < 16 or 0x20 <= op < 0x27) and self.random.random() < 0.7:
            self.add(special(THREE["addu"], SUM, written, SUM))

    def plain(self):
        makes = (self.three, self.shift, self.immediate, self.upper, self.product, self.moved, self.load, self.store, self.pointer, self.trap)
        return self.random.choices(makes, (14, 6, 12, 3, 5, 4, 14, 10, 3, 2))[0]()

    def three(self):
        names = [n for n in THREE if self.random.random() < 6 * self.risk or n not in ("add", "sub")]
        return special(THREE[self.random.choice(names)], self.register(), self.register(), self.free())

    def shift(self):
        if self.random.random() < 0.5:
            return special(self.random.choice([*VARIABLE_SHIFTS.values()]), self.register(), self.register(), self.free())
        return special(self.random.choice([*SHIFTS.values()]), 0, self.register(), self.free(), self.random.randrange(32))

    def immediate(self):
        names = [n for n in IMMEDIATES if self.random.random() < 6 * self.risk or n != "addi"]
        return immediate(IMMEDIATES[self.random.choice(names)], self.register(), self.free(), number(self.random))

    def upper(self):
        return lui(self.free(), self.random.getrandbits(16))

    def product(self):
        if self.random.random() < 0.15:
            # a divisor, which stays above 0
            return immediate(IMMEDIATES["ori"], self.register(), self.random.choice(DIVISORS), number(self.random) | 1)
        if self.random.random() < 0.5:
            return special(self.random.choice([*PRODUCTS.values()]), self.register(), self.register())
        return special(self.random.choice([*DIVISIONS.values()]), self.register(), self.random.choice(DIVISORS))

    def moved(self):
        if self.random.random() < 0.6:
            return special(self.random.choice((0x10, 0x12)), rd=self.free())
        return special(self.random.choice((0x11, 0x13)), rs=self.register())

    def pointer(self):
        return immediate(IMMEDIATES["addiu"], BASE, self.random.choice(PLACES), self.random.randrange(0x800, 0x1000, 8))

    def trap(self):
        """A trap, which seldom holds, or SYNC."""
        choice = self.random.random()
        if choice < 0.3:
            return special(0x0F, sa=self.random.randrange(32))
        if self.random.random() > 4 * self.risk:
            # of register 0 with itself, or of a number that is not below 0 as one without a sign
            return special(TRAPS[self.random.choice(("tlt", "tltu", "tne"))], 0, 0) | self.random.getrandbits(10) << 6
        if choice < 0.6:
            return special(self.random.choice([*TRAPS.values()]), self.register(), self.register()) | self.random.getrandbits(10) << 6
        return immediate(1, self.register(), self.random.choice([*TRAP_IMMEDIATES.values()]), number(self.random))

    def place(self, name, bases):
        """A base and an offset of an address in the arena, or in the code."""
        base = self.random.choice(bases)
        first, last = {BASE: (ARENA, ARENA_END - 8), CODE: (0, 64)}.get(base, (-0x300, 0x300))
        offset = self.random.randrange(first, last)
        align = ALIGNED.get(name, 1)
        return base, offset if self.random.random() < self.risk / 4 else offset & -align

    def load(self):
        name = self.random.choice([n for n in LOADS if n != "ll"])
        base, offset = self.place(name, (BASE, *PLACES, *PLACES, CODE))
        return immediate(LOADS[name], base, self.free(), offset)

    def store(self):
        name = self.random.choice([n for n in STORES if n != "sc"])
        base, offset = self.place(name, (BASE, *PLACES, *PLACES))
        return immediate(STORES[name], base, self.register(), offset)

    # ---- several words

    def add_link(self):
        """An LL, words that do not store, and an SC of its address or of another one; or an SC alone."""
        base, offset = self.place("ll", (BASE, *PLACES))
        offset &= -4
        if self.random.random() < 0.8:
            self.add(immediate(LOADS["ll"], base, self.free(), offset))
            for _ in range(self.random.randrange(3)):
                self.add(self.random.choice((self.three, self.shift, self.upper))() if self.risk == 0 else NOP)
        if self.random.random() < 0.3:
            offset ^= 4
        self.add(immediate(STORES["sc"], base, self.free(), offset))

    def target(self):
        return len(self.items) + self.random.choice((1, 2, 2, 3, 3, 4, 6, 11))

    def add_branch(self):
        choice, target = self.random.random(), self.target()
        if choice < 0.4:
            first = self.register()
            second = first if self.random.random() < 0.2 else self.register()
            made = immediate(self.random.choice([*BRANCHES_EQUAL.values()]), first, second, 0)
        elif choice < 0.6:
            made = immediate(self.random.choice([*BRANCHES_ZERO.values()]), self.register(), 0, 0)
        else:
            made = immediate(1, self.register(), self.random.choice([*BRANCHES_SIGN.values()]), 0)
        self.items.append((lambda at, to, word=made: word | (to - at - 1) & 0xFFFF, target))
        self.add(self.plain())

    def add_jump(self):
        target = self.target() + 2
        if self.random.random() < 0.5:
            op = self.random.choice((2, 3))
            self.items.append((lambda at, to: jump(op, BODY + 4 * to), target))
        else:
            register = self.random.choice(FREE[1:])
            self.items.append((lambda at, to: lui(register, BODY + 4 * to >> 16), target))
            self.items.append((lambda at, to: immediate(IMMEDIATES["ori"], register, register, BODY + 4 * to), target))
            self.add(self.random.choice((special(8, register), special(9, register, rd=self.free()))))
        self.add(self.plain())

    def add_loop(self):
        """A few turns of a few words. Register 27 counts them, and is at most 0 elsewhere."""
        self.add(immediate(IMMEDIATES["addiu"], 0, TURNS, self.random.randrange(1, 9)))
        first = len(self.items)
        for _ in range(self.random.randrange(1, 8)):
            self.random.choice((self.add_plain, self.add_plain, self.add_branch))()
        self.add(immediate(IMMEDIATES["addiu"], TURNS, TURNS, -1))
        at = len(self.items)
        self.add(immediate(BRANCHES_ZERO[self.random.choice(("bgtz", "bgtzl"))], TURNS, 0, first - at - 1), self.plain())

    # ---- what may end the program

    def add_end(self):
        self.random.choices((self.add_wild, self.add_break, self.add_word, self.add_wild_jump), (6, 1, 1, 1))[0]()

    def add_wild(self):
        """An access of an address that is not there, or a store to code. The two have no other pages than these in common, so the base is known."""
        name = self.random.choice([n for n in (*LOADS, *STORES) if n not in ("ll", "sc")])
        op = {**LOADS, **STORES}[name]
        base = self.random.choice((0, BASE, CODE, *PLACES))
        offset = self.random.choice((self.random.randrange(DATA_SIZE, 0x8000), self.random.randrange(-0x8000, -0x1000), 8 * self.random.randrange(8)))
        self.add(immediate(op, base, self.free() if name in LOADS else self.register(), offset))

    def add_break(self):
        self.add(special(0x0D) | self.random.getrandbits(20) << 6)

    def add_word(self):
        self.add(self.random.choice(NO_INSTRUCTIONS))

    def add_wild_jump(self):
        """A jump to an address that is not aligned, or far away."""
        register = self.random.choice(FREE[1:])
        to = BODY + self.random.randrange(1, 64) if self.random.random() < 0.5 else 0x30000000 + self.random.getrandbits(20)
        if to % 4 == 0 and to < 0x30000000:
            to += 2
        self.add(*constant(register, to), special(8, register), self.plain())


def start(own):
    """What stands before the body: words of its own, and the registers from their places."""
    words = [*own, *constant(BASE, DATA), load(1, 4 * 32, BASE), special(0x11, 1), load(1, 4 * 33, BASE), special(0x13, 1)]
    words += [load(r, 4 * r, BASE) for r in range(1, 32) if r != BASE]
    return [*words, jump(2, BODY), NOP]


def end():
    """What stands behind it: the registers to their places."""
    words = [store(r, 4 * r, BASE) for r in range(1, 32)]
    words += [special(0x10, rd=1), store(1, 4 * 32, BASE), special(0x12, rd=1), store(1, 4 * 33, BASE)]
    return [*words, jump(2, FINISH), NOP]


def call(number, *words):
    made = []
    for register, word in zip((4, 5, 6, 7), words):
        # a register or a number
        made += [special(0x21, word[0], 0, register)] if isinstance(word, tuple) else constant(register, word)
    return [*made, *constant(2, number), SYSCALL]


def finish(write, leave):
    return call(write, 1, DATA, ARENA_END) + call(leave, 0)


LINUX_WRITE, LINUX_EXIT, LINUX_SIGACTION, LINUX_ALTSTACK = 4004, 4001, 4194, 4206
ACTION, ALTSTACK = DATA + STACK, DATA + STACK + 32
SIGNALLED = 99


def linux_start():
    """Sets a handler for each signal of a fault, on a stack of its own."""
    words = call(LINUX_ALTSTACK, ALTSTACK, 0)
    for signal in (SIGILL, SIGTRAP, SIGFPE, SIGBUS, SIGSEGV):
        words += call(LINUX_SIGACTION, signal, ACTION, 0, 16)
    return words


def linux_handler():
    """Writes what the signal tells and the processor's state, and leaves."""
    keep = [special(0x21, 5, 0, 16), special(0x21, 6, 0, 17)]
    return keep + call(LINUX_WRITE, 1, (16,), 128) + call(LINUX_WRITE, 1, (17,), 320) + call(LINUX_EXIT, SIGNALLED)


def text_of(own_start, own_finish, handler, body):
    parts = ((TEXT, own_start), (FINISH, own_finish), (HANDLER, handler))
    words = [NOP] * ((BODY - TEXT) // 4)
    for at, part in parts:
        words[(at - TEXT) // 4 : (at - TEXT) // 4 + len(part)] = part
    return words + body


def data_of(random, order):
    registers = [number(random) for _ in range(34)]
    for r in DIVISORS:
        registers[r] = registers[r] or 1
    registers[CODE], registers[BASE], registers[TURNS] = BODY, DATA, 0
    for r in PLACES:
        registers[r] = DATA + random.randrange(0x800, 0x1000, 8)
    data = bytearray(DATA_SIZE)
    data[: 4 * 34] = bytes_of(registers, order)
    data[ARENA:ARENA_END] = random.randbytes(ARENA_END - ARENA)
    # of a handler: flags (on its own stack, with what the signal tells) and its address; of its stack: address and size
    struct.pack_into(f"{order}II", data, STACK, 0x08000008, HANDLER)
    struct.pack_into(f"{order}III", data, STACK + 32, DATA + STACK + 64, DATA_SIZE - STACK - 64, 0)
    return bytes(data)


def files_of(random, order):
    """The program for nested and the one for Linux, and the words of the body."""
    body = Body(random).words() + end()
    data = data_of(random, order)
    own = text_of(start([]), finish(5, 1), [], body)
    linux = text_of(start(linux_start()), finish(LINUX_WRITE, LINUX_EXIT), linux_handler(), body)
    return [program(order, TEXT, [(TEXT, 5, bytes_of(words, order)), (DATA, 6, data)]) for words in (own, linux)], body


def fault_of(line):
    """The kind, the address and the value of the line of a fault."""
    words = line.split()
    return int(words[2]), int(words[4], 16), int(words[6], 16)


def agrees_with_signal(fault, told, order, body):
    kind, at, value = fault
    signal, _, _, address = struct.unpack_from(f"{order}iiiI", told)
    (low, high) = struct.unpack_from(f"{order}II", told, 128 + 32)
    pc = high if order == ">" else low
    slot = BODY <= pc < BODY + 4 * len(body) and is_branch(body[(pc - BODY) // 4])
    accesses = kind in (1, 2, 3, 4, 5, 6)
    signals = SIGNALS.get(kind, set()) | ({SIGSEGV} if kind == 2 and at >> 12 != BODY >> 12 else set())
    return signal in signals and at == pc + 4 * slot and (not accesses or address == value)


@contextmanager
def ready(trial):
    trial.needs("qemu-mips", "qemu-mipsel")
    yield


def try_case(trial, k, _):
    random = trial.random(k)
    order = random.choice("<>")
    (own, linux), body = files_of(random, order)
    for name, file in (("own", own), ("linux", linux)):
        with open(trial.path(name), "wb") as out:
            out.write(file)
    os.chmod(trial.path("linux"), 0o755)
    status, state, line = trial.ask("interp", "own", "--heap", "0", "--steps", "1000000")
    if status == 78:
        # by a jump whose register was not set
        return trial.leave_out("no end")
    qemu = "qemu-mips" if order == ">" else "qemu-mipsel"
    theirs, told, error = trial.call(qemu, "-cpu", "4Kc", trial.path("linux"))
    if status == 0 and theirs == 0:
        trial.came("ended")
        if state != told:
            trial.differ(k, different_state(state, told, order))
    elif status == 79 and theirs == SIGNALLED:
        fault = fault_of(line)
        trial.came(f"fault {fault[0]}")
        if not agrees_with_signal(fault, told, order, body):
            signal, _, _, address = struct.unpack_from(f"{order}iiiI", told)
            trial.differ(k, f"{line}, and signal {signal} address {address:08x} pc {told[160:168].hex()}")
    elif status == 79 and fault_of(line)[0] == 2 and re.search(rb"exception 0xc .*pc=0x%08x" % fault_of(line)[1], error, re.S):
        # this qemu ends itself at a pc that is not aligned
        trial.came("fault 2")
    else:
        trial.differ(k, f"status {status} ({line}), and {theirs}")


def different_state(own, told, order):
    if len(own) != len(told):
        return f"{len(own)} bytes, and {len(told)}"
    at = next(i for i in range(0, len(own), 4) if own[i : i + 4] != told[i : i + 4])
    names = {32: "hi", 33: "lo"}
    where = f"memory {DATA + at:08x}" if at >= ARENA else names.get(at // 4, f"register {at // 4}")
    return f"{where}: {own[at:at + 4].hex()}, and {told[at:at + 4].hex()} ({order})"
