"""Calls of the system at random: a guest that makes them by `nested interp`, beside the same ones on Linux (linux_calls.c) in a folder of their
own. Compared are all answers, the memory, what is written to output and error output, and at the end what each file holds. Of Linux's side a
terminal is the console: it gives a line a read, as docs/CALLS.md has it.

Left out, since docs/CALLS.md differs:
- Access 3, and *truncate* where the access does not write. `whence` above 2. Numbers of bytes of 0x80000000 and more. Places above 0x7FFFFFFF.
- Rooms and bytes of which a part alone is there. Names with `/` in them, and `.` and `..`.
- The blocks of a file (those of Linux depend on its disk), and where the disk ends.
- `begin`, `exit`, `getpid`, `time`, and numbers of no call.

And these answers differ, each by its rule (`agrees`):
- A path that is too long: -22 here, ENAMETOOLONG there; of `rename` what is wrong with the other path, if anything is.
- A descriptor that is not for writing: `ftruncate` has -9 here and EINVAL there, and there a length below 0 is tested first.
- No free descriptor: -24 there before it is looked whether there is such a file.
- A place that is not there: `read` has -14 here, and 0 there where nothing is left to be read. Of the console Linux drops what it could not
  put there, so a case is compared up to such a read. To a file past its end Linux adds the gap of a write whose bytes are not there, so such a
  write stands at the file's end.
"""
import os
import pty
import select
import struct
import subprocess
import termios
from contextlib import contextmanager

import mips
from common import HERE

CASES = 1500
TEXT, WRITABLE, READABLE, RESULTS, NOWHERE = 0x00400000, 0x10000000, 0x20000000, 0x30000000, 0x40000000
WRITABLE_SIZE, READABLE_SIZE = 0x4000, 0x1000
OPEN, CLOSE, READ, WRITE, LSEEK, SBRK, FSTAT, UNLINK, DUP, FTRUNCATE, RENAME, ISATTY, EXIT = 2, 3, 4, 5, 6, 7, 8, 9, 10, 11, 14, 15, 1
APPEND, CREATE, TRUNCATE, EXCLUSIVE = 0x8, 0x200, 0x400, 0x800
NAMES = (b"alpha", b"b", b"c.txt", b"delta-4", b"n" * 255)
PLACES = {name: READABLE + 0x100 + 0x110 * i for i, name in enumerate(NAMES)}
EMPTY, TOO_LONG, UNENDED, SPARE = READABLE, READABLE + 0x800, READABLE + READABLE_SIZE - 3, b"results.out"
SPARE_PLACE = READABLE + 0xA00


def readable_memory(random):
    """Paths, with the names at their places, a path of 256 bytes, and three bytes of one that does not end before the memory does."""
    memory = bytearray(random.randbytes(READABLE_SIZE))
    for place, text in (
        (EMPTY, b"\0"),
        (TOO_LONG, b"l" * 256 + b"\0"),
        (UNENDED, b"xyz"),
        (SPARE_PLACE, SPARE + b"\0"),
        *((PLACES[n], n + b"\0") for n in NAMES),
    ):
        memory[place - READABLE : place - READABLE + len(text)] = text
    return bytes(memory)


class Script:
    """Calls at random, as their numbers and words."""

    def __init__(self, random):
        self.random, self.calls, self.heap = random, [], 0
        if random.random() < 0.1:
            self.calls += [(DUP, random.choice((0, 1)))] * random.choice((58, 60, 61))
        makes = (
            self.open,
            self.close,
            self.read,
            self.write,
            self.lseek,
            self.sbrk,
            self.fstat,
            self.unlink,
            self.dup,
            self.ftruncate,
            self.rename,
            self.isatty,
        )
        weights = (10, 5, 10, 12, 8, 2, 4, 3, 4, 4, 4, 1)
        for make in random.choices(makes, weights, k=random.choice((10, 40, 80))):
            made = make()
            if made[0] == READ and not WRITABLE <= made[2] < WRITABLE + WRITABLE_SIZE:
                # so that it is known whether it is the console that is read
                self.calls.append((ISATTY, made[1]))
            if made[0] == WRITE and made[2] >= NOWHERE:
                self.calls.append((LSEEK, made[1], 0, 2))
            self.calls.append(made)
        self.calls += [(CLOSE, fd) for fd in range(64)]
        for name in NAMES:
            self.calls += [(OPEN, PLACES[name], 0), (FSTAT, 0, WRITABLE), (READ, 0, WRITABLE, WRITABLE_SIZE), (READ, 0, WRITABLE, 1), (CLOSE, 0)]

    def path(self):
        return self.random.choices((*PLACES.values(), EMPTY, TOO_LONG, UNENDED, NOWHERE), (8, 8, 5, 3, 1, 0.5, 0.5, 0.5, 0.5))[0]

    def descriptor(self):
        return self.random.choices((0, 1, 2, 3, 4, 5, 6, 7, 62, 63, 64, 99, 0xFFFFFFFF), (2, 2, 1, 8, 8, 6, 4, 2, 0.5, 0.5, 0.5, 0.5, 0.5))[0]

    def count(self):
        return self.random.choice((0, 1, 2, 7, 16, self.random.randrange(100), self.random.randrange(5000)))

    def bytes(self, n, places):
        """A place with n bytes, or one without any."""
        start, size = self.random.choice(places)
        return start + (self.random.randrange(size - n + 1) if size else self.random.randrange(4096))

    def open(self):
        access = self.random.randrange(3)
        flags = (
            access | (self.random.random() < 0.3 and APPEND) | (self.random.random() < 0.6 and CREATE) | (self.random.random() < 0.15 and EXCLUSIVE)
        )
        if access:
            flags |= self.random.random() < 0.2 and TRUNCATE
        # other bits are not looked at
        return OPEN, self.path(), flags | self.random.choice((0, 0, 0x10, 0x2000, 0x80000000)), self.random.getrandbits(9)

    def close(self):
        return CLOSE, self.descriptor()

    def read(self):
        n = self.count()
        return READ, self.descriptor(), self.bytes(n, ((WRITABLE, WRITABLE_SIZE),) * 8 + ((NOWHERE, 0), (READABLE, 0))), n

    def write(self):
        n = self.count() % 4096
        return WRITE, self.descriptor(), self.bytes(n, ((WRITABLE, WRITABLE_SIZE),) * 6 + ((READABLE, READABLE_SIZE), (NOWHERE, 0))), n

    def lseek(self):
        offset = self.random.choice(
            (0, 1, 4095, self.random.randrange(100), self.random.randrange(20000), -1, -self.random.randrange(5000), -(2**31))
        )
        return LSEEK, self.descriptor(), offset & 0xFFFFFFFF, self.random.choice((0, 1, 2))

    def sbrk(self):
        """A break within half of the heap, far above it, or below its start."""
        wanted = self.random.choice((self.random.randrange(0x80000), self.heap, 0x2000000, -1, -0x1000000))
        delta, fits = wanted - self.heap, 0 <= wanted < 0x80000
        self.heap = wanted if fits else self.heap
        return SBRK, delta & 0xFFFFFFFF

    def fstat(self):
        return FSTAT, self.descriptor(), self.bytes(16, ((WRITABLE, WRITABLE_SIZE),) * 8 + ((NOWHERE, 0), (READABLE, 0)))

    def unlink(self):
        return UNLINK, self.path()

    def dup(self):
        return DUP, self.descriptor()

    def ftruncate(self):
        return (
            FTRUNCATE,
            self.descriptor(),
            self.random.choice((0, 1, self.random.randrange(100), self.random.randrange(20000), 2**31, 2**32 - 1)),
        )

    def rename(self):
        return RENAME, self.path(), self.path()

    def isatty(self):
        return ISATTY, self.descriptor()


# ---- here


def guest(order, calls, writable, readable):
    """A program that makes the calls, and then stores their answers and its memory in a file."""
    words = mips.constant(16, RESULTS)
    for i, (number, *given) in enumerate(calls):
        words += made_call(number, *given) + [mips.store(2, 4 * i, 16)]
    words += made_call(OPEN, SPARE_PLACE, 1 | CREATE | TRUNCATE) + [mips.special(0x21, 2, 0, 17)]
    for place, size in ((RESULTS, 4 * len(calls)), (WRITABLE, WRITABLE_SIZE)):
        words += [mips.special(0x21, 17, 0, 4), *made_call(WRITE, None, place, size)]
    words += made_call(EXIT, 0)
    segments = [(TEXT, 5, mips.bytes_of(words, order)), (WRITABLE, 6, writable), (READABLE, 4, readable), (RESULTS, 6, bytes(4 * len(calls)))]
    return mips.program(order, TEXT, segments)


def made_call(number, *given):
    words = []
    for register, word in zip((4, 5, 6, 7), given):
        if word is not None:
            words += mips.constant(register, word)
    return [*words, *mips.constant(2, number), mips.SYSCALL]


def run_here(trial, case):
    folder = trial.path("here")
    fresh(folder, case.files)
    with open(os.path.join(folder, "guest"), "wb") as file:
        file.write(guest(case.order, case.calls, case.writable, case.readable))
    given = ["--with", ",".join(case.files)] if case.files else []
    status, out, errors = trial.call(trial.nested, "interp", "guest", *given, "--keep", SPARE.decode(), cwd=folder, input=case.input)
    if status:
        raise RuntimeError(f"nested ended with {status}: {errors[-200:]}")
    with open(os.path.join(folder, SPARE.decode()), "rb") as file:
        stored = file.read()
    count = len(case.calls)
    answers = list(struct.unpack_from(f"{case.order}{count}i", stored))
    # the heap's first address is another one, so a break counts from the first
    first = next((a for c, a in zip(case.calls, answers) if c[0] == SBRK and a >= 0), 0)
    return [a - (first & -4096) if c[0] == SBRK and a >= 0 else a for c, a in zip(case.calls, answers)], stored[4 * count :], out, errors


# ---- on Linux


def console(input_bytes):
    """Three terminals: what is typed on the first one are lines as they stand, and the others hand on what is written."""
    masters, slaves = zip(*(pty.openpty() for _ in range(3)))
    for number, slave in enumerate(slaves):
        settings = termios.tcgetattr(slave)
        settings[0] = settings[1] = 0
        settings[3] = termios.ICANON if number == 0 else 0
        if number == 0:
            settings[6] = [b"\0"] * len(settings[6])
            settings[6][termios.VEOF] = b"\4"
        termios.tcsetattr(slave, termios.TCSANOW, settings)
    # the end of input, as often as it may be asked for
    os.write(masters[0], input_bytes + b"\4" * 120)
    return masters, slaves


def run_linux(trial, case):
    folder = trial.path("linux")
    fresh(folder, case.files)
    with open(trial.path("script"), "wb") as file:
        file.write(struct.pack("<II", case.order == "<", len(case.calls)) + case.writable + case.readable)
        for call in case.calls:
            file.write(struct.pack("<5I", *call, *[0] * (5 - len(call))))
    masters, slaves = console(case.input)
    flags = (os.O_RDONLY, os.O_WRONLY, os.O_WRONLY)
    ends = [os.open(os.ttyname(s), f | os.O_NOCTTY) for s, f in zip(slaves, flags)]
    words = [trial.path("linux_calls"), trial.path("script"), trial.path("results")]
    written = {masters[1]: b"", masters[2]: b""}
    with subprocess.Popen(words, cwd=folder, stdin=ends[0], stdout=ends[1], stderr=ends[2]) as process:
        while process.poll() is None:
            drain(written, 0.002)
        drain(written, 0)
    for descriptor in (*masters, *slaves, *ends):
        os.close(descriptor)
    with open(trial.path("results"), "rb") as file:
        stored = file.read()
    count = len(case.calls)
    if process.returncode or len(stored) != 4 * count + WRITABLE_SIZE:
        raise RuntimeError(f"linux_calls ended with {process.returncode}")
    return list(struct.unpack_from(f"<{count}i", stored)), stored[4 * count :], written[masters[1]], written[masters[2]]


def drain(written, seconds):
    while ready := select.select(list(written), [], [], seconds)[0]:
        for master in ready:
            written[master] += os.read(master, 65536)


# ---- both


def fresh(folder, files):
    os.makedirs(folder, exist_ok=True)
    for name in os.listdir(folder):
        os.unlink(os.path.join(folder, name))
    for name, data in files.items():
        with open(os.path.join(folder, name), "wb") as file:
            file.write(data)


class Case:
    def __init__(self, random):
        self.order = random.choice("<>")
        self.writable, self.readable = random.randbytes(WRITABLE_SIZE), readable_memory(random)
        self.files = {name.decode(): random.randbytes(random.choice((0, 1, 50, 4096, 6000))) for name in NAMES[:3] if random.random() < 0.5}
        lines = [bytes(random.choice(b"abc xyz\xff\x01") for _ in range(random.choice((0, 3, 12, 90)))) for _ in range(random.randrange(6))]
        self.input = b"\n".join(lines)
        self.calls = Script(random).calls


ENAMETOOLONG = -36


def agrees(call, mine, theirs):
    """Whether the two answers are the same, or differ by a rule."""
    number = call[0]
    if mine == theirs:
        return True
    if theirs == ENAMETOOLONG:
        return mine == -22 and TOO_LONG in call
    if number == RENAME and TOO_LONG in call:
        return mine == -22 and theirs in (-2, -14)
    if number == FTRUNCATE:
        return (mine, theirs) == (-9, -22)
    if number == OPEN and theirs == -24:
        return mine in (-2, -17, -22)
    return number == READ and (mine, theirs) == (-14, 0)


@contextmanager
def ready(trial):
    trial.needs("gcc")
    source = os.path.join(HERE, "linux_calls.c")
    status, _, error = trial.call(
        "gcc", "-O1", "-Wall", "-nostdlib", "-ffreestanding", "-fno-stack-protector", "-static-pie", "-fPIE", "-o", "linux_calls", source
    )
    if status:
        raise RuntimeError(error.decode())
    yield


def try_case(trial, k, _):
    case = Case(trial.random(k))
    mine, theirs = run_here(trial, case), run_linux(trial, case)
    trial.came("calls", len(case.calls))
    for i, call in enumerate(case.calls):
        if call[0] == READ and mine[0][i] == theirs[0][i] == -14 and case.calls[i - 1] == (ISATTY, call[1]) and mine[0][i - 1] == 1:
            return trial.came("cases up to a read of the console to no place")
        if not agrees(call, mine[0][i], theirs[0][i]):
            return trial.differ(k, f"call {i}, {call[0]}({', '.join(f'{w:x}' for w in call[1:])}): {mine[0][i]}, and {theirs[0][i]}")
    for what, ours, other in zip(("memory", "output", "error output"), mine[1:], theirs[1:]):
        if ours != other:
            at = next((i for i, (a, b) in enumerate(zip(ours, other)) if a != b), min(len(ours), len(other)))
            return trial.differ(k, f"{what} from {at:x}: {ours[at:at + 16].hex()}, and {other[at:at + 16].hex()}")
