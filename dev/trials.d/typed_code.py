"""Classes at random whose methods are typed, and whose runs end: blocks with a frame each, and ways between them that make the frame of the
next one. A field of the main class is what is left to burn: entering a method and going back to an earlier block take of it.

Kinds of values: I int, J long, N null, A array of ints, P array of those, S text; a local variable may also be T, of which nothing is known.
"""
from class_files import CALL, CHAR_AT, DESCRIPTORS, FAULT, KINDS, LENGTH, ClassFile, parameters_of

INT_OPERATIONS = ("iadd", "isub", "imul", "iand", "ior", "ixor", "ishl", "ishr", "iushr")
LONG_OPERATIONS = ("ladd", "lmul", "land")
TESTS = ("ifeq", "ifne", "iflt", "ifge", "ifgt", "ifle")
COMPARISONS = ("if_icmpeq", "if_icmpne", "if_icmplt", "if_icmpge", "if_icmpgt", "if_icmple")
# what an instruction that moves operands needs, top first (2 for a long), and what it gives
SHUFFLES = {
    "pop": (((1,), ()),),
    "pop2": (((2,), ()), ((1, 1), ())),
    "dup": (((1,), (0, 0)),),
    "dup_x1": (((1, 1), (0, 1, 0)),),
    "dup_x2": (((1, 2), (0, 1, 0)), ((1, 1, 1), (0, 1, 2, 0))),
    "dup2": (((2,), (0, 0)), ((1, 1), (0, 1, 0, 1))),
    "swap": (((1, 1), (1, 0)),),
}
EDGES = (0, 1, 2, 5, 127, 128, 32767, 32768, 65535, 2**31 - 1, -1, -2, -128, -129, -32768, -32769, -(2**31))
MAIN, FUEL, TABLE = "Main", ("field", "Main", "fuel", "I"), ("field", "Main", "table", "[[I")
PUT = ("method", "Main", "put", "(I)V")
DEEPEST = 10


def width(kind):
    return 2 if kind == "J" else 1


def is_below(kind, other):
    return kind == other or other == "T" or kind == "N" and other in "APS"


def any_int(random):
    return random.choice(EDGES) if random.random() < 0.5 else random.getrandbits(32) - 2**31 if random.random() < 0.5 else random.randrange(-40, 40)


def any_long(random):
    return random.choice((*EDGES, 2**63 - 1, -(2**63), 2**32)) if random.random() < 0.5 else random.getrandbits(64) - 2**63


def any_text(random):
    size = random.choice((0, 1, 4, 8, 8, 12))
    return tuple(random.choice((random.getrandbits(7), random.getrandbits(16), random.randrange(0xD700, 0xE100))) for _ in range(size))


def constant_int(random, n):
    """An instruction that pushes an int."""
    ways = [("ldc", ("int", n)), ("ldc_w", ("int", n))]
    if -1 <= n <= 5:
        ways.append((f"iconst_{n}".replace("-", "m"),))
    if -128 <= n < 128:
        ways.append(("bipush", n))
    if -32768 <= n < 32768:
        ways.append(("sipush", n))
    return random.choice(ways)


class Method:
    """The code of a method while it is made, and the frame behind it."""

    def __init__(self, random, plan, number, descriptor):
        self.random, self.plan, self.number = random, plan, number
        self.parameters, self.gives_int = parameters_of(descriptor), descriptor.endswith("I")
        self.items, self.stack, self.most, self.labels = [], [], 0, 0
        self.locals = self.parameters + ["T"] * random.randrange(6)
        self.calls_left = 3

    # ---- frames

    def emit(self, item, pops=0, *pushes):
        self.items.append(item)
        if pops:
            del self.stack[-pops:]
        self.stack += pushes
        self.most = max(self.most, sum(map(width, self.stack)))

    def label(self):
        self.labels += 1
        return f"l{self.labels}"

    def mark(self, label):
        self.items.append(("label", label))

    def frame(self):
        return list(self.locals), list(self.stack)

    def set_frame(self, frame):
        self.locals, self.stack = list(frame[0]), list(frame[1])

    # ---- values

    def load(self, i):
        kind = self.locals[i]
        name = "iload" if kind == "I" else "aload"
        self.emit((name, i, "short") if i < 4 and self.random.random() < 0.7 else (name, i), 0, kind)

    def store(self, i):
        kind = self.stack[-1]
        name = "istore" if kind == "I" else "astore"
        self.emit((name, i, "short") if i < 4 and self.random.random() < 0.7 else (name, i), 1)
        self.locals[i] = kind

    def push(self, kind):
        """A value of a kind: of a local variable, of a field, or a new one."""
        random = self.random
        held = [i for i, k in enumerate(self.locals) if k == kind]
        fields = [f for f in self.plan.fields if KINDS[f[3]] == kind] if kind in "IAPS" else []
        if held and random.random() < 0.5:
            self.load(random.choice(held))
        elif fields and random.random() < (0.9 if kind in "AP" else 0.3):
            self.emit(("getstatic", random.choice(fields)), 0, kind)
        else:
            self.push_new(kind)

    def push_new(self, kind):
        random = self.random
        if kind == "I":
            self.emit(constant_int(random, any_int(random)), 0, "I")
        elif kind == "J":
            self.emit(("ldc2_w", ("long", any_long(random))), 0, "J")
        elif kind == "N":
            self.emit(("aconst_null",), 0, "N")
        elif kind == "S":
            self.emit((random.choice(("ldc", "ldc_w")), ("text", any_text(random))), 0, "S")
        elif kind == "A":
            self.emit(constant_int(random, random.choice((16, 16, 16, 17, 40, 1, 0) if random.random() < 0.97 else (-1, -(2**31)))), 0, "I")
            self.emit(("newarray",), 1, "A")
        else:
            self.emit(constant_int(random, random.choice((16, 16, 20, 3) if random.random() < 0.97 else (-5,))), 0, "I")
            self.emit(("anewarray", ("class", "[I")), 1, "P")

    def want(self, *kinds):
        """These kinds on top, the last one uppermost: what is there, or new values."""
        size = len(kinds)
        if len(self.stack) >= size and all(map(is_below, self.stack[len(self.stack) - size :], kinds)) and self.random.random() < 0.8:
            return
        if size > 1 and self.stack and is_below(self.stack[-1], kinds[0]) and self.random.random() < 0.7:
            kinds = kinds[1:]
        for kind in kinds:
            self.push("N" if kind in "APS" and self.random.random() < 0.01 else kind)

    # ---- steps

    def step(self):
        steps = (
            (self.push_any, 5),
            (self.int_operation, 8),
            (self.long_operation, 5),
            (self.divide, 2),
            (self.convert, 4),
            (self.increment, 2),
            (self.store_any, 6),
            (self.put_field, 3),
            (self.shuffle, 6),
            (self.ints, 5),
            (self.pages, 3),
            (self.text, 3),
            (self.call, 2),
            (self.put, 4),
            (self.choose, 3),
            (self.host, 1),
            (lambda: self.emit(("nop",)), 1),
        )
        if sum(map(width, self.stack)) > DEEPEST:
            return self.store_any()
        makes, weights = zip(*steps)
        self.random.choices(makes, weights)[0]()

    def push_any(self):
        self.push(self.random.choice("IIIJJNAPS"))

    def int_operation(self):
        self.want("I", "I")
        self.emit((self.random.choice(INT_OPERATIONS),), 2, "I")

    def long_operation(self):
        choice = self.random.random()
        if choice < 0.4:
            self.want("J", "J")
            self.emit((self.random.choice(LONG_OPERATIONS),), 2, "J")
        elif choice < 0.7:
            self.want("J", "I")
            self.emit((self.random.choice(("lshl", "lshr", "lushr")),), 2, "J")
        else:
            self.want("J", "J")
            self.emit(("lcmp",), 2, "I")

    def divide(self):
        random = self.random
        is_long = random.random() < 0.5
        self.want("J" if is_long else "I")
        if random.random() < 0.5:
            self.push("J" if is_long else "I")
            if not is_long and random.random() < 0.9:
                self.emit(("iconst_1",), 0, "I")
                self.emit(("ior",), 2, "I")
        elif is_long:
            self.emit(("ldc2_w", ("long", random.choice((1, -1, 3, -7, 2**40, -(2**63))))), 0, "J")
        else:
            self.emit(constant_int(random, random.choice((1, -1, 3, -7, 2**20, -(2**31)))), 0, "I")
        self.emit((random.choice(("ldiv", "lrem") if is_long else ("idiv", "irem")),), 2, "J" if is_long else "I")

    def convert(self):
        name, taken, given = self.random.choice((("i2l", "I", "J"), ("l2i", "J", "I"), ("i2b", "I", "I"), ("i2c", "I", "I"), ("i2s", "I", "I")))
        self.want(taken)
        self.emit((name,), 1, given)

    def increment(self):
        held = [i for i, k in enumerate(self.locals) if k == "I"]
        if held:
            self.emit(("iinc", self.random.choice(held), self.random.randrange(-128, 128)))

    def store_any(self):
        if not self.stack:
            return
        if self.stack[-1] == "J":
            self.emit(("l2i",), 1, "I")
        if self.locals:
            self.store(self.random.randrange(len(self.locals)))
        else:
            self.emit(("pop",), 1)

    def put_field(self):
        if self.plan.fields:
            field = self.random.choice(self.plan.fields)
            self.want(KINDS[field[3]])
            self.emit(("putstatic", field), 1)

    def shuffle(self):
        name = self.random.choice(list(SHUFFLES))
        for widths, given in SHUFFLES[name]:
            kinds = self.stack[::-1][: len(widths)]
            if tuple(map(width, kinds)) == widths:
                pushes = [kinds[k] for k in reversed(given)]
                self.emit((name,), len(widths), *pushes)
                return

    def index(self):
        """An index, which is most often within."""
        self.push("I")
        if self.random.random() < 0.96:
            self.emit(("bipush", 15), 0, "I")
            self.emit(("iand",), 2, "I")

    def ints(self):
        choice = self.random.random()
        self.want("A")
        if choice < 0.2:
            self.emit(("arraylength",), 1, "I")
        elif choice < 0.6:
            self.index()
            self.emit(("iaload",), 2, "I")
        else:
            self.index()
            self.push("I")
            self.emit(("iastore",), 3)

    def pages(self):
        choice = self.random.random()
        self.want("P")
        if choice < 0.2:
            self.emit(("arraylength",), 1, "I")
        elif choice < 0.6:
            self.index()
            null = self.stack[-2] == "N"
            self.emit(("aaload",), 2, "A")
            if not null and self.random.random() < 0.9:
                there = self.label()
                self.emit(("dup",), 0, "A")
                self.emit(("ifnonnull", there), 1)
                self.emit(("pop",), 1)
                self.push_new("A")
                self.mark(there)
        else:
            self.index()
            self.push(self.random.choice("AAAN"))
            self.emit(("aastore",), 3)

    def text(self):
        self.want("S")
        if self.random.random() < 0.4:
            self.emit(("invokevirtual", LENGTH), 1, "I")
        else:
            self.push("I")
            if self.random.random() < 0.95:
                self.emit(("iconst_3",), 0, "I")
                self.emit(("iand",), 2, "I")
            self.emit(("invokevirtual", CHAR_AT), 2, "I")

    def call(self):
        later = self.plan.methods[self.number + 1 :]
        if later and self.calls_left:
            self.calls_left -= 1
            method = self.random.choice(later)
            for kind in parameters_of(method[3]):
                self.push(kind)
            self.emit(("invokestatic", method), len(parameters_of(method[3])), *("I" if method[3].endswith("I") else ""))

    def put(self):
        if self.stack and self.stack[-1] == "J":
            self.emit(("dup2",), 0, "J")
            self.emit(("l2i",), 1, "I")
            self.emit(("invokestatic", PUT), 1)
            self.emit(("bipush", 32), 0, "I")
            self.emit(("lushr",), 2, "J")
            self.emit(("l2i",), 1, "I")
        self.want("I")
        self.emit(("invokestatic", PUT), 1)

    def choose(self):
        """One value or another, of one kind or null, by a test."""
        one, both = self.label(), self.label()
        kind = self.random.choice("IJAPS")
        self.test(one)
        before = self.frame()
        self.push(kind)
        self.emit(("goto", both))
        self.set_frame(before)
        self.mark(one)
        self.push("N" if kind in "APS" and self.random.random() < 0.1 else kind)
        self.stack[-1] = kind
        self.mark(both)

    def test(self, label):
        """A branch to a label."""
        choice = self.random.random()
        if choice < 0.45:
            self.want("I")
            self.emit((self.random.choice(TESTS), label), 1)
        elif choice < 0.8:
            self.want("I", "I")
            self.emit((self.random.choice(COMPARISONS), label), 2)
        else:
            self.want(self.random.choice("APSN"))
            self.emit((self.random.choice(("ifnull", "ifnonnull")), label), 1)

    def host(self):
        """A call of the system with numbers that are small or at random, or the end of the program."""
        random = self.random
        if random.random() < 0.1:
            for _ in range(3):
                self.push("I")
            return self.emit(("invokestatic", FAULT), 3)
        for _ in range(2):
            self.push("N") if random.random() < 0.2 else self.emit(("getstatic", TABLE), 0, "P") if random.random() < 0.5 else self.push("P")
        number = random.choice((5, 5, 4, 4, 8, 12, 15, 16, 40, 63, 64, 100, -1, 1 if random.random() < 0.3 else 12))
        words = [random.choice((0, 1, 1, 2, 3)), random.choice((0, 0, 3, 60, 4096, 8190, -4)), random.choice((0, 1, 4, 9, 5000, -1)), 0]
        for n in (number, *(n if random.random() < 0.95 else any_int(random) for n in words)):
            self.emit(constant_int(random, n), 0, "I")
        self.emit(("invokestatic", CALL), 7, "I")

    # ---- blocks

    def burn(self):
        """Takes one of what is left, and returns where nothing is."""
        goes_on = self.label()
        self.emit(("getstatic", FUEL), 0, "I")
        self.emit(("iconst_1",), 0, "I")
        self.emit(("isub",), 2, "I")
        self.emit(("dup",), 0, "I")
        self.emit(("putstatic", FUEL), 1)
        self.emit(("ifgt", goes_on), 1)
        before = self.frame()
        self.leave()
        self.set_frame(before)
        self.mark(goes_on)

    def leave(self):
        if self.gives_int:
            self.want("I")
            self.emit(("ireturn",), 1)
        else:
            self.emit(("return",))

    def go_to(self, block, from_block):
        """Makes the frame of a block of what is there, and goes there."""
        wanted, operands = self.blocks[block]
        if block <= from_block:
            self.burn()
        common = 0
        while common < min(len(operands), len(self.stack)) and is_below(self.stack[common], operands[common]):
            common += 1
        while len(self.stack) > common:
            self.emit(("pop2",) if self.stack[-1] == "J" else ("pop",), 1)
        for kind in operands[common:]:
            self.push(kind)
        for i, kind in enumerate(wanted):
            if not is_below(self.locals[i], kind):
                self.push(kind)
                self.store(i)
        self.emit((self.random.choice(("goto", "goto", "goto", "goto_w")), f"b{block}"))

    def next_block(self, from_block):
        last = len(self.blocks) - 1
        if self.random.random() < 0.25:
            return self.random.randrange(last + 1)
        return min(last, from_block + self.random.randrange(1, 4))

    def end_block(self, block):
        """Goes on from a block by a return, a jump, a branch or a switch."""
        if block == len(self.blocks) - 1 or self.random.random() < 0.05:
            return self.leave()
        choice = self.random.random()
        if choice < 0.3:
            return self.go_to(self.next_block(block), block)
        ways = []
        if choice < 0.75:
            ways = [self.label()]
            self.test(ways[0])
        else:
            self.want("I")
            ways = [self.label() for _ in range(self.random.randrange(1, 5))]
            targets = [self.random.choice(ways) for _ in range(self.random.randrange(1, 6))]
            if self.random.random() < 0.5:
                low = min(self.random.choice((0, -2, any_int(self.random), 2**31, -(2**31))), 2**31 - len(targets))
                self.emit(("tableswitch", ways[0], low, targets), 1)
            else:
                keys = sorted({any_int(self.random) for _ in targets} if self.random.random() < 0.9 else {})
                self.emit(("lookupswitch", ways[0], [(key, self.random.choice(ways)) for key in keys]), 1)
        before = self.frame()
        if choice < 0.75:
            self.go_to(self.next_block(block), block)
        for way in ways:
            self.set_frame(before)
            self.mark(way)
            self.go_to(self.next_block(block), block)

    def write(self, first_items=()):
        """The whole code."""
        random = self.random
        self.items += first_items
        self.most = max(self.most, 8 if first_items else 0)
        self.burn()
        blocks = random.choice((1, 1, 2, 4, 7))
        kinds = lambda: [random.choice("TTIAPS") for _ in self.locals]
        self.blocks = [self.frame(), *((kinds(), [random.choice("IJAPS") for _ in range(random.choice((0, 0, 1, 3)))]) for _ in range(blocks - 1))]
        for block, frame in enumerate(self.blocks):
            self.set_frame(frame)
            self.most = max(self.most, sum(map(width, self.stack)))
            self.mark(f"b{block}")
            for _ in range(random.choice((2, 6, 16))):
                self.step()
            self.end_block(block)

    def parts(self):
        return self.most, len(self.locals), self.items


# ---- what the main class has for all: it puts values to output


def put_items():
    """put(I)V: the int as four bytes at address 0 of the first page of the table, to output."""
    pushes = [("getstatic", TABLE), ("iconst_0",), ("aaload",), ("iconst_0",), ("iload", 0, "short"), ("iastore",)]
    call = [("getstatic", TABLE), ("getstatic", TABLE), ("iconst_5",), ("iconst_1",), ("iconst_0",), ("iconst_4",), ("iconst_0",)]
    return [*pushes, *call, ("invokestatic", CALL), ("pop",), ("return",)]


def put_all_items(load, length, put):
    """Puts the length of what a parameter refers to, and its elements; of null -1."""
    there = [("aload", 0, "short"), ("ifnonnull", "there"), ("iconst_m1",), ("invokestatic", PUT), ("return",), ("label", "there")]
    start = [("aload", 0, "short"), length, ("invokestatic", PUT), ("iconst_0",), ("istore", 1, "short"), ("goto", "test"), ("label", "again")]
    element = [("aload", 0, "short"), ("iload", 1, "short"), load, ("invokestatic", put), ("iinc", 1, 1), ("label", "test")]
    return [*there, *start, *element, ("iload", 1, "short"), ("aload", 0, "short"), length, ("if_icmplt", "again"), ("return",)]


PUTS = {
    "I": PUT,
    "A": ("method", MAIN, "puts", "([I)V"),
    "P": ("method", MAIN, "putp", "([[I)V"),
    "S": ("method", MAIN, "putt", "(Ljava/lang/String;)V"),
}


class ClassSet:
    """Classes at random: their fields and methods first, and then the code."""

    def __init__(self, random):
        self.random = random
        names = [MAIN, *(f"part/C{i}" if random.random() < 0.3 else f"C{i}" for i in range(random.choice((0, 0, 1, 3))))]
        self.fields, self.methods = [], [("method", MAIN, "run", "()V")]
        for i in range(random.randrange(2, 9)):
            self.fields.append(("field", random.choice(names), random.choice((f"f{i}", "x")), DESCRIPTORS[random.choice("IIAAPS")]))
        self.fields = list(dict.fromkeys(self.fields))
        for i in range(random.choice((0, 1, 3, 6))):
            kinds = "".join(DESCRIPTORS[random.choice("IIIAPS")] for _ in range(random.choice((0, 1, 2, 5))))
            self.methods.append(("method", random.choice(names), f"m{i}", f"({kinds}){random.choice('IV')}"))
        self.classes = {name: ClassFile(name) for name in names}
        self.declare()
        for number, (_, owner, name, descriptor) in enumerate(self.methods):
            method = Method(random, self, number, descriptor)
            if number == 0:
                method = self.main_method(method)
            else:
                method.write()
            self.classes[owner].methods.append((name, descriptor, *method.parts()))

    def declare(self):
        for _, owner, name, descriptor in (FUEL, TABLE, *self.fields):
            self.classes[owner].fields.append((name, descriptor))
        main = self.classes[MAIN]
        main.methods.append(("put", "(I)V", 7, 1, put_items()))
        main.methods.append(("puts", "([I)V", 2, 2, put_all_items(("iaload",), ("arraylength",), PUT)))
        main.methods.append(("putp", "([[I)V", 2, 2, put_all_items(("aaload",), ("arraylength",), PUTS["A"])))
        main.methods.append(("putt", PUTS["S"][3], 2, 2, put_all_items(("invokevirtual", CHAR_AT), ("invokevirtual", LENGTH), PUT)))

    def main_method(self, method):
        """run()V: makes the table and fills the fields, does what the random method does, and puts the fields to output."""
        random = self.random
        own = ("method", MAIN, "body", "()V")
        method.write()
        self.classes[MAIN].methods.append(("body", "()V", *method.parts()))
        run = Method(random, self, 0, "()V")
        run.emit(constant_int(random, random.choice((20, 100, 300))), 0, "I")
        run.emit(("putstatic", FUEL), 1)
        for item, pops, pushes in (
            (("iconst_2",), 0, "I"),
            (("anewarray", ("class", "[I")), 1, "P"),
            (("putstatic", TABLE), 1, ""),
            (("getstatic", TABLE), 0, "P"),
            (("iconst_0",), 0, "I"),
            (("bipush", 16), 0, "I"),
            (("newarray",), 1, "A"),
            (("aastore",), 3, ""),
        ):
            run.emit(item, pops, *pushes)
        for field in self.fields:
            if random.random() < 0.95:
                run.push_new(KINDS[field[3]])
                run.emit(("putstatic", field), 1)
        run.emit(("invokestatic", own))
        for field in self.fields:
            kind = KINDS[field[3]]
            run.emit(("getstatic", field), 0, kind)
            run.emit(("invokestatic", PUTS[kind]), 1)
        run.emit(("return",))
        return run

    def files(self):
        return {name: c.bytes() for name, c in self.classes.items()}
