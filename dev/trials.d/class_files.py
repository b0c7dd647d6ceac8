"""Class files of the form of docs/CLASSES.md: constant pools, code from instructions with labels, and classes.

An instruction is a tuple of its mnemonic and its operands. A branch names a label, and ("label", NAME) is one. A constant is a tuple:
("int", N), ("long", N), ("text", CHARACTERS), ("class", NAME), ("field", CLASS, NAME, DESCRIPTOR) or ("method", CLASS, NAME, DESCRIPTOR).
"""
import struct

PLAIN = dict(zip("nop aconst_null iconst_m1 iconst_0 iconst_1 iconst_2 iconst_3 iconst_4 iconst_5".split(), range(9)))
PLAIN |= {"iaload": 46, "aaload": 50, "iastore": 79, "aastore": 83}
PLAIN |= {"pop": 87, "pop2": 88, "dup": 89, "dup_x1": 90, "dup_x2": 91, "dup2": 92, "swap": 95}
PLAIN |= {
    "iadd": 96,
    "isub": 100,
    "imul": 104,
    "iand": 126,
    "ior": 128,
    "ixor": 130,
    "idiv": 108,
    "irem": 112,
    "ishl": 120,
    "ishr": 122,
    "iushr": 124,
}
PLAIN |= {"ladd": 97, "lmul": 105, "land": 127, "ldiv": 109, "lrem": 113, "lshl": 121, "lshr": 123, "lushr": 125}
PLAIN |= {"i2l": 133, "l2i": 136, "i2b": 145, "i2c": 146, "i2s": 147, "lcmp": 148, "ireturn": 172, "return": 177, "arraylength": 190}
LOCALS = {"iload": 21, "aload": 25, "istore": 54, "astore": 58}
SHORT_LOCALS = {"iload": 26, "aload": 42, "istore": 59, "astore": 75}
BRANCHES = dict(zip("ifeq ifne iflt ifge ifgt ifle if_icmpeq if_icmpne if_icmplt if_icmpge if_icmpgt if_icmple".split(), range(153, 165)))
BRANCHES |= {"goto": 167, "ifnull": 198, "ifnonnull": 199}
# instructions with a slot of the pool
SLOTS = {"ldc_w": 19, "ldc2_w": 20, "getstatic": 178, "putstatic": 179, "invokevirtual": 182, "invokestatic": 184, "anewarray": 189}
HOST = "nestedvm/Host"
CALL = ("method", HOST, "call", "([[I[[IIIIII)I")
FAULT = ("method", HOST, "fault", "(III)V")
LENGTH = ("method", "java/lang/String", "length", "()I")
CHAR_AT = ("method", "java/lang/String", "charAt", "(I)C")


def utf8(characters):
    """Modified UTF-8 of characters of 16 bits, given as a text or as numbers."""
    made = bytearray()
    for c in (ord(c) if isinstance(c, str) else c for c in characters):
        if 1 <= c < 0x80:
            made.append(c)
        elif c < 0x800:
            made += bytes((0xC0 | c >> 6, 0x80 | c & 63))
        else:
            made += bytes((0xE0 | c >> 12, 0x80 | c >> 6 & 63, 0x80 | c & 63))
    return bytes(made)


class Pool:
    """A constant pool, in which each entry stands once."""

    def __init__(self):
        self.slots, self.entries, self.next = {}, [], 1

    def add(self, entry, size=1):
        if entry not in self.slots:
            self.slots[entry] = self.next
            self.entries.append(entry)
            self.next += size
        return self.slots[entry]

    def text(self, characters):
        data = utf8(characters)
        return self.add(struct.pack(">BH", 1, len(data)) + data)

    def pair(self, name, descriptor):
        return self.add(struct.pack(">BHH", 12, self.text(name), self.text(descriptor)))

    def constant(self, kind, *parts):
        if kind == "int":
            return self.add(struct.pack(">BI", 3, parts[0] & 0xFFFFFFFF))
        if kind == "long":
            return self.add(struct.pack(">BQ", 5, parts[0] & 0xFFFFFFFFFFFFFFFF), 2)
        if kind in ("text", "class"):
            return self.add(struct.pack(">BH", 8 if kind == "text" else 7, self.text(parts[0])))
        owner, name, descriptor = parts
        return self.add(struct.pack(">BHH", 9 if kind == "field" else 10, self.constant("class", owner), self.pair(name, descriptor)))

    def bytes(self):
        return struct.pack(">H", self.next) + b"".join(self.entries)


# ---- code


def size_of(item, at, pool):
    """How many bytes an instruction takes at an offset."""
    name = item[0]
    if name == "label":
        return 0
    if name in PLAIN:
        return 1
    if name in LOCALS:
        return 1 if len(item) > 2 else 2
    if name in BRANCHES or name in SLOTS or name in ("sipush", "iinc"):
        return 3
    if name == "ldc":
        return 2 if pool.constant(*item[1]) < 256 else 3
    if name == "goto_w":
        return 5
    if name == "tableswitch":
        return 1 + 3 - at % 4 + 12 + 4 * len(item[3])
    if name == "lookupswitch":
        return 1 + 3 - at % 4 + 8 + 8 * len(item[2])
    return 2


def offsets_of(items, pool):
    """The offset of each item, the offsets of the labels, and the code's length."""
    at, places, labels = 0, [], {}
    for item in items:
        places.append(at)
        if item[0] == "label":
            labels[item[1]] = at
        at += size_of(item, at, pool)
    return places, labels, at


def spelled(item, at, labels, pool):
    name = item[0]
    to = lambda label: labels[label] - at
    if name == "label":
        return b""
    if name in PLAIN:
        return bytes((PLAIN[name],))
    if name in LOCALS:
        return bytes((SHORT_LOCALS[name] + item[1],)) if len(item) > 2 else bytes((LOCALS[name], item[1]))
    if name in BRANCHES:
        return struct.pack(">Bh", BRANCHES[name], to(item[1]))
    if name in SLOTS:
        return struct.pack(">BH", SLOTS[name], pool.constant(*item[1]))
    if name == "ldc":
        slot = pool.constant(*item[1])
        return bytes((18, slot)) if slot < 256 else struct.pack(">BH", 19, slot)
    if name == "bipush":
        return struct.pack(">Bb", 16, item[1])
    if name == "sipush":
        return struct.pack(">Bh", 17, item[1])
    if name == "iinc":
        return struct.pack(">BBb", 132, item[1], item[2])
    if name == "newarray":
        return bytes((188, 10))
    if name == "goto_w":
        return struct.pack(">Bi", 200, to(item[1]))
    padding = bytes(3 - at % 4)
    if name == "tableswitch":
        _, default, low, targets = item
        return b"\xaa" + padding + struct.pack(">iii", to(default), low, low + len(targets) - 1) + b"".join(struct.pack(">i", to(t)) for t in targets)
    _, default, pairs = item
    return b"\xab" + padding + struct.pack(">iI", to(default), len(pairs)) + b"".join(struct.pack(">ii", key, to(t)) for key, t in pairs)


def assembled(items, pool):
    places, labels, _ = offsets_of(items, pool)
    return b"".join(spelled(item, at, labels, pool) for item, at in zip(items, places))


# ---- classes


class ClassFile:
    """A class while it is made. A method is its name, its descriptor, its most operands and local variables, and its instructions; the bytes of its
    table of frames, if it has one, stand in `tables` under its name."""

    def __init__(self, name, version=48):
        self.name, self.version = name, version
        self.pool, self.fields, self.methods, self.tables = Pool(), [], [], {}

    def bytes(self):
        pool = self.pool
        own, above = pool.constant("class", self.name), pool.constant("class", "java/lang/Object")
        fields = b"".join(struct.pack(">HHHH", 9, pool.text(name), pool.text(descriptor), 0) for name, descriptor in self.fields)
        methods = b"".join(self.method(*m) for m in self.methods)
        body = struct.pack(">HHHHH", 0x31, own, above, 0, len(self.fields)) + fields + struct.pack(">H", len(self.methods)) + methods
        return struct.pack(">IHH", 0xCAFEBABE, 0, self.version) + pool.bytes() + body + bytes(2)

    def method(self, name, descriptor, stack, variables, items):
        code = assembled(items, self.pool)
        table = self.tables.get(name)
        attributes = bytes(2) if table is None else struct.pack(">HHI", 1, self.pool.text("StackMapTable"), len(table)) + table
        attribute = struct.pack(">HHI", stack, variables, len(code)) + code + bytes(2) + attributes
        head = struct.pack(">HHHH", 9, self.pool.text(name), self.pool.text(descriptor), 1)
        return head + struct.pack(">HI", self.pool.text("Code"), len(attribute)) + attribute


def parameters_of(descriptor):
    """The kinds of a method's parameters: I, A for [I, P for [[I, S for a text."""
    kinds, rest = [], descriptor[1 : descriptor.index(")")]
    names = (("[[I", "P"), ("[I", "A"), ("I", "I"), ("Ljava/lang/String;", "S"))
    while rest:
        text, kind = next(n for n in names if rest.startswith(n[0]))
        kinds.append(kind)
        rest = rest[len(text) :]
    return kinds


DESCRIPTORS = {"I": "I", "A": "[I", "P": "[[I", "S": "Ljava/lang/String;"}
KINDS = {text: kind for kind, text in DESCRIPTORS.items()}
