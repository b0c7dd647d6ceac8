"""Types of code by inference, as the standard has them. It says what the rules ask by which cases are left out: which instructions are reached, and
where code goes beyond the types of this profile. A reference of any other type is one of which only that is known (O)."""
from class_files import BRANCHES, KINDS, LOCALS, parameters_of
from typed_code import SHUFFLES, width

REFERENCES = "NAPSO"
# what plain instructions take, the last one uppermost, and what they give
EFFECTS = {"nop": ("", ""), "aconst_null": ("", "N"), "iaload": ("AI", "I"), "iastore": ("AII", ""), "aastore": ("PIO", "")}
EFFECTS |= {f"iconst_{n}": ("", "I") for n in ("m1", *range(6))} | {
    n: ("II", "I") for n in "iadd isub imul iand ior ixor idiv irem ishl ishr iushr".split()
}
EFFECTS |= {n: ("JJ", "J") for n in "ladd lmul land ldiv lrem".split()} | {n: ("JI", "J") for n in "lshl lshr lushr".split()}
EFFECTS |= {
    "lcmp": ("JJ", "I"),
    "i2l": ("I", "J"),
    "l2i": ("J", "I"),
    "i2b": ("I", "I"),
    "i2c": ("I", "I"),
    "i2s": ("I", "I"),
    "bipush": ("", "I"),
    "sipush": ("", "I"),
}
EFFECTS |= {
    "newarray": ("I", "A"),
    "tableswitch": ("I", ""),
    "lookupswitch": ("I", ""),
    "ireturn": ("I", ""),
    "return": ("", ""),
    "goto": ("", ""),
    "goto_w": ("", ""),
}
EFFECTS |= {n: ("II", "") for n in BRANCHES if n.startswith("if_icmp")} | {n: ("I", "") for n in "ifeq ifne iflt ifge ifgt ifle".split()}
MEET, NO_ARRAY, OTHER_ELEMENT = "two types of references meet", "AALOAD of null", "AASTORE of what is no array of ints"
OTHER_ARRAY = "ANEWARRAY of another type than [I"
ENDS = ("goto", "goto_w", "tableswitch", "lookupswitch", "ireturn", "return")


class Untyped(Exception):
    pass


def is_below(kind, other):
    return kind == other or kind == "N" and other in REFERENCES or other == "O" and kind in REFERENCES


def effect_of(item):
    """What an instruction takes and gives, where that does not depend on what is there; none where it has no type."""
    name = item[0]
    if name in EFFECTS:
        return EFFECTS[name]
    constant = item[1] if len(item) > 1 else ()
    if name in ("ldc", "ldc_w"):
        return {"int": ("", "I"), "text": ("", "S")}.get(constant[0])
    if name == "ldc2_w":
        return ("", "J") if constant[0] == "long" else None
    if name in ("getstatic", "putstatic") and constant[0] == "field":
        kind = KINDS[constant[3]]
        return ("", kind) if name == "getstatic" else (kind, "")
    if name in ("invokestatic", "invokevirtual") and constant[0] == "method":
        is_text = constant[1] == "java/lang/String"
        if is_text == (name == "invokevirtual"):
            taken = "".join(parameters_of(constant[3]))
            return ("S" + taken if is_text else taken), "" if constant[3].endswith("V") else "I"
    if name == "anewarray" and constant[0] == "class":
        return "I", "P" if constant[1] == "[I" else "O"
    return None


class Inference:
    """The frames of a method's items, which are those of class_files.py."""

    def __init__(self, descriptor, most, count, items):
        self.most, self.count, self.items = most, count, items
        self.labels = {item[1]: at for at, item in enumerate(items) if item[0] == "label"}
        self.frames, self.typed = {}, True
        # what of the standard the code needs, and this profile has not
        self.beyond = set()
        parameters = parameters_of(descriptor)
        self.gives_int = descriptor.endswith("I")
        try:
            if len(parameters) > count:
                raise Untyped
            self.infer((parameters + ["T"] * (count - len(parameters)), []))
        except Untyped:
            self.typed = False

    def infer(self, start):
        waiting = self.arrives(0, start)
        while waiting:
            at = waiting.pop()
            frame = self.frames[at]
            behind = self.behind(self.items[at], list(frame[0]), list(frame[1]))
            for to in self.successors(at):
                waiting += self.arrives(to, behind)

    def successors(self, at):
        item = self.items[at]
        name = item[0]
        to = [] if name in ENDS else [at + 1]
        if name in BRANCHES or name == "goto_w":
            to.append(self.labels[item[1]])
        elif name == "tableswitch":
            to += [self.labels[l] for l in (item[1], *item[3])]
        elif name == "lookupswitch":
            to += [self.labels[l] for l in (item[1], *(l for _, l in item[2]))]
        return to

    def arrives(self, to, frame):
        """Where the frame of an item becomes another one: that item."""
        if to >= len(self.items):
            raise Untyped
        old = self.frames.get(to)
        if old is None:
            new = frame
        else:
            if len(old[1]) != len(frame[1]):
                raise Untyped
            new = [self.meet(a, b) for a, b in zip(old[0], frame[0])], [self.meet(a, b) for a, b in zip(old[1], frame[1])]
            if "T" in new[1]:
                raise Untyped
            if new == (list(old[0]), list(old[1])):
                return []
        self.frames[to] = (list(new[0]), list(new[1]))
        return [to]

    def meet(self, a, b):
        if is_below(a, b):
            return b
        if is_below(b, a):
            return a
        if a in REFERENCES and b in REFERENCES:
            self.beyond.add(MEET)
            return "O"
        return "T"

    def behind(self, item, variables, stack):
        name = item[0]
        if name == "label":
            return variables, stack
        if name in LOCALS or name == "iinc":
            self.move(name, item[1], variables, stack)
        elif name in SHUFFLES:
            self.shuffle(name, stack)
        elif name in ("ifnull", "ifnonnull", "arraylength"):
            kind = stack.pop() if stack else "T"
            if kind not in ("NAP" if name == "arraylength" else REFERENCES):
                raise Untyped
            stack += ["I"] if name == "arraylength" else []
        elif name == "aaload":
            self.load_element(stack)
        else:
            taken, given = effect_of(item) or (None, None)
            if taken is None or name in ("ireturn", "return") and (name == "ireturn") != self.gives_int:
                raise Untyped
            if len(stack) < len(taken) or not all(map(is_below, stack[len(stack) - len(taken) :], taken)):
                raise Untyped
            if name == "aastore" and stack[-1] not in "AN":
                self.beyond.add(OTHER_ELEMENT)
            if given == "O":
                self.beyond.add(OTHER_ARRAY)
            stack[len(stack) - len(taken) :] = given
        if sum(map(width, stack)) > self.most:
            raise Untyped
        return variables, stack

    def load_element(self, stack):
        """AALOAD gives a null where its array is null, of which any type may be made."""
        if len(stack) < 2 or stack[-1] != "I" or stack[-2] not in "PN":
            raise Untyped
        is_null = stack[-2] == "N"
        if is_null:
            self.beyond.add(NO_ARRAY)
        stack[-2:] = "N" if is_null else "A"

    def move(self, name, i, variables, stack):
        if i >= self.count:
            raise Untyped
        moved = "I" if name in ("iload", "istore", "iinc") else REFERENCES
        if name in ("istore", "astore"):
            if not stack or stack[-1] not in moved:
                raise Untyped
            variables[i] = stack.pop()
        elif variables[i] not in moved:
            raise Untyped
        elif name != "iinc":
            stack.append(variables[i])

    def shuffle(self, name, stack):
        for widths, given in SHUFFLES[name]:
            kinds = stack[::-1][: len(widths)]
            if tuple(map(width, kinds)) == widths:
                stack[len(stack) - len(widths) :] = [kinds[k] for k in reversed(given)]
                return
        raise Untyped

    def dead_is_wrong(self):
        """Whether an instruction that is not reached breaks a rule that the standard has for all: its local variable or its constant is not there."""
        dead = [item for at, item in enumerate(self.items) if at not in self.frames and item[0] != "label"]
        special = (*SHUFFLES, "ifnull", "ifnonnull", "arraylength", "aaload")
        return any(
            item[1] >= self.count if item[0] in LOCALS or item[0] == "iinc" else item[0] not in special and effect_of(item) is None for item in dead
        )
