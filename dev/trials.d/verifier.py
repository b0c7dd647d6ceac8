"""Methods at random of version 48, typed and not: `nested verify` beside the Java virtual machine's verifier by inference. And class files of which a
few bytes are others: what `nested` takes there, the other one has to take too.

Left out, since docs/CLASSES.md differs (inference.py says where):
- Two types of arrays or texts meet in a local variable or an operand. The standard has a type above both, and this profile has none.
- AALOAD of null gives null there, of which any reference may be made, and an array of ints here. AASTORE takes any reference there, and tests it when
  it runs, and null or an array of ints here. ANEWARRAY has any type there, and [I alone here.
- Code that is not reached names a local variable or a constant that is not there for it. It has no rule here.
- A file whose class has another name: names that classes give themselves are not looked at here.
- Of the files with other bytes those that this profile does not read, and those whose names mean nothing: they are resolved at a run there.
"""
from class_files import BRANCHES, CALL, CHAR_AT, DESCRIPTORS, FAULT, KINDS, LENGTH, LOCALS, PLAIN, SLOTS, ClassFile
from inference import Inference, effect_of
from java_side import Java, write_classes
from reading import classes_named, methods_of, name_of
from typed_code import FUEL, PUT, SHUFFLES, TABLE, ClassSet, Method, any_int, any_long, any_text, constant_int, width

CASES = 5000


class Members:
    """The fields and methods of a class of its own, in which code is tried."""

    fields = [("field", "Main", f"f{kind}", text) for kind, text in DESCRIPTORS.items()]
    methods = [
        ("method", "Main", "tried", "()V"),
        ("method", "Main", "m0", "()V"),
        ("method", "Main", "m1", "()I"),
        ("method", "Main", "m2", "(I[I)I"),
        ("method", "Main", "m3", "([[ILjava/lang/String;)V"),
        ("method", "Main", "m4", "([IILjava/lang/String;[[II)I"),
    ]


FIELDS = {KINDS[f[3]]: f for f in Members.fields}
DESCRIPTORS_TRIED = ("()V", "()I", "(I)V", "([I)I", "([[I)V", "(Ljava/lang/String;)I", "(I[I[[ILjava/lang/String;)I", "(II)V")


def other_class(random, descriptor, parts):
    """A class with the members that all cases have, and a method of these most operands and local variables with this code."""
    made = ClassFile("Main")
    made.fields = [(name, text) for _, _, name, text in (*Members.fields, TABLE, FUEL)]
    made.methods = [("run", "()V", 0, 0, [("return",)]), ("tried", descriptor, *parts)]
    for _, _, name, text in (*Members.methods[1:], PUT):
        made.methods.append((name, text, 1, 9, [("iconst_0",), ("ireturn",)] if text.endswith("I") else [("return",)]))
    return made


class Tried:
    """Code at random that is nearly typed: instructions one after the other, with some branches among them."""

    def __init__(self, random):
        self.random = random
        self.descriptor = random.choice(DESCRIPTORS_TRIED)
        self.labels = [f"l{i}" for i in range(random.choice((0, 0, 1, 3)))]
        size = random.randrange(1, 12)
        self.items = [self.instruction() for _ in range(size)]
        for label in self.labels:
            self.items.insert(random.randrange(len(self.items) + 1), ("label", label))
        if random.random() < 0.95:
            self.items.append(self.leave())
        if self.items[-1][0] == "label":
            self.items.append(("nop",))

    def leave(self):
        returns = "ireturn" if (self.descriptor.endswith("I")) == (self.random.random() < 0.95) else "return"
        return (returns,)

    def parts(self):
        return self.random.choice((0, 1, 2, 3, 4, 6, 9)), self.random.choice((0, 1, 2, 4, 4, 6)), self.items

    def variable(self):
        return self.random.choice((0, 0, 1, 1, 2, 3, 4, 5))

    def instruction(self):
        random = self.random
        choice = random.random()
        if choice < 0.4:
            return self.pushing()
        if choice < 0.5:
            name = random.choice(("istore", "astore", "astore", "iload", "aload"))
            return (name, self.variable())
        if choice < 0.6 and self.labels:
            return self.branching()
        if choice < 0.75:
            return random.choice([("pop",), ("pop2",), ("dup",), ("dup_x1",), ("dup_x2",), ("dup2",), ("swap",)])
        return any_instruction(random, self.labels, Members)

    def pushing(self):
        random = self.random
        kind = random.choice("IIJNAPSV")
        if kind == "V":
            return (random.choice(("iload", "aload", "aload")), self.variable())
        if kind == "I":
            return constant_int(random, any_int(random))
        if kind == "J":
            return "ldc2_w", ("long", any_long(random))
        if kind == "N":
            return ("aconst_null",)
        return "getstatic", FIELDS[kind]

    def branching(self):
        return branching(self.random, self.labels)


def branching(random, labels):
    choice = random.random()
    if choice < 0.8:
        return random.choice(list(BRANCHES)), random.choice(labels)
    if choice < 0.85:
        return "goto_w", random.choice(labels)
    targets = [random.choice(labels) for _ in range(random.randrange(1, 4))]
    if choice < 0.92:
        return "tableswitch", random.choice(labels), any_int(random) // 2, targets
    return "lookupswitch", random.choice(labels), list(zip(sorted(random.sample(range(-50, 50), len(targets))), targets))


def any_constant(random):
    return random.choice(
        (("int", any_int(random)), ("long", any_long(random)), ("text", any_text(random)), ("class", "[I"), ("class", "[[I"), ("class", "Main"))
    )


def any_instruction(random, labels, members):
    """Any instruction of the subset, with operands that need not fit it."""
    name = random.choice((*PLAIN, *LOCALS, *BRANCHES, *SLOTS, "ldc", "iinc", "newarray", "bipush", "sipush", "tableswitch"))
    if name in PLAIN or name == "newarray":
        return (name,)
    if name in LOCALS:
        return (name, random.randrange(6))
    if name in BRANCHES or name == "tableswitch":
        return branching(random, labels) if labels else ("nop",)
    if name == "iinc":
        return name, random.randrange(6), random.randrange(-128, 128)
    if name in ("bipush", "sipush"):
        return name, random.randrange(-128, 128)
    if name in ("ldc", "ldc_w", "ldc2_w"):
        return name, any_constant(random)
    if random.random() < 0.03:
        return name, random.choice((any_constant(random), random.choice(members.methods[1:] or [CALL]), random.choice(members.fields)))
    if name in ("getstatic", "putstatic"):
        return name, random.choice(members.fields)
    if name == "invokevirtual":
        return name, random.choice((LENGTH, CHAR_AT))
    if name == "invokestatic":
        return name, random.choice([*members.methods[1:], CALL, FAULT])
    return name, ("class", random.choice(("[I", "[I", "[I", "[I", "[[I", "Main")))


def changed(random, parts, members):
    """A method with a few changes."""
    stack, variables, items = parts
    items = list(items)
    labels = [item[1] for item in items if item[0] == "label"]
    for _ in range(random.choice((0, 1, 1, 1, 2, 3))):
        at, choice = random.randrange(len(items) or 1), random.random()
        if not items:
            break
        if choice < 0.12:
            stack = max(0, stack + random.choice((-2, -1, 1)))
        elif choice < 0.2:
            variables = max(0, variables + random.choice((-1, -1, 1)))
        elif items[at][0] == "label":
            # another place for the label
            moved = items.pop(at)
            items.insert(random.randrange(len(items)), moved)
        elif choice < 0.35:
            del items[at]
        elif choice < 0.45:
            items.insert(at, items[at])
        elif choice < 0.55 and at + 1 < len(items):
            items[at], items[at + 1] = items[at + 1], items[at]
        elif choice < 0.7 and items[at][0] in BRANCHES and labels:
            items[at] = (items[at][0], random.choice(labels))
        elif choice < 0.85 and items[at][0] in LOCALS:
            items[at] = (items[at][0], random.randrange(variables + 1))
        else:
            items[at] = any_instruction(random, labels, members)
    if not items or items[-1][0] == "label":
        items.append(("nop",))
    return stack, variables, items


def small(random):
    """Typed code without branches, and then some at random between any of its instructions."""
    descriptor = random.choice(DESCRIPTORS_TRIED)
    method = Method(random, Members, 0, descriptor)
    for _ in range(random.choice((1, 1, 2, 3, 5))):
        method.step()
    method.leave()
    stack, variables, items = method.parts()
    labels = [f"m{i}" for i in range(random.choice((0, 1, 1, 2)))]
    for label in labels:
        items.insert(random.randrange(len(items)), ("label", label))
        name = random.choice(("goto", "ifeq", "ifeq", "ifnull", "if_icmplt", "tableswitch"))
        branch = {
            "ifeq": [("iconst_0",)],
            "ifnull": [("getstatic", FIELDS["A"])],
            "if_icmplt": [("iconst_0",), ("iconst_1",)],
            "tableswitch": [("iconst_1",)],
        }.get(name, [])
        branch.append((name, label) if name != "tableswitch" else (name, label, 0, [label]))
        at = random.randrange(len(items))
        items[at:at] = branch
    return descriptor, stack + random.choice((0, 0, 1, 2)), variables, items


def probe(random):
    """An instruction or two on operands that it takes, or nearly so, and what may be done with what they leave."""
    pushes = {kind: ("getstatic", FIELDS[kind]) for kind in "IAPS"} | {"J": ("ldc2_w", ("long", 1)), "N": ("aconst_null",)}
    instruction = any_instruction(random, [], Members)
    if random.random() < 0.2:
        # where this profile is narrower
        instruction = random.choice((("aaload",), ("aastore",), ("anewarray", ("class", random.choice(("[I", "[[I", "Main"))))))
    taken = (
        "PI"
        if instruction == ("aaload",)
        else effect_of(instruction)[0]
        if is_plain(instruction)
        else random.choices("IJNAPS", k=random.randrange(4))
    )
    operands = [*random.choices("IIJNAPS", k=random.randrange(3)), *(k.replace("O", "A") for k in taken)]
    for i in range(len(operands)):
        if random.random() < 0.15:
            operands[i] = random.choice("IJNAPS" if operands[i] in "IJ" else "INNAPS")
    items = [pushes[kind] for kind in operands] + [instruction]
    items += [any_instruction(random, [], Members)] * (random.random() < 0.1)
    ends = [("invokevirtual", LENGTH), ("arraylength",), ("pop",), ("astore", 0), ("istore", 0), *(("putstatic", f) for f in Members.fields)]
    items += random.choices(ends, k=random.choice((0, 1, 1)))
    most = sum(map(width, operands)) + random.choice((-1, 0, 1, 1, 2, 2, 3, 4))
    return "()V", max(0, most), random.choice((0, 1, 3, 6)), [*items, ("return",)]


def is_plain(item):
    """What an instruction takes does not depend on what is there."""
    return item[0] not in (*SHUFFLES, *LOCALS, "iinc", "ifnull", "ifnonnull", "arraylength", "aaload") and effect_of(item) is not None


def case_files(random):
    """The files of a case."""
    choice = random.random()
    if choice < 0.25:
        descriptor, *parts = probe(random)
        return {"Main": other_class(random, descriptor, parts).bytes()}
    choice = random.random()
    if choice < 0.2:
        tried = Tried(random)
        return {"Main": other_class(random, tried.descriptor, tried.parts()).bytes()}
    if choice < 0.65:
        descriptor, *parts = small(random)
        if random.random() < 0.5:
            parts = changed(random, parts, Members)
        return {"Main": other_class(random, descriptor, parts).bytes()}
    whole = ClassSet(random)
    methods = whole.classes["Main"].methods
    at = random.randrange(len(methods))
    methods[at] = (*methods[at][:2], *changed(random, methods[at][2:], whole))
    return whole.files()


def rule_for(is_typed, files):
    """The rule by which a case is left out in which nested says this and the other one the contrary, if there is one."""
    found = [Inference(*method) for data in files.values() for method in methods_of(data)]
    beyond = sorted(set().union(*(f.beyond for f in found)))
    if not is_typed and beyond:
        return beyond[0]
    if is_typed and any(name_of(data) != name for name, data in files.items()):
        return "a file whose class has another name"
    if is_typed and any(f.dead_is_wrong() for f in found):
        return "code that is not reached"
    return None


def loaded(files):
    """Of the files those whose classes are named by ones that are loaded, from Main on."""
    names = ["Main"]
    for name in names:
        names += [n for n in classes_named(files[name]) if n in files and n not in names]
    return names


def with_other_bytes(random, files):
    """The files, of which one has a few bytes that are others."""
    name = random.choice(list(files))
    data = bytearray(files[name])
    for _ in range(random.choice((1, 1, 2, 3))):
        at = random.randrange(8, len(data))
        data[at] = random.choice((data[at] ^ 1 << random.randrange(8), data[at] + 1 & 255, data[at] - 1 & 255, random.getrandbits(8)))
    return {**files, name: bytes(data)}


def ready(trial):
    return Java(trial, "Verifier", options=("-Xverify:all",))


def try_case(trial, k, java):
    random, folder = trial.random(k), trial.path(str(k))
    files, has_other_bytes = case_files(random), random.random() < 0.2
    if has_other_bytes:
        files = with_other_bytes(random, files)
    write_classes(folder, files)
    status, _, line = trial.ask("verify", "Main", cwd=folder)
    if has_other_bytes and line.startswith(("nested: class", "nested: link")):
        return trial.leave_out("files that are not of the profile")
    told = java.ask(folder, *loaded(files))
    mine, theirs = status == 0, told == "ok"
    rule = rule_for(mine, files) if mine != theirs else None
    if rule:
        return trial.leave_out(rule)
    trial.came("typed" if mine else "refused")
    if mine != theirs:
        trial.differ(k, f"{line or 'typed'}; and {told[:300]}")
