"""Classes of version 51 with tables of frames: `nested check` beside the Java virtual machine's verifier by tables, which does not go back to
inference for this version. Some tables are those that `nested frames` stores, and damaged ones; the others come from inference.py, in any
form that a frame may have, with more frames than are needed, weaker ones and wrong ones. And of some class files a few bytes are others.

Left out, since docs/CLASSES.md differs:
- Tables with types that this profile has not, which are Top for an operand, a long for a local variable, float, double, objects that are not
  initialized, and references to any class but [I, [[I and String.
- LDC of a class, an instruction since version 49 and of this profile in none; and what verifier.py has of AALOAD, AASTORE and ANEWARRAY.
- Of the files with other bytes those that this profile does not read, and those whose names mean nothing: they are resolved at a run there.
"""
import struct

from class_files import offsets_of
from inference import MEET, Inference
from java_side import Java, write_classes
from reading import constant_at, methods_of, pool_of
from stack_maps import Malformed, needed, table_of, tables_in, types_of, with_table, without_tops
from typed_code import ClassSet
from verifier import Members, changed, loaded, other_class, probe, small, with_other_bytes

CASES = 4000
PROFILE = {"local": (0, 1, 5, 7), "operand": (1, 4, 5, 7)}
CLASSES = [("class", name) for name in ("[I", "[[I", "java/lang/String")]


# ---- tables from inference


def weakened(random, kinds, is_local):
    """Types, some of which are others."""
    kinds = list(kinds)
    for i, kind in enumerate(kinds):
        if random.random() < 0.1:
            kinds[i] = random.choice(("T", "T", "N", *"IAPS") if is_local else ("N", *"IJAPS"))
    return kinds


def listed_frames(random, items, found, places, exact):
    """Frames for the offsets that need one, and some more; where they are not to be exact, with some changes."""
    wanted = needed(items, found)
    more = 0.2 if random.random() < 0.3 else 0
    by_offset = {}
    for at, frame in found.frames.items():
        if at in wanted or random.random() < more:
            by_offset[places[at]] = frame
    frames = []
    for at, (variables, operands) in sorted(by_offset.items()):
        # what is left of types that are not of the profile
        variables, operands = ["T" if k == "O" else k for k in variables], ["A" if k == "O" else k for k in operands]
        if not exact and random.random() < 0.3:
            variables, operands = weakened(random, variables, True), weakened(random, operands, False)
        frames.append((at, (without_tops(random, variables), operands)))
    if not exact and frames:
        choice = random.random()
        at = random.randrange(len(frames))
        if choice < 0.15:
            del frames[at]
        elif choice < 0.25:
            frames[at] = (frames[at][0] + random.choice((-1, 1)), frames[at][1])
        elif choice < 0.3:
            frames.insert(at, frames[at])
        elif choice < 0.35:
            frames[at] = (frames[at][0], (frames[at][1][0] + ["T"], frames[at][1][1]))
    return frames


def has_class_constant(items):
    return any(item[0] in ("ldc", "ldc_w") and item[1][0] == "class" for item in items)


def with_own_table(random):
    """A class with a method of typed code, or nearly so, and a table of it."""
    while True:
        choice = random.random()
        if choice < 0.2:
            descriptor, *parts = probe(random)
        elif choice < 0.65:
            descriptor, *parts = small(random)
        else:
            whole = ClassSet(random)
            of = [m for m in whole.classes["Main"].methods if m[0] == "body"][0]
            descriptor, parts = of[1], of[2:]
            parts = within_members(parts)
        if random.random() < 0.15:
            parts = changed(random, parts, Members)
        found = Inference(descriptor, *parts)
        if found.typed and random.random() < 0.9:
            # this verifier wants a frame for code that is not reached
            parts = (*parts[:2], [item for at, item in enumerate(parts[2]) if at in found.frames or item[0] == "label"])
        if not has_class_constant(parts[2]) and parts[2][-1][0] != "label":
            break
    made = other_class(random, descriptor, parts)
    made.version = 51
    found = Inference(descriptor, *parts)
    places, _, _ = offsets_of(parts[2], made.pool)
    frames = listed_frames(random, parts[2], found, places, random.random() < 0.4)
    table = table_of(random, descriptor, frames, made.pool)
    made.tables["tried"] = table if frames or random.random() < 0.2 else None
    return {"Main": made.bytes()}


def within_members(parts):
    """Code whose fields and methods are those of the class that it is put into."""
    stack, variables, items = parts
    fields = {f[3]: f for f in Members.fields}
    kept = ("fuel", "table")
    swap = lambda c: fields[c[3]] if c[0] == "field" and c[2] not in kept else c
    items = [(item[0], swap(item[1])) if item[0] in ("getstatic", "putstatic") else item for item in items]
    # calls of the set's own methods become what leaves the same operands
    return stack + 4, variables, [call for item in items for call in without_call(item)]


def without_call(item):
    if item[0] != "invokestatic" or item[1][1] == "nestedvm/Host" or item[1][2] == "put":
        return [item]
    taken = item[1][3][1 : item[1][3].index(")")].replace("[", "").replace("Ljava/lang/String;", "S")
    return [("pop",)] * len(taken) + ([("iconst_1",)] if item[1][3].endswith("I") else [])


# ---- tables that nested stores


def damaged(random, table):
    """A table with a few bytes that are others, or more, or fewer."""
    table = bytearray(table)
    for _ in range(random.choice((1, 1, 2))):
        at = random.randrange(len(table))
        choice = random.random()
        if choice < 0.35:
            table[at] = random.choice((0, 1, 4, 5, 7, 64, 250, 251, 252, 255, random.getrandbits(8)))
        elif choice < 0.7:
            table[at] = table[at] + random.choice((-1, 1)) & 255
        elif choice < 0.85 and len(table) > 1:
            del table[at]
        else:
            table.insert(at, random.choice((0, 1, 5, random.getrandbits(8))))
    return bytes(table)


def with_stored_table(trial, folder, random):
    """Classes that `nested frames` stored, of which one may have a damaged table."""
    files = ClassSet(random).files()
    write_classes(folder, files)
    status, _, line = trial.ask("frames", "Main", cwd=folder)
    if status:
        return line
    for name in files:
        with open(f"{folder}/{name}.class", "rb") as file:
            files[name] = file.read()
    tabled = [name for name in files if tables_in(files[name])]
    if tabled and random.random() < 0.85:
        name = random.choice(tabled)
        place = random.choice(tables_in(files[name]))
        files[name] = with_table(files[name], place, damaged(random, place[2]))
    return files


# ---- cases


def other_types(files):
    """Whether a table has types that this profile has not."""
    for data in files.values():
        entries, _ = pool_of(data)
        for _, _, table in tables_in(data):
            try:
                found = types_of(table)
            except (Malformed, struct.error):
                continue
            if any(tag not in PROFILE[of] or tag == 7 and constant_at(entries, slot) not in CLASSES for of, tag, slot in found):
                return True
    return False


def rule_for(files):
    """The rule by which a case is left out that nested refuses and the other one takes, if there is one."""
    if other_types(files):
        return "types that this profile has not"
    methods = [method for data in files.values() for method in methods_of(data)]
    if any(has_class_constant(items) for *_, items in methods):
        return "LDC of a class"
    beyond = sorted(set().union(*(Inference(*method).beyond for method in methods)) - {MEET})
    return beyond[0] if beyond else None


def ready(trial):
    return Java(trial, "Verifier", options=("-Xverify:all",))


def try_case(trial, k, java):
    random = trial.random(k)
    folder = trial.path(str(k))
    files = with_own_table(random) if random.random() < 0.6 else with_stored_table(trial, folder, random)
    if isinstance(files, str):
        return trial.differ(k, f"frames: {files}")
    has_other_bytes = random.random() < 0.15
    if has_other_bytes:
        files = with_other_bytes(random, files)
    write_classes(folder, files)
    status, _, line = trial.ask("check", "Main", cwd=folder)
    if has_other_bytes and line.startswith(("nested: class", "nested: link")):
        return trial.leave_out("files that are not of the profile")
    told = java.ask(folder, *loaded(files))
    mine, theirs = status == 0, told == "ok"
    rule = rule_for(files) if theirs and not mine else None
    if rule:
        return trial.leave_out(rule)
    trial.came("typed" if mine else "refused")
    if mine != theirs:
        trial.differ(k, f"{line or 'typed'}; and {told[:300]}")
