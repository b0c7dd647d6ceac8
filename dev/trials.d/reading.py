"""Class files of class_files.py read again: the methods, with their instructions as tuples."""
import struct

from class_files import BRANCHES, LOCALS, PLAIN, SHORT_LOCALS, SLOTS

NAMES = {opcode: name for table in (PLAIN, LOCALS, BRANCHES, SLOTS) for name, opcode in table.items()}
SHORT = {first + i: (name, i) for name, first in SHORT_LOCALS.items() for i in range(4)}
NAMES |= {16: "bipush", 17: "sipush", 18: "ldc", 132: "iinc", 170: "tableswitch", 171: "lookupswitch", 188: "newarray", 200: "goto_w"}


def pool_of(data):
    """The entries of a pool by their slots, and the place behind it."""
    (count,) = struct.unpack_from(">H", data, 8)
    at, slot, entries = 10, 1, {}
    forms = {3: ">i", 5: ">q", 7: ">H", 8: ">H", 9: ">HH", 10: ">HH", 12: ">HH"}
    while slot < count:
        tag = data[at]
        if tag == 1:
            (size,) = struct.unpack_from(">H", data, at + 1)
            entries[slot] = tag, data[at + 3 : at + 3 + size].decode("latin-1")
            at += 3 + size
        else:
            entries[slot] = tag, *struct.unpack_from(forms[tag], data, at + 1)
            at += 1 + struct.calcsize(forms[tag])
        slot += 2 if tag == 5 else 1
    return entries, at


def constant_at(entries, slot):
    tag, *parts = entries.get(slot, (0,))
    text = lambda n: entries[n][1]
    if tag in (3, 5):
        return ("int" if tag == 3 else "long"), parts[0]
    if tag in (7, 8):
        return ("class" if tag == 7 else "text"), text(parts[0])
    if tag in (9, 10):
        _, name, descriptor = entries[parts[1]]
        return ("field" if tag == 9 else "method"), constant_at(entries, parts[0])[1], text(name), text(descriptor)
    return ("none",)


def name_of(data):
    """The name that a class gives itself."""
    entries, behind = pool_of(data)
    (this_class,) = struct.unpack_from(">H", data, behind + 2)
    return constant_at(entries, this_class)[1]


def classes_named(data):
    entries, _ = pool_of(data)
    return [constant_at(entries, slot)[1] for slot, entry in entries.items() if entry[0] == 7]


def instructions(code, entries):
    """The instructions with their offsets; targets are offsets."""
    at, made = 0, []
    while at < len(code):
        opcode = code[at]
        number = lambda form, place: struct.unpack_from(form, code, place)[0]
        if opcode in SHORT:
            item, size = (*SHORT[opcode], "short"), 1
        else:
            name = NAMES[opcode]
            if name in PLAIN:
                item, size = (name,), 1
            elif name in LOCALS:
                item, size = (name, code[at + 1]), 2
            elif name in BRANCHES:
                item, size = (name, at + number(">h", at + 1)), 3
            elif name in SLOTS:
                item, size = (name, constant_at(entries, number(">H", at + 1))), 3
            elif name == "ldc":
                item, size = (name, constant_at(entries, code[at + 1])), 2
            elif name == "goto_w":
                item, size = (name, at + number(">i", at + 1)), 5
            elif name.endswith("switch"):
                item, size = switch(name, code, at)
            elif name == "iinc":
                item, size = (name, code[at + 1], number(">b", at + 2)), 3
            else:
                item, size = (name, code[at + 1]), 3 if name == "sipush" else 2
        made.append((at, item))
        at += size
    return made


def switch(name, code, at):
    place = at + 4 - at % 4
    default, first, last = struct.unpack_from(">iii", code, place) if name == "tableswitch" else (*struct.unpack_from(">ii", code, place), 0)
    if name == "tableswitch":
        targets = struct.unpack_from(f">{last - first + 1}i", code, place + 12)
        return (name, at + default, first, [at + t for t in targets]), place + 12 + 4 * len(targets) - at
    pairs = [struct.unpack_from(">ii", code, place + 8 + 8 * i) for i in range(first)]
    return (name, at + default, [(key, at + t) for key, t in pairs]), place + 8 + 8 * first - at


def targets_of(item):
    if item[0] in BRANCHES or item[0] == "goto_w":
        return [item[1]]
    if item[0] == "tableswitch":
        return [item[1], *item[3]]
    return [item[1], *(t for _, t in item[2])] if item[0] == "lookupswitch" else []


def methods_of(data):
    """Of each method its descriptor, its most operands and local variables, and its items with labels, which are offsets."""
    entries, at = pool_of(data)
    (fields,) = struct.unpack_from(">H", data, at + 8)
    at += 10 + 8 * fields
    (count,) = struct.unpack_from(">H", data, at)
    at += 2
    for _ in range(count):
        descriptor = entries[struct.unpack_from(">H", data, at + 4)[0]][1]
        length, stack, variables, size = struct.unpack_from(">IHHI", data, at + 10)
        found = instructions(data[at + 22 : at + 22 + size], entries)
        targets = {t for _, item in found for t in targets_of(item)}
        items = [part for place, item in found for part in ([("label", place)] * (place in targets) + [item])]
        yield descriptor, stack, variables, items
        at += 14 + length
