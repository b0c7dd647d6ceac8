"""Tables of frames (StackMapTable): from frames to bytes, in any of the forms that a frame may have, and where a class file has them."""
import struct

from class_files import DESCRIPTORS, parameters_of
from inference import ENDS
from reading import pool_of

TAGS = {"T": 0, "I": 1, "J": 4, "N": 5}
CLASSES = {kind: text if kind != "S" else "java/lang/String" for kind, text in DESCRIPTORS.items() if kind != "I"}


def type_bytes(kind, pool):
    if kind in TAGS:
        return bytes((TAGS[kind],))
    return struct.pack(">BH", 7, pool.constant("class", CLASSES[kind]))


def frame_forms(delta, before, variables, operands, pool):
    """All spellings of a frame behind one with these local variables."""
    types = lambda kinds: b"".join(type_bytes(k, pool) for k in kinds)
    long_form = struct.pack(">BHH", 255, delta, len(variables)) + types(variables) + struct.pack(">H", len(operands)) + types(operands)
    forms = [long_form]
    if variables == before and not operands:
        forms.append(struct.pack(">BH", 251, delta))
        forms += [bytes((delta,))] * (delta < 64)
    if variables == before and len(operands) == 1:
        forms.append(struct.pack(">BH", 247, delta) + types(operands))
        forms += [bytes((64 + delta,)) + types(operands)] * (delta < 64)
    more = len(variables) - len(before)
    if not operands and 1 <= more <= 3 and variables[: len(before)] == before:
        forms.append(struct.pack(">BH", 251 + more, delta) + types(variables[len(before) :]))
    if not operands and 1 <= -more <= 3 and before[: len(variables)] == variables:
        forms.append(struct.pack(">BH", 251 + more, delta))
    return forms


def without_tops(random, variables):
    """The local variables, where those of unknown type at the end may be left out."""
    kept = list(variables)
    while kept and kept[-1] == "T" and random.random() < 0.9:
        kept.pop()
    return kept


def table_of(random, descriptor, frames, pool):
    """A table of frames, given by offsets as pairs of local variables and operands."""
    entries, before, last = [], parameters_of(descriptor), -1
    for at, (variables, operands) in frames:
        forms = frame_forms(at - last - 1, before, variables, operands, pool) if at > last else [bytes((0,))]
        entries.append(random.choice(forms))
        before, last = variables, at
    return struct.pack(">H", len(entries)) + b"".join(entries)


def needed(items, found):
    """The numbers of the items that a table has to have a frame for: where branches lead, and behind what does not go on."""
    wanted = set()
    for at, item in enumerate(items):
        to = found.successors(at)
        wanted.update(t for t in to if t != at + 1 or item[0] in ENDS)
        if item[0] in ENDS:
            wanted.add(at + 1)
    return {at for at in wanted if at < len(items)}


# ---- class files


def tables_in(data):
    """The tables of a class file: for each the places of the lengths of its method's code attribute and of its own, and the table."""
    at = pool_of(data)[1] + 8
    found = []
    (fields,) = struct.unpack_from(">H", data, at)
    at += 2 + 8 * fields
    (methods,) = struct.unpack_from(">H", data, at)
    at += 2
    for _ in range(methods):
        (code_attribute, length) = at + 10, struct.unpack_from(">I", data, at + 10)[0]
        (size,) = struct.unpack_from(">I", data, at + 18)
        attributes = at + 22 + size + 2
        if struct.unpack_from(">H", data, attributes)[0]:
            (own,) = struct.unpack_from(">I", data, attributes + 4)
            found.append((code_attribute, attributes + 4, data[attributes + 8 : attributes + 8 + own]))
        at += 14 + length
    return found


def with_table(data, place, table):
    """The class file with another table at a place that `tables_in` gave."""
    code_attribute, own, old = place
    made = bytearray(data)
    made[own + 4 : own + 4 + len(old)] = table
    struct.pack_into(">I", made, own, len(table))
    struct.pack_into(">I", made, code_attribute, struct.unpack_from(">I", data, code_attribute)[0] + len(table) - len(old))
    return bytes(made)


class Malformed(Exception):
    pass


def types_of(table):
    """The types of a table as pairs of what has it (local or operand) and its tag, with the slot of a class behind it."""
    at, found = 2, []

    def take(form):
        nonlocal at
        if at + struct.calcsize(form) > len(table):
            raise Malformed
        (n,) = struct.unpack_from(form, table, at)
        at += struct.calcsize(form)
        return n

    def take_type(of):
        tag = take(">B")
        if tag > 8:
            raise Malformed
        found.append((of, tag, take(">H") if tag in (7, 8) else None))

    (count,) = struct.unpack_from(">H", table)
    for _ in range(count):
        tag = take(">B")
        if 64 <= tag < 128:
            take_type("operand")
        elif 128 <= tag < 247:
            raise Malformed
        elif tag >= 247:
            take(">H")
            if tag == 247:
                take_type("operand")
            elif 252 <= tag < 255:
                for _ in range(tag - 251):
                    take_type("local")
            elif tag == 255:
                for of in ("local", "operand"):
                    for _ in range(take(">H")):
                        take_type(of)
    return found
