"""Sets of classes at random (typed_code.py), run by `nested run` and by the Java virtual machine with a host that has the contract of docs/HOST.md
(Machine.java): what they write, and how they end.

Left out, since docs/CLASSES.md differs: traps 5 and 6, of frames and of room. The sets call 8 methods deep at most, and make small arrays.
"""
from java_side import Java, write_classes
from typed_code import ClassSet

CASES = 1500
INPUT = b"first line\nsecond\n\nlast without end"


def expected(end, out, errors):
    """The status of `nested run`, its output and its error output, where a run ends so."""
    kind, _, rest = end.partition(" ")
    if kind == "exit":
        return int(rest), out, errors
    return {"trap": 80, "fault": 79}.get(kind, end), out, errors + f"nested: {end}\n".encode()


def ready(trial):
    return Java(trial, "Machine", trial.folder, INPUT.hex())


def try_case(trial, k, java):
    folder = trial.path(str(k))
    write_classes(folder, ClassSet(trial.random(k)).files())
    mine = trial.call(trial.nested, "run", "Main", cwd=folder, input=INPUT)
    end, out, errors = java.ask(k).split("; ")
    trial.came(end if end.startswith("trap") else end.split()[0])
    if mine != expected(end, bytes.fromhex(out), bytes.fromhex(errors)):
        trial.differ(k, f"{mine[0]}, {mine[1].hex()}, {mine[2]}; and {end}, {out}, {errors}")
