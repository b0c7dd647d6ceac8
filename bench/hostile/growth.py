"""Commands over inputs that grow: the processor seconds and the greatest memory of each, and whether doubling the input takes too much more."""
import os
import subprocess
import sys
import tempfile

# what doubling an input may multiply the seconds by, and below how many seconds that is not looked at
MOST, LEAST = 2.3, 0.1


def cost(command, folder, seconds):
    """The processor seconds and the megabytes of a command that is run in a folder; None where it takes longer than so many seconds."""
    with open(os.devnull, "w") as nothing:
        process = subprocess.Popen(command, cwd=folder, stdout=nothing, stderr=nothing, preexec_fn=lambda: limit(seconds))
        _, status, used = os.wait4(process.pid, 0)
    if os.WIFSIGNALED(status):
        return None
    return used.ru_utime + used.ru_stime, used.ru_maxrss / 1024


def limit(seconds):
    import resource
    resource.setrlimit(resource.RLIMIT_CPU, (seconds, seconds))


def tell(rows, seconds=120):
    """Prints a line for each row and size, and gives whether all grow as they may. A row is a name, the sizes, what makes the files of a size in
    a folder, and the command over them."""
    well = True
    for name, sizes, make, command in rows:
        before = None
        for size in sizes:
            with tempfile.TemporaryDirectory() as folder:
                make(size, folder)
                length = sum(os.path.getsize(os.path.join(folder, file)) for file in os.listdir(folder))
                used = cost(command, folder, seconds)
            if used is None:
                print(f"{name:12} {length:9} bytes  more than {seconds} s")
                well = False
                break
            grown = used[0] / before if before else None
            too_much = grown is not None and used[0] >= LEAST and grown > MOST
            print(f"{name:12} {length:9} bytes {used[0]:8.2f} s {used[1]:7.0f} MB" + (f"  times {grown:.2f}" if grown else "") + ("  TOO MUCH" if too_much else ""))
            sys.stdout.flush()
            well = well and not too_much
            before = max(used[0], 0.001)
    return well


def write(folder, name, data):
    with open(os.path.join(folder, name), "wb") as file:
        file.write(data)


def program():
    """The `nested` that is measured."""
    top = os.path.dirname(os.path.dirname(os.path.dirname(os.path.abspath(__file__))))
    return os.path.abspath(os.environ.get("NESTED", os.path.join(top, "crates/nested/out/nested")))
