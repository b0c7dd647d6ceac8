"""Sources in C at random, whose objects need each other."""

TESTS = ("<", ">", "==", "!=")


class Sources:
    """Files of functions and arrays, some of which are weak or known in their file alone."""

    def __init__(self, random):
        self.random = random
        self.count = random.choice((1, 2, 3))
        self.functions = [(i, f"f{i}_{n}") for i in range(self.count) for n in range(random.randrange(1, 4))]
        self.arrays = [(i, f"a{i}_{n}", random.choice((1, 5, 40))) for i in range(self.count) for n in range(random.randrange(1, 4))]
        self.own = {name for _, name, *_ in (*self.functions, *self.arrays) if random.random() < 0.25}
        self.weak = {name for _, name, *_ in (*self.functions, *self.arrays) if name not in self.own and random.random() < 0.15}
        self.texts = [self.text(i) for i in range(self.count)]

    def known(self, names, i):
        """Those of functions or arrays that file i may use."""
        return [n for n in names if n[0] == i or n[1] not in self.own]

    def way(self, name):
        return "static " if name in self.own else "__attribute__((weak)) " if name in self.weak else ""

    def text(self, i):
        lines = [f"{'static ' if n in self.own else 'extern '}int {n}(int, int *);" for _, n in self.known(self.functions, i)]
        lines += [f"extern int {n}[{size}];" for owner, n, size in self.known(self.arrays, i) if owner != i]
        lines += [self.array(n, size) for owner, n, size in self.arrays if owner == i]
        lines += [self.pointers(i)]
        lines += [self.function(i, n) for owner, n in self.functions if owner == i]
        if i == 0:
            lines.append(f"void __start(void) {{ for (;;) {self.call(0, '1', '0')}; }}")
        return "\n".join(lines) + "\n"

    def array(self, name, size):
        random = self.random
        values = "" if random.random() < 0.4 else f" = {{{', '.join(str(random.randrange(-999, 999)) for _ in range(min(size, 4)))}}}"
        return f"{self.way(name)}int {name}[{size}]{values};"

    def element(self, i):
        _, name, size = self.random.choice(self.known(self.arrays, i))
        return f"{name}[{self.random.randrange(size)}]"

    def call(self, i, number, place):
        return f"{self.random.choice(self.known(self.functions, i))[1]}({number}, {place})"

    def pointers(self, i):
        """Addresses of elements and of functions, as data."""
        constant = self.random.choice(("", "const "))
        elements = ", ".join(f"&{self.element(i)}" for _ in range(3))
        functions = ", ".join(self.random.choice(self.known(self.functions, i))[1] for _ in range(2))
        return f"int *{constant}p{i}[] = {{{elements}}}; int (*{constant}q{i}[])(int, int *) = {{{functions}}};"

    def function(self, i, name):
        random = self.random
        lines = []
        for _ in range(random.randrange(1, 5)):
            lines.append(
                random.choice(
                    (
                        f"n += {self.element(i)};",
                        f"{self.element(i)} = n;",
                        f"place = &{self.element(i)};",
                        f"if (n {random.choice(TESTS)} {random.randrange(9)}) n = {self.call(i, 'n - 1', 'place')};",
                        f'n += "text {random.randrange(99)}"[n & 3];',
                        f"n += q{i}[n & 1](n, p{i}[1]);",
                        f"switch (n) {{ {' '.join(f'case {k}: n = {self.element(i)} + {random.randrange(99)}; break;' for k in range(7))} }}",
                    )
                )
            )
        return f"{self.way(name)}int {name}(int n, int *place) {{ {' '.join(lines)} return place ? n + *place : n; }}"


def flags(random):
    """What a compiler is told, such that docs/LINKING.md takes its objects."""
    chosen = [random.choice(("-O0", "-O1", "-O2", "-Os"))]
    chosen += [flag for flag in ("-ffunction-sections", "-fdata-sections", "-fno-toplevel-reorder") if random.random() < 0.3]
    own = "-mips2 -mabi=32 -EB -msoft-float -mno-abicalls -fno-pic -G0 -ffreestanding -fno-common -fno-merge-constants -w -c"
    return [*own.split(), *chosen]
