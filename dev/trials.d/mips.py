"""Words of MIPS II instructions, and programs of them as ELF files."""
import struct

# the fields of instructions by name: the mnemonic, and what selects it
THREE = {"add": 0x20, "addu": 0x21, "sub": 0x22, "subu": 0x23, "and": 0x24, "or": 0x25, "xor": 0x26, "nor": 0x27, "slt": 0x2A, "sltu": 0x2B}
VARIABLE_SHIFTS = {"sllv": 4, "srlv": 6, "srav": 7}
SHIFTS = {"sll": 0, "srl": 2, "sra": 3}
PRODUCTS = {"mult": 0x18, "multu": 0x19}
DIVISIONS = {"div": 0x1A, "divu": 0x1B}
TRAPS = {"tge": 0x30, "tgeu": 0x31, "tlt": 0x32, "tltu": 0x33, "teq": 0x34, "tne": 0x36}
TRAP_IMMEDIATES = {"tgei": 8, "tgeiu": 9, "tlti": 10, "tltiu": 11, "teqi": 12, "tnei": 14}
IMMEDIATES = {"addi": 8, "addiu": 9, "slti": 10, "sltiu": 11, "andi": 12, "ori": 13, "xori": 14}
LOADS = {"lb": 0x20, "lh": 0x21, "lwl": 0x22, "lw": 0x23, "lbu": 0x24, "lhu": 0x25, "lwr": 0x26, "ll": 0x30}
STORES = {"sb": 0x28, "sh": 0x29, "swl": 0x2A, "sw": 0x2B, "swr": 0x2E, "sc": 0x38}
# by how many bytes an address has to be aligned
ALIGNED = {"lh": 2, "lhu": 2, "lw": 4, "ll": 4, "sh": 2, "sw": 4, "sc": 4}
BRANCHES_EQUAL = {"beq": 4, "bne": 5, "beql": 0x14, "bnel": 0x15}
BRANCHES_ZERO = {"blez": 6, "bgtz": 7, "blezl": 0x16, "bgtzl": 0x17}
BRANCHES_SIGN = {"bltz": 0, "bgez": 1, "bltzl": 2, "bgezl": 3, "bltzal": 16, "bgezal": 17, "bltzall": 18, "bgezall": 19}
NOP = 0


def special(funct, rs=0, rt=0, rd=0, sa=0):
    return rs << 21 | rt << 16 | rd << 11 | sa << 6 | funct


def immediate(op, rs, rt, number):
    return op << 26 | rs << 21 | rt << 16 | number & 0xFFFF


def lui(rt, number):
    return immediate(0x0F, 0, rt, number)


def constant(register, number):
    """The two words that put a number into a register."""
    return [lui(register, number >> 16), immediate(IMMEDIATES["ori"], register, register, number)]


def jump(op, target):
    return op << 26 | target >> 2 & 0x3FFFFFF


def load(register, offset, base):
    return immediate(LOADS["lw"], base, register, offset)


def store(register, offset, base):
    return immediate(STORES["sw"], base, register, offset)


SYSCALL = special(0x0C)


def is_branch(word):
    """A branch or a jump, which has a delay slot."""
    op = word >> 26
    return (
        op in (2, 3, 4, 5, 6, 7, 0x14, 0x15, 0x16, 0x17) or op == 0 and word & 0x3F in (8, 9) or op == 1 and word >> 16 & 31 in BRANCHES_SIGN.values()
    )


def bytes_of(words, order):
    return struct.pack(f"{order}{len(words)}I", *words)


def program(order, entry, segments):
    """An ELF file without sections. The order is `>` or `<`; a segment is its address, its flags (4 read, 2 write, 1 execute) and its bytes."""
    place = (52 + 32 * len(segments) + 4095) // 4096 * 4096
    headers, contents = b"", b""
    for address, flags, data in segments:
        at = place + len(contents)
        headers += struct.pack(f"{order}8I", 1, at, address, address, len(data), len(data), flags, 4096)
        contents += data + bytes(-len(data) % 4096)
    identity = b"\x7fELF\1" + (b"\2" if order == ">" else b"\1") + b"\1" + bytes(9)
    # the flags say MIPS II and the calling convention o32
    header = identity + struct.pack(f"{order}HHIIIIIHHHHHH", 2, 8, 1, entry, 52, 0, 0x10001000, 52, 32, len(segments), 40, 0, 0)
    file = header + headers
    return file + bytes(place - len(file)) + contents
