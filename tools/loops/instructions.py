"""RV32I in assembly. Source: The RISC-V Instruction Set Manual, Volume I, RV32I, chapter 2 and its table of opcodes."""

LOADS = {0: "lb", 1: "lh", 2: "lw", 4: "lbu", 5: "lhu"}
STORES = {0: "sb", 1: "sh", 2: "sw"}
BRANCHES = {0: "beq", 1: "bne", 4: "blt", 5: "bge", 6: "bltu", 7: "bgeu"}
IMMEDIATES = {0: "addi", 2: "slti", 3: "sltiu", 4: "xori", 6: "ori", 7: "andi"}
SHIFTS = {(1, 0): "slli", (5, 0): "srli", (5, 32): "srai"}
OPERATIONS = {(0, 0): "add", (0, 32): "sub", (1, 0): "sll", (2, 0): "slt", (3, 0): "sltu", (4, 0): "xor", (5, 0): "srl",
              (5, 32): "sra", (6, 0): "or", (7, 0): "and"}


def signed(bits: int, length: int = 12) -> int:
    """The number of so many bits."""
    sign = 1 << length - 1
    return (bits & (1 << length) - 1 ^ sign) - sign


def branch_distance(word: int) -> int:
    return signed(word >> 31 << 12 | (word >> 7 & 1) << 11 | (word >> 25 & 63) << 5 | (word >> 8 & 15) << 1, 13)


def jump_distance(word: int) -> int:
    return signed(word >> 31 << 20 | (word >> 12 & 255) << 12 | (word >> 20 & 1) << 11 | (word >> 21 & 1023) << 1, 21)


def access_spelled(word: int) -> str | None:
    """`lw x4,-16(x3)`; None of an instruction that neither loads nor stores."""
    opcode, low, width, base, high = word & 127, word >> 7 & 31, word >> 12 & 7, word >> 15 & 31, word >> 20 & 31
    if opcode == 0b0000011 and width in LOADS:
        return f"{LOADS[width]} x{low},{signed(word >> 20)}(x{base})"
    if opcode == 0b0100011 and width in STORES:
        return f"{STORES[width]} x{high},{signed(word >> 25 << 5 | low)}(x{base})"
    return None


def computed_spelled(word: int) -> str | None:
    """`addi x4,x3,-16`; None of an instruction that doesn't compute."""
    opcode, low, middle, first, second, top = (word & 127, word >> 7 & 31, word >> 12 & 7, word >> 15 & 31,
                                               word >> 20 & 31, word >> 25)
    if opcode in (0b0110111, 0b0010111):
        return f"{'lui' if opcode == 0b0110111 else 'auipc'} x{low},0x{word >> 12:x}"
    if opcode == 0b0010011 and middle in IMMEDIATES:
        return f"{IMMEDIATES[middle]} x{low},x{first},{signed(word >> 20)}"
    if opcode == 0b0010011 and (middle, top) in SHIFTS:
        return f"{SHIFTS[middle, top]} x{low},x{first},{second}"
    if opcode == 0b0110011 and (middle, top) in OPERATIONS:
        return f"{OPERATIONS[middle, top]} x{low},x{first},x{second}"
    return None


def jump_spelled(word: int, pc: int) -> str | None:
    """`bne x4,x0,00000018`, the target as an address, or `jalr x0,0(x1)`; None of an instruction that doesn't jump."""
    opcode, low, middle, first, second = word & 127, word >> 7 & 31, word >> 12 & 7, word >> 15 & 31, word >> 20 & 31
    if opcode == 0b1100011 and middle in BRANCHES:
        return f"{BRANCHES[middle]} x{first},x{second},{(pc + branch_distance(word)) & 0xFFFFFFFF:08x}"
    if opcode == 0b1101111:
        return f"jal x{low},{(pc + jump_distance(word)) & 0xFFFFFFFF:08x}"
    if opcode == 0b1100111 and middle == 0:
        return f"jalr x{low},{signed(word >> 20)}(x{first})"
    return None


def spelled(word: int, pc: int) -> str:
    """An instruction at an address; `.word 0x00000000` of what is none."""
    if word & 0x707F == 0b0001111:
        return "fence"
    if word in (0x73, 0x100073):
        return "ecall" if word == 0x73 else "ebreak"
    return access_spelled(word) or computed_spelled(word) or jump_spelled(word, pc) or f".word 0x{word:08x}"
