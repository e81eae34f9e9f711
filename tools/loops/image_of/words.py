"""Which words are instructions of RV32I. Source: The RISC-V Instruction Set Manual, Volume I, the table of opcodes and
the listings of each extension."""

# What compilers write to stop a program: EBREAK, and the UNIMP of LLVM and of the assemblers; and the zeros with which
# linkers fill what lies between functions, which the manual defines to be illegal. An epoch that gets there faults.
TRAPS = (0x00100073, 0xC0001073, 0)
OF_OPCODE = {0x2F: "A", 0x07: "F", 0x27: "F", 0x43: "F", 0x47: "F", 0x4B: "F", 0x4F: "F", 0x53: "F", 0x57: "V",
             0x1B: "RV64I", 0x3B: "RV64I"}
WHOLE_OPCODES = (0x37, 0x17, 0x6F)
WIDTHS = {0x67: (0,), 0x63: (0, 1, 4, 5, 6, 7), 0x03: (0, 1, 2, 4, 5), 0x23: (0, 1, 2)}


def of_register_operation(function: int, high: int) -> str | None:
    """OP: the base operations have funct7 0, and 0x20 for SUB and SRA."""
    if high == 1:
        return "M"
    return None if high == 0 or (high == 0x20 and function in (0, 5)) else "another extension"


def extension_of(word: int) -> str | None:
    """What a word needs beyond RV32I, as an extension's name; None for an instruction of RV32I."""
    opcode, function, high = word & 127, word >> 12 & 7, word >> 25
    if word in TRAPS:
        return None
    if word & 3 != 3:
        return "C"
    if opcode in WHOLE_OPCODES or function in WIDTHS.get(opcode, ()):
        return None
    if opcode in (0x03, 0x23):
        return "RV64I" if function in (3, 6) else "another extension"
    if opcode == 0x33:
        return of_register_operation(function, high)
    if opcode == 0x13:
        shifts = {1: (0,), 5: (0, 0x20)}
        return None if high in shifts.get(function, (high,)) else "another extension"
    if opcode == 0x0F:
        return {0: None, 1: "Zifencei"}.get(function, "another extension")
    if opcode == 0x73:
        return "system" if function == 0 else "Zicsr"
    return OF_OPCODE.get(opcode, "another extension")


def tells_line(word: int) -> bool:
    """Whether the line of an instruction's source is of use: of a load or a store, and of what stops a program."""
    return word & 127 in (0x03, 0x23) or word in TRAPS[:2]


def uses_register(word: int, register: int) -> bool:
    """Whether an RV32I instruction reads or writes this register."""
    fields = {"rd": word >> 7 & 31, "rs1": word >> 15 & 31, "rs2": word >> 20 & 31}
    used = {
        0x37: ["rd"], 0x17: ["rd"], 0x6F: ["rd"], 0x67: ["rd", "rs1"], 0x03: ["rd", "rs1"],
        0x13: ["rd", "rs1"], 0x33: ["rd", "rs1", "rs2"], 0x63: ["rs1", "rs2"], 0x23: ["rs1", "rs2"],
    }.get(word & 127, [])
    return any(fields[name] == register for name in used)


# --- Words of instructions ----------------------------------------------------
# Source: the same, "RV32I Base Integer Instruction Set", "Immediate Encoding Variants"

def jump(distance: int, register: int = 0) -> int:
    """`jal register` over so many bytes."""
    bits = distance & 0x1FFFFF
    return (bits >> 20 << 31 | (bits >> 1 & 0x3FF) << 21 | (bits >> 11 & 1) << 20 | (bits >> 12 & 0xFF) << 12
            | register << 7 | 0x6F)


def branch(function: int, first: int, second: int, distance: int) -> int:
    """A branch over so many bytes, by its function."""
    bits = distance & 0x1FFF
    return (bits >> 12 << 31 | (bits >> 5 & 0x3F) << 25 | second << 20 | first << 15 | function << 12
            | (bits >> 1 & 0xF) << 8 | (bits >> 11 & 1) << 7 | 0x63)


def immediate(number: int, source: int, target: int, function: int = 0) -> int:
    """`addi target, source, number`, or what another function does: 1 `slli`, 5 `srli`, 7 `andi`."""
    return (number & 0xFFF) << 20 | source << 15 | function << 12 | target << 7 | 0x13
