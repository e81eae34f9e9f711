//! RV32I words as instructions, decoded for speed: a branch has the word number of its target, and a write to x0 goes to a spare register.

/// A register number. Any byte is an index into `Registers`, so no bound is checked.
#[derive(Clone, Copy)]
pub struct Register(pub u8);

/// Takes the writes to x0.
pub const SPARE: Register = Register(32);

/// The place of a branch's target: its word number in the code, or none where
/// the target is no multiple of 4.
#[derive(Clone, Copy, PartialEq)]
pub struct Target(pub u32);

pub const MISALIGNED: Target = Target(u32::MAX);

impl Target {
    fn of(address: u32) -> Target {
        if address % 4 == 0 { Target(address / 4) } else { MISALIGNED }
    }
}

#[derive(Clone, Copy)]
pub enum Instruction {
    /// LUI, and AUIPC with its sum.
    Constant { rd: Register, value: u32 },
    Jal { rd: Register, target: Target },
    Jalr { rd: Register, rs1: Register, offset: u32 },
    Beq { rs1: Register, rs2: Register, target: Target },
    Bne { rs1: Register, rs2: Register, target: Target },
    Blt { rs1: Register, rs2: Register, target: Target },
    Bge { rs1: Register, rs2: Register, target: Target },
    Bltu { rs1: Register, rs2: Register, target: Target },
    Bgeu { rs1: Register, rs2: Register, target: Target },
    Lb { rd: Register, rs1: Register, offset: u32 },
    Lh { rd: Register, rs1: Register, offset: u32 },
    Lw { rd: Register, rs1: Register, offset: u32 },
    Lbu { rd: Register, rs1: Register, offset: u32 },
    Lhu { rd: Register, rs1: Register, offset: u32 },
    Sb { rs1: Register, rs2: Register, offset: u32 },
    Sh { rs1: Register, rs2: Register, offset: u32 },
    Sw { rs1: Register, rs2: Register, offset: u32 },
    Addi { rd: Register, rs1: Register, value: u32 },
    Slti { rd: Register, rs1: Register, value: u32 },
    Sltiu { rd: Register, rs1: Register, value: u32 },
    Xori { rd: Register, rs1: Register, value: u32 },
    Ori { rd: Register, rs1: Register, value: u32 },
    Andi { rd: Register, rs1: Register, value: u32 },
    Slli { rd: Register, rs1: Register, by: u8 },
    Srli { rd: Register, rs1: Register, by: u8 },
    Srai { rd: Register, rs1: Register, by: u8 },
    Add { rd: Register, rs1: Register, rs2: Register },
    Sub { rd: Register, rs1: Register, rs2: Register },
    Sll { rd: Register, rs1: Register, rs2: Register },
    Slt { rd: Register, rs1: Register, rs2: Register },
    Sltu { rd: Register, rs1: Register, rs2: Register },
    Xor { rd: Register, rs1: Register, rs2: Register },
    Srl { rd: Register, rs1: Register, rs2: Register },
    Sra { rd: Register, rs1: Register, rs2: Register },
    Or { rd: Register, rs1: Register, rs2: Register },
    And { rd: Register, rs1: Register, rs2: Register },
    Fence,
    Illegal,
    System,
}

pub fn decode(pc: u32, word: u32) -> Instruction {
    use Instruction::*;
    let rd = if word >> 7 & 31 == 0 { SPARE } else { Register((word >> 7 & 31) as u8) };
    let (rs1, rs2) = (Register((word >> 15 & 31) as u8), Register((word >> 20 & 31) as u8));
    let by = (word >> 20 & 31) as u8;
    let signed = word as i32;
    let value = (signed >> 20) as u32;
    let offset = value;
    let for_store = (signed >> 25 << 5) as u32 | (word >> 7 & 31);
    let of_b = (signed >> 31 << 12) as u32 | (word << 4 & 0x800) | (word >> 20 & 0x7E0) | (word >> 7 & 0x1E);
    let of_j = (signed >> 31 << 20) as u32 | (word & 0xF_F000) | (word >> 9 & 0x800) | (word >> 20 & 0x7FE);
    let upper = word & 0xFFFF_F000;
    let target = Target::of(pc.wrapping_add(of_b));
    match (word & 127, word >> 12 & 7, word >> 25) {
        (0x37, _, _) => Constant { rd, value: upper },
        (0x17, _, _) => Constant { rd, value: pc.wrapping_add(upper) },
        (0x6F, _, _) => Jal { rd, target: Target::of(pc.wrapping_add(of_j)) },
        (0x67, 0, _) => Jalr { rd, rs1, offset },
        (0x63, 0, _) => Beq { rs1, rs2, target },
        (0x63, 1, _) => Bne { rs1, rs2, target },
        (0x63, 4, _) => Blt { rs1, rs2, target },
        (0x63, 5, _) => Bge { rs1, rs2, target },
        (0x63, 6, _) => Bltu { rs1, rs2, target },
        (0x63, 7, _) => Bgeu { rs1, rs2, target },
        (0x03, 0, _) => Lb { rd, rs1, offset },
        (0x03, 1, _) => Lh { rd, rs1, offset },
        (0x03, 2, _) => Lw { rd, rs1, offset },
        (0x03, 4, _) => Lbu { rd, rs1, offset },
        (0x03, 5, _) => Lhu { rd, rs1, offset },
        (0x23, 0, _) => Sb { rs1, rs2, offset: for_store },
        (0x23, 1, _) => Sh { rs1, rs2, offset: for_store },
        (0x23, 2, _) => Sw { rs1, rs2, offset: for_store },
        (0x13, 0, _) => Addi { rd, rs1, value },
        (0x13, 2, _) => Slti { rd, rs1, value },
        (0x13, 3, _) => Sltiu { rd, rs1, value },
        (0x13, 4, _) => Xori { rd, rs1, value },
        (0x13, 6, _) => Ori { rd, rs1, value },
        (0x13, 7, _) => Andi { rd, rs1, value },
        (0x13, 1, 0) => Slli { rd, rs1, by },
        (0x13, 5, 0) => Srli { rd, rs1, by },
        (0x13, 5, 32) => Srai { rd, rs1, by },
        (0x33, 0, 0) => Add { rd, rs1, rs2 },
        (0x33, 0, 32) => Sub { rd, rs1, rs2 },
        (0x33, 1, 0) => Sll { rd, rs1, rs2 },
        (0x33, 2, 0) => Slt { rd, rs1, rs2 },
        (0x33, 3, 0) => Sltu { rd, rs1, rs2 },
        (0x33, 4, 0) => Xor { rd, rs1, rs2 },
        (0x33, 5, 0) => Srl { rd, rs1, rs2 },
        (0x33, 5, 32) => Sra { rd, rs1, rs2 },
        (0x33, 6, 0) => Or { rd, rs1, rs2 },
        (0x33, 7, 0) => And { rd, rs1, rs2 },
        (0x0F, 0, _) => Fence,
        _ if word == 0x0000_0073 || word == 0x0010_0073 => System,
        _ => Illegal,
    }
}
