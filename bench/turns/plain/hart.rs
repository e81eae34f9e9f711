//! Harts, and how each runs to its next access to data, its end or its fault.

use crate::decode::{Instruction, MISALIGNED, Register, Target, decode};

pub const END: u32 = 0xFFFF_FFFC;

/// A loop: its memory with the code from address 0 on, and its decoded code.
pub struct Image {
    pub bytes: Vec<u8>,
    pub program: Vec<Instruction>,
    pub epochs: u32,
    pub limit: u32,
}

impl Image {
    pub fn new(size: usize, words: &[u32], epochs: u32, limit: u32) -> Image {
        let mut bytes = vec![0; size];
        for (place, word) in bytes.chunks_exact_mut(4).zip(words) {
            place.copy_from_slice(&word.to_le_bytes());
        }
        let program = (0..).step_by(4).zip(words).map(|(pc, word)| decode(pc, *word)).collect();
        Image { bytes, program, epochs, limit }
    }
}

/// Where a hart needs more than itself.
#[derive(Clone, Copy)]
pub enum Stop {
    Load { addr: u32, width: u32, signed: bool, rd: Register },
    Store { addr: u32, width: u32, value: u32 },
    Ended,
    Fault { cause: u32, pc: u32 },
}

#[derive(Clone, Copy, PartialEq)]
pub struct Hart {
    x: [u32; 32],
    pc: u32,
    done: u64,
}

/// How far a hart has come: what was handed in, the hart before the instruction at which it stopped, and the stop.
#[derive(Clone, Copy)]
pub struct Arrived {
    pub base: Hart,
    pub now: Hart,
    pub at: Stop,
}

pub fn advance(image: &Image, hart: Hart) -> Arrived {
    let mut now = hart;
    let at = now.run(image);
    Arrived { base: hart, now, at }
}

/// The hart after the load at which it stopped.
pub fn loaded(arrived: &Arrived, number: u32) -> Hart {
    let mut hart = arrived.now;
    if let Stop::Load { width, signed, rd, .. } = arrived.at {
        let value = match (width, signed) {
            (1, true) => number as u8 as i8 as u32,
            (2, true) => number as u16 as i16 as u32,
            _ => number,
        };
        hart.set(rd, value);
    }
    hart.go_on();
    hart
}

/// The hart after the store at which it stopped.
pub fn stored(arrived: &Arrived) -> Hart {
    let mut hart = arrived.now;
    hart.go_on();
    hart
}

/// The address of a target that is a multiple of 4.
fn address_of(target: Target) -> Option<u32> {
    (target != MISALIGNED).then_some(target.0.wrapping_mul(4))
}

/// How an instruction ends, where it isn't the next one's turn.
enum Next {
    Jump(u32),
    Misaligned,
    Load { rd: Register, rs1: Register, offset: u32, width: u32, signed: bool },
    Store { rs1: Register, rs2: Register, offset: u32, width: u32 },
    Fault(u32),
}

impl Hart {
    pub fn start(epoch: u32) -> Hart {
        let mut x = [0; 32];
        x[1] = END;
        x[10] = epoch;
        Hart { x, pc: 0, done: 0 }
    }

    fn get(&self, register: Register) -> u32 {
        self.x[usize::from(register.0 & 31)]
    }

    fn set(&mut self, rd: Register, value: u32) {
        self.x[usize::from(rd.0 & 31)] = value;
        self.x[0] = 0;
    }

    fn go_on(&mut self) {
        self.pc = self.pc.wrapping_add(4);
        self.done += 1;
    }

    /// Runs to the next stop.
    fn run(&mut self, image: &Image) -> Stop {
        loop {
            if self.pc == END {
                return Stop::Ended;
            }
            let pc = self.pc;
            if self.done >= u64::from(image.limit) {
                return Stop::Fault { cause: 8, pc };
            }
            let Some(instruction) = image.program.get(pc as usize / 4) else {
                return Stop::Fault { cause: 3, pc };
            };
            match self.execute(instruction) {
                None => self.go_on(),
                Some(Next::Jump(target)) => {
                    self.pc = target;
                    self.done += 1;
                }
                Some(Next::Misaligned) => return Stop::Fault { cause: 4, pc },
                Some(Next::Load { rd, rs1, offset, width, signed }) => return self.load(image, rd, rs1, offset, width, signed),
                Some(Next::Store { rs1, rs2, offset, width }) => return self.store(image, rs1, rs2, offset, width),
                Some(Next::Fault(cause)) => return Stop::Fault { cause, pc },
            }
        }
    }

    fn load(&self, image: &Image, rd: Register, rs1: Register, offset: u32, width: u32, signed: bool) -> Stop {
        let (addr, pc) = (self.get(rs1).wrapping_add(offset), self.pc);
        if addr % width != 0 {
            Stop::Fault { cause: 5, pc }
        } else if u64::from(addr) + u64::from(width) > image.bytes.len() as u64 {
            Stop::Fault { cause: 6, pc }
        } else {
            Stop::Load { addr, width, signed, rd }
        }
    }

    fn store(&self, image: &Image, rs1: Register, rs2: Register, offset: u32, width: u32) -> Stop {
        let (addr, pc) = (self.get(rs1).wrapping_add(offset), self.pc);
        let value = match width {
            1 => self.get(rs2) & 0xff,
            2 => self.get(rs2) & 0xffff,
            _ => self.get(rs2),
        };
        let outside = u64::from(addr) + u64::from(width) > image.bytes.len() as u64;
        if addr % width != 0 {
            Stop::Fault { cause: 5, pc }
        } else if outside || (addr as usize) < 4 * image.program.len() {
            Stop::Fault { cause: 7, pc }
        } else {
            Stop::Store { addr, width, value }
        }
    }

    /// Executes an instruction between registers; an answer says what else it asks for.
    #[inline(always)]
    fn execute(&mut self, instruction: &Instruction) -> Option<Next> {
        use Instruction::*;
        let branch = |taken: bool, target: Target| match address_of(target) {
            _ if !taken => None,
            Some(address) => Some(Next::Jump(address)),
            None => Some(Next::Misaligned),
        };
        let load = |rd, rs1, offset, width, signed| Some(Next::Load { rd, rs1, offset, width, signed });
        let store = |rs1, rs2, offset, width| Some(Next::Store { rs1, rs2, offset, width });
        match *instruction {
            Constant { rd, value } => self.set(rd, value),
            Jal { rd, target } => {
                let Some(address) = address_of(target) else { return Some(Next::Misaligned) };
                self.set(rd, self.pc.wrapping_add(4));
                return Some(Next::Jump(address));
            }
            Jalr { rd, rs1, offset } => {
                let target = self.get(rs1).wrapping_add(offset) & !1;
                if target % 4 != 0 {
                    return Some(Next::Misaligned);
                }
                self.set(rd, self.pc.wrapping_add(4));
                return Some(Next::Jump(target));
            }
            Beq { rs1, rs2, target } => return branch(self.get(rs1) == self.get(rs2), target),
            Bne { rs1, rs2, target } => return branch(self.get(rs1) != self.get(rs2), target),
            Blt { rs1, rs2, target } => return branch((self.get(rs1) as i32) < self.get(rs2) as i32, target),
            Bge { rs1, rs2, target } => return branch(self.get(rs1) as i32 >= self.get(rs2) as i32, target),
            Bltu { rs1, rs2, target } => return branch(self.get(rs1) < self.get(rs2), target),
            Bgeu { rs1, rs2, target } => return branch(self.get(rs1) >= self.get(rs2), target),
            Lb { rd, rs1, offset } => return load(rd, rs1, offset, 1, true),
            Lh { rd, rs1, offset } => return load(rd, rs1, offset, 2, true),
            Lw { rd, rs1, offset } => return load(rd, rs1, offset, 4, false),
            Lbu { rd, rs1, offset } => return load(rd, rs1, offset, 1, false),
            Lhu { rd, rs1, offset } => return load(rd, rs1, offset, 2, false),
            Sb { rs1, rs2, offset } => return store(rs1, rs2, offset, 1),
            Sh { rs1, rs2, offset } => return store(rs1, rs2, offset, 2),
            Sw { rs1, rs2, offset } => return store(rs1, rs2, offset, 4),
            Addi { rd, rs1, value } => self.set(rd, self.get(rs1).wrapping_add(value)),
            Slti { rd, rs1, value } => self.set(rd, u32::from((self.get(rs1) as i32) < value as i32)),
            Sltiu { rd, rs1, value } => self.set(rd, u32::from(self.get(rs1) < value)),
            Xori { rd, rs1, value } => self.set(rd, self.get(rs1) ^ value),
            Ori { rd, rs1, value } => self.set(rd, self.get(rs1) | value),
            Andi { rd, rs1, value } => self.set(rd, self.get(rs1) & value),
            Slli { rd, rs1, by } => self.set(rd, self.get(rs1) << (by & 31)),
            Srli { rd, rs1, by } => self.set(rd, self.get(rs1) >> (by & 31)),
            Srai { rd, rs1, by } => self.set(rd, (self.get(rs1) as i32 >> (by & 31)) as u32),
            Add { rd, rs1, rs2 } => self.set(rd, self.get(rs1).wrapping_add(self.get(rs2))),
            Sub { rd, rs1, rs2 } => self.set(rd, self.get(rs1).wrapping_sub(self.get(rs2))),
            Sll { rd, rs1, rs2 } => self.set(rd, self.get(rs1) << (self.get(rs2) & 31)),
            Slt { rd, rs1, rs2 } => self.set(rd, u32::from((self.get(rs1) as i32) < self.get(rs2) as i32)),
            Sltu { rd, rs1, rs2 } => self.set(rd, u32::from(self.get(rs1) < self.get(rs2))),
            Xor { rd, rs1, rs2 } => self.set(rd, self.get(rs1) ^ self.get(rs2)),
            Srl { rd, rs1, rs2 } => self.set(rd, self.get(rs1) >> (self.get(rs2) & 31)),
            Sra { rd, rs1, rs2 } => self.set(rd, (self.get(rs1) as i32 >> (self.get(rs2) & 31)) as u32),
            Or { rd, rs1, rs2 } => self.set(rd, self.get(rs1) | self.get(rs2)),
            And { rd, rs1, rs2 } => self.set(rd, self.get(rs1) & self.get(rs2)),
            Fence => {}
            Illegal => return Some(Next::Fault(1)),
            System => return Some(Next::Fault(2)),
        }
        None
    }
}
