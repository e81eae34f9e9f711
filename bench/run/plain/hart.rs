//! Harts: the registers and the pc of an epoch, and its way to the next access, end or fault.
use crate::image::Image;

const EPOCH_END: u32 = 0xFFFF_FFFC;

#[derive(Clone, Copy, PartialEq)]
pub struct Hart {
    pub x: [u32; 32],
    pub pc: u32,
    pub done: u64,
}

#[derive(Clone, Copy)]
pub enum Stop {
    Load { addr: u32, width: u32, signed: bool, rd: usize },
    Store { addr: u32, width: u32, value: u32 },
    Ended,
    Fault { cause: u32, pc: u32 },
}

pub struct Arrived {
    pub base: Hart,
    pub now: Hart,
    pub at: Stop,
}

impl Hart {
    pub fn start(image: &Image, epoch: u32) -> Hart {
        let mut x = image.regs;
        x[10] = epoch;
        x[1] = EPOCH_END;
        Hart { x, pc: 0, done: 0 }
    }

    fn write(&mut self, rd: usize, value: u32) {
        if rd != 0 {
            self.x[rd] = value;
        }
        self.go_on();
    }

    fn go_on(&mut self) {
        self.pc = self.pc.wrapping_add(4);
        self.done += 1;
    }

    /// Jumps, with a link in rd; a misaligned target is a fault.
    fn jump(&mut self, rd: usize, target: u32) -> Option<Stop> {
        if target % 4 != 0 {
            return Some(Stop::Fault { cause: 4, pc: self.pc });
        }
        let link = self.pc.wrapping_add(4);
        if rd != 0 {
            self.x[rd] = link;
        }
        self.pc = target;
        self.done += 1;
        None
    }

    /// Executes one instruction, unless it is an access or the epoch stops there.
    #[inline(always)]
    fn step(&mut self, image: &Image) -> Option<Stop> {
        let pc = self.pc;
        if pc == EPOCH_END {
            return Some(Stop::Ended);
        }
        if self.done >= image.limit {
            return Some(Stop::Fault { cause: 8, pc });
        }
        if pc as usize >= image.code {
            return Some(Stop::Fault { cause: 3, pc });
        }
        let word = u32::from_le_bytes(image.bytes[pc as usize..pc as usize + 4].try_into().unwrap());
        self.execute(image, word)
    }

    #[inline(always)]
    fn execute(&mut self, image: &Image, word: u32) -> Option<Stop> {
        let (rd, funct3, funct7) = ((word >> 7 & 31) as usize, word >> 12 & 7, word >> 25);
        let (a, b) = (self.x[(word >> 15 & 31) as usize], self.x[(word >> 20 & 31) as usize]);
        let signed = word as i32;
        let of_i = (signed >> 20) as u32;
        match word & 127 {
            0x37 => self.write(rd, word & 0xFFFF_F000),
            0x17 => self.write(rd, self.pc.wrapping_add(word & 0xFFFF_F000)),
            0x6F => {
                let of_j = (signed >> 31 << 20) as u32 | (word & 0xF_F000) | (word >> 9 & 0x800) | (word >> 20 & 0x7FE);
                return self.jump(rd, self.pc.wrapping_add(of_j));
            }
            0x67 if funct3 == 0 => return self.jump(rd, a.wrapping_add(of_i) & !1),
            0x63 => {
                let taken = match funct3 {
                    0 => a == b,
                    1 => a != b,
                    4 => (a as i32) < b as i32,
                    5 => a as i32 >= b as i32,
                    6 => a < b,
                    7 => a >= b,
                    _ => return Some(Stop::Fault { cause: 1, pc: self.pc }),
                };
                if !taken {
                    self.go_on();
                    return None;
                }
                let of_b = (signed >> 31 << 12) as u32 | (word << 4 & 0x800) | (word >> 20 & 0x7E0) | (word >> 7 & 0x1E);
                return self.jump(0, self.pc.wrapping_add(of_b));
            }
            0x03 if [0, 1, 2, 4, 5].contains(&funct3) => {
                let (addr, width) = (a.wrapping_add(of_i), 1 << (funct3 & 3));
                return Some(match self.fault_at(image, addr, width, 0) {
                    None => Stop::Load { addr, width, signed: funct3 < 2, rd },
                    Some(fault) => fault,
                });
            }
            0x23 if funct3 <= 2 => {
                let addr = a.wrapping_add((signed >> 25 << 5) as u32 | (word >> 7 & 31));
                let width = 1 << funct3;
                let value = if width == 4 { b } else { b & ((1 << (8 * width)) - 1) };
                return Some(self.fault_at(image, addr, width, image.code).unwrap_or(Stop::Store { addr, width, value }));
            }
            0x13 => {
                let value = match (funct3, funct7) {
                    (0, _) => a.wrapping_add(of_i),
                    (2, _) => u32::from((a as i32) < of_i as i32),
                    (3, _) => u32::from(a < of_i),
                    (4, _) => a ^ of_i,
                    (6, _) => a | of_i,
                    (7, _) => a & of_i,
                    (1, 0) => a << (word >> 20 & 31),
                    (5, 0) => a >> (word >> 20 & 31),
                    (5, 32) => (a as i32 >> (word >> 20 & 31)) as u32,
                    _ => return Some(Stop::Fault { cause: 1, pc: self.pc }),
                };
                self.write(rd, value);
            }
            0x33 => {
                let value = match (funct3, funct7) {
                    (0, 0) => a.wrapping_add(b),
                    (0, 32) => a.wrapping_sub(b),
                    (1, 0) => a << (b & 31),
                    (2, 0) => u32::from((a as i32) < b as i32),
                    (3, 0) => u32::from(a < b),
                    (4, 0) => a ^ b,
                    (5, 0) => a >> (b & 31),
                    (5, 32) => (a as i32 >> (b & 31)) as u32,
                    (6, 0) => a | b,
                    (7, 0) => a & b,
                    _ => return Some(Stop::Fault { cause: 1, pc: self.pc }),
                };
                self.write(rd, value);
            }
            0x0F if funct3 == 0 => self.go_on(),
            _ if word == 0x73 || word == 0x0010_0073 => return Some(Stop::Fault { cause: 2, pc: self.pc }),
            _ => return Some(Stop::Fault { cause: 1, pc: self.pc }),
        }
        None
    }

    /// The fault of a data access, if it is one. A store may not go below `least`.
    fn fault_at(&self, image: &Image, addr: u32, width: u32, least: usize) -> Option<Stop> {
        if addr % width != 0 {
            return Some(Stop::Fault { cause: 5, pc: self.pc });
        }
        let place = addr as usize;
        let cause = if least == 0 { 6 } else { 7 };
        (place < least || place + width as usize > image.size).then_some(Stop::Fault { cause, pc: self.pc })
    }

    pub fn exits(&self, image: &Image) -> bool {
        image.exit && self.x[10] != 0
    }
}

/// Goes on to the next access, end or fault.
pub fn advance(image: &Image, hart: Hart) -> Arrived {
    let mut now = hart;
    let at = loop {
        if let Some(at) = now.step(image) {
            break at;
        }
    };
    Arrived { base: hart, now, at }
}

/// The hart after the load at which it stopped.
pub fn loaded(arrived: &Arrived, number: u32) -> Hart {
    let mut hart = arrived.now;
    if let Stop::Load { width, signed, rd, .. } = arrived.at {
        let value = match (width, signed) {
            (1, true) => number as u8 as i8 as u32,
            (2, true) => number as u16 as i16 as u32,
            _ => number,
        };
        hart.write(rd, value);
    }
    hart
}

/// The hart after the store at which it stopped.
pub fn stored(arrived: &Arrived) -> Hart {
    let mut hart = arrived.now;
    hart.go_on();
    hart
}
