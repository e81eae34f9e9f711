//! A plain Rust interpreter of the same machine, as a peer to measure against.
//!
//! `plain seq` reads an image text on standard input and prints the report that
//! `trace_cli seq` prints; `plain count` prints how many instructions the epochs
//! executed. Built by `rustc -O`, standard library only. It is written for speed:
//! code is decoded once, links and the targets of branches are computed then,
//! writes to x0 go to a spare register, and a data access has one bounds check.

mod decode;

use decode::{Instruction, MISALIGNED, Register, decode};
use std::io::{Read, Write};
use std::process::ExitCode;

const END: u32 = 0xFFFF_FFFC;
const LINE_BYTES: usize = 16;

#[derive(Clone, Copy)]
enum Cause {
    Illegal = 1,
    System,
    Fetch,
    Target,
    Misaligned,
    Load,
    Store,
    Limit,
}

struct Fault {
    cause: Cause,
    pc: u32,
}

/// The registers of one epoch, with spare ones for every byte.
struct Registers([u32; 256]);

impl Registers {
    #[inline(always)]
    fn get(&self, register: Register) -> u32 {
        self.0[usize::from(register.0)]
    }

    #[inline(always)]
    fn set(&mut self, register: Register, value: u32) {
        self.0[usize::from(register.0)] = value;
    }
}

/// Memory as two parts: the code, which never changes, and the data above it.
struct Memory {
    code: Vec<u8>,
    data: Vec<u8>,
}

/// Memory while an epoch runs.
struct View<'a> {
    code: &'a [u8],
    data: &'a mut [u8],
    /// The address of the first byte of data.
    start: u32,
}

impl View<'_> {
    #[inline(always)]
    fn load<const WIDTH: usize, T>(&self, address: u32, of: impl Fn([u8; WIDTH]) -> T) -> Result<T, Cause> {
        if address as usize % WIDTH != 0 {
            return Err(Cause::Misaligned);
        }
        let place = address.wrapping_sub(self.start) as usize;
        match self.data.get(place..place + WIDTH) {
            Some(bytes) => Ok(of(bytes.try_into().expect("as long as asked for"))),
            None => load_code(self.code, address).map(of),
        }
    }

    #[inline(always)]
    fn store<const WIDTH: usize>(&mut self, address: u32, value: [u8; WIDTH]) -> Result<(), Cause> {
        if address as usize % WIDTH != 0 {
            return Err(Cause::Misaligned);
        }
        let place = address.wrapping_sub(self.start) as usize;
        self.data.get_mut(place..place + WIDTH).ok_or(Cause::Store)?.copy_from_slice(&value);
        Ok(())
    }
}

#[cold]
#[inline(never)]
fn load_code<const WIDTH: usize>(code: &[u8], address: u32) -> Result<[u8; WIDTH], Cause> {
    let place = address as usize;
    let bytes = code.get(place..place + WIDTH).ok_or(Cause::Load)?;
    Ok(bytes.try_into().expect("as long as asked for"))
}

/// How an epoch stopped, and how many instructions it executed.
struct Stopped {
    fault: Option<Fault>,
    executed: u32,
}

/// Why an epoch stops at a word number outside of the code: its end, or a fault.
#[cold]
fn outside(at: usize, left: u32) -> Option<Fault> {
    let pc = (at as u32).wrapping_mul(4);
    match (pc, left) {
        (END, _) => None,
        (_, 0) => Some(Fault { cause: Cause::Limit, pc }),
        _ => Some(Fault { cause: Cause::Fetch, pc }),
    }
}

/// Runs one epoch of at most `limit` instructions.
#[inline(never)]
fn run_epoch(code: &[Instruction], mut memory: View, mut x: Registers, limit: u32) -> Stopped {
    use Instruction::*;
    let mut at = 0usize;
    let mut left = limit;
    let cause = loop {
        let Some(&instruction) = code.get(at) else {
            return Stopped { fault: outside(at, left), executed: limit - left };
        };
        if left == 0 {
            break Cause::Limit;
        }
        left -= 1;
        macro_rules! set {
            ($rd:expr, $value:expr) => {{
                let value = $value;
                x.set($rd, value)
            }};
        }
        macro_rules! branch {
            ($taken:expr, $target:expr) => {
                if $taken {
                    if $target == MISALIGNED {
                        break Cause::Target;
                    }
                    at = $target.0 as usize;
                    continue;
                }
            };
        }
        macro_rules! load {
            ($rd:expr, $rs1:expr, $offset:expr, $of_bytes:expr) => {
                match memory.load(x.get($rs1).wrapping_add($offset), $of_bytes) {
                    Ok(value) => x.set($rd, value),
                    Err(cause) => break cause,
                }
            };
        }
        macro_rules! store {
            ($rs1:expr, $offset:expr, $bytes:expr) => {
                if let Err(cause) = memory.store(x.get($rs1).wrapping_add($offset), $bytes) {
                    break cause;
                }
            };
        }
        match instruction {
            Constant { rd, value } => x.set(rd, value),
            Jal { rd, target } => {
                if target == MISALIGNED {
                    break Cause::Target;
                }
                x.set(rd, 4 * (at as u32 + 1));
                at = target.0 as usize;
                continue;
            }
            Jalr { rd, rs1, offset } => {
                let target = x.get(rs1).wrapping_add(offset) & !1;
                if target % 4 != 0 {
                    break Cause::Target;
                }
                x.set(rd, 4 * (at as u32 + 1));
                at = (target / 4) as usize;
                continue;
            }
            Beq { rs1, rs2, target } => branch!(x.get(rs1) == x.get(rs2), target),
            Bne { rs1, rs2, target } => branch!(x.get(rs1) != x.get(rs2), target),
            Blt { rs1, rs2, target } => branch!((x.get(rs1) as i32) < x.get(rs2) as i32, target),
            Bge { rs1, rs2, target } => branch!(x.get(rs1) as i32 >= x.get(rs2) as i32, target),
            Bltu { rs1, rs2, target } => branch!(x.get(rs1) < x.get(rs2), target),
            Bgeu { rs1, rs2, target } => branch!(x.get(rs1) >= x.get(rs2), target),
            Lb { rd, rs1, offset } => load!(rd, rs1, offset, |b| i8::from_le_bytes(b) as u32),
            Lh { rd, rs1, offset } => load!(rd, rs1, offset, |b| i16::from_le_bytes(b) as u32),
            Lw { rd, rs1, offset } => load!(rd, rs1, offset, u32::from_le_bytes),
            Lbu { rd, rs1, offset } => load!(rd, rs1, offset, |b| u32::from(u8::from_le_bytes(b))),
            Lhu { rd, rs1, offset } => load!(rd, rs1, offset, |b| u32::from(u16::from_le_bytes(b))),
            Sb { rs1, rs2, offset } => store!(rs1, offset, (x.get(rs2) as u8).to_le_bytes()),
            Sh { rs1, rs2, offset } => store!(rs1, offset, (x.get(rs2) as u16).to_le_bytes()),
            Sw { rs1, rs2, offset } => store!(rs1, offset, x.get(rs2).to_le_bytes()),
            Addi { rd, rs1, value } => set!(rd, x.get(rs1).wrapping_add(value)),
            Slti { rd, rs1, value } => set!(rd, u32::from((x.get(rs1) as i32) < value as i32)),
            Sltiu { rd, rs1, value } => set!(rd, u32::from(x.get(rs1) < value)),
            Xori { rd, rs1, value } => set!(rd, x.get(rs1) ^ value),
            Ori { rd, rs1, value } => set!(rd, x.get(rs1) | value),
            Andi { rd, rs1, value } => set!(rd, x.get(rs1) & value),
            Slli { rd, rs1, by } => set!(rd, x.get(rs1) << (by & 31)),
            Srli { rd, rs1, by } => set!(rd, x.get(rs1) >> (by & 31)),
            Srai { rd, rs1, by } => set!(rd, (x.get(rs1) as i32 >> (by & 31)) as u32),
            Add { rd, rs1, rs2 } => set!(rd, x.get(rs1).wrapping_add(x.get(rs2))),
            Sub { rd, rs1, rs2 } => set!(rd, x.get(rs1).wrapping_sub(x.get(rs2))),
            Sll { rd, rs1, rs2 } => set!(rd, x.get(rs1) << (x.get(rs2) & 31)),
            Slt { rd, rs1, rs2 } => set!(rd, u32::from((x.get(rs1) as i32) < x.get(rs2) as i32)),
            Sltu { rd, rs1, rs2 } => set!(rd, u32::from(x.get(rs1) < x.get(rs2))),
            Xor { rd, rs1, rs2 } => set!(rd, x.get(rs1) ^ x.get(rs2)),
            Srl { rd, rs1, rs2 } => set!(rd, x.get(rs1) >> (x.get(rs2) & 31)),
            Sra { rd, rs1, rs2 } => set!(rd, (x.get(rs1) as i32 >> (x.get(rs2) & 31)) as u32),
            Or { rd, rs1, rs2 } => set!(rd, x.get(rs1) | x.get(rs2)),
            And { rd, rs1, rs2 } => set!(rd, x.get(rs1) & x.get(rs2)),
            Fence => {}
            Illegal => break Cause::Illegal,
            System => break Cause::System,
        }
        at += 1;
    };
    let executed = limit - left - u32::from(!matches!(cause, Cause::Limit));
    Stopped { fault: Some(Fault { cause, pc: 4 * at as u32 }), executed }
}

// --- Image and report ------------------------------------------------------

struct Image {
    code: usize,
    epochs: u32,
    limit: u32,
    registers: [u32; 32],
    bytes: Vec<u8>,
}

fn number(word: Option<&str>) -> Option<usize> {
    word?.parse().ok()
}

fn word32(word: Option<&str>) -> Option<u32> {
    u32::from_str_radix(word.filter(|digits| digits.len() == 8)?, 16).ok()
}

fn hexadecimal(word: Option<&str>) -> Option<Vec<u8>> {
    let digits = word.filter(|digits| digits.len() % 2 == 0 && digits.is_ascii())?;
    (0..digits.len()).step_by(2).map(|i| u8::from_str_radix(&digits[i..i + 2], 16).ok()).collect()
}

/// Takes one line into the image; None where it is refused.
fn read_line(image: &mut Image, line: &str) -> Option<()> {
    let mut words = line.split(' ');
    match words.next()? {
        "size" => image.bytes = vec![0; number(words.next()).filter(|n| (16..=65_536).contains(n) && n % 16 == 0)?],
        "epochs" => image.epochs = number(words.next()).filter(|&n| n <= 65_535)? as u32,
        "limit" => image.limit = number(words.next()).filter(|n| (1..=1_000_000).contains(n))? as u32,
        "code" => {
            let code = hexadecimal(words.next()).filter(|code| !code.is_empty() && code.len() % 4 == 0)?;
            image.bytes.get_mut(..code.len())?.copy_from_slice(&code);
            image.code = code.len();
        }
        "reg" => {
            let register = number(words.next()).filter(|n| ![0, 1, 10].contains(n))?;
            *image.registers.get_mut(register)? = word32(words.next())?;
        }
        "at" => {
            let address = word32(words.next()).map(|at| at as usize).filter(|&at| at >= image.code)?;
            let data = hexadecimal(words.next())?;
            image.bytes.get_mut(address..address + data.len())?.copy_from_slice(&data);
        }
        _ => return None,
    }
    words.next().is_none().then_some(())
}

/// The image of a text, or the number of the line that is refused (0 where one
/// is missing). Of the errors that `trace_cli` tells apart, none are here.
fn image_of(text: &str) -> Result<Image, usize> {
    let mut image = Image { code: 0, epochs: u32::MAX, limit: 0, registers: [0; 32], bytes: Vec::new() };
    for (i, line) in text.lines().enumerate() {
        if !line.is_empty() && !line.starts_with('#') {
            read_line(&mut image, line).ok_or(i + 1)?;
        }
    }
    let complete = image.code > 0 && image.epochs != u32::MAX && image.limit > 0;
    if complete { Ok(image) } else { Err(0) }
}

/// The fault of the first epoch that faults, with its number.
struct Finished {
    fault: Option<(u32, Fault)>,
    memory: Memory,
    executed: u64,
}

fn run(image: &Image) -> Finished {
    let (code, data) = image.bytes.split_at(image.code);
    let words = code.chunks_exact(4).map(|b| u32::from_le_bytes([b[0], b[1], b[2], b[3]]));
    let decoded: Vec<Instruction> = (0u32..).step_by(4).zip(words).map(|(pc, word)| decode(pc, word)).collect();
    let mut memory = Memory { code: code.to_vec(), data: data.to_vec() };
    let mut executed = 0;
    for epoch in 0..image.epochs {
        let mut x = Registers([0; 256]);
        x.0[..32].copy_from_slice(&image.registers);
        x.0[1] = END;
        x.0[10] = epoch;
        let view = View { code: &memory.code, data: &mut memory.data, start: image.code as u32 };
        let stopped = run_epoch(&decoded, view, x, image.limit);
        executed += u64::from(stopped.executed);
        if let Some(fault) = stopped.fault {
            return Finished { fault: Some((epoch, fault)), memory, executed };
        }
    }
    Finished { fault: None, memory, executed }
}

fn report(image: &Image, finished: &Finished) -> String {
    let mut text = match &finished.fault {
        Some((epoch, fault)) => format!("end fault {epoch} {} {:08x}\n", fault.cause as u32, fault.pc),
        None => format!("end done {}\n", image.epochs),
    };
    let now = [&finished.memory.code[..], &finished.memory.data[..]].concat();
    let lines = now.chunks(LINE_BYTES).zip(image.bytes.chunks(LINE_BYTES));
    for (i, (line, _)) in lines.enumerate().filter(|(_, (line, before))| line != before) {
        text += &format!("at {:08x} ", i * LINE_BYTES);
        let nibbles = line.iter().flat_map(|byte| [byte >> 4, byte & 15]);
        text.extend(nibbles.map(|nibble| char::from(b"0123456789abcdef"[usize::from(nibble)])));
        text.push('\n');
    }
    text
}

fn main() -> ExitCode {
    let word = std::env::args().nth(1).unwrap_or_default();
    let mut text = String::new();
    if !["seq", "count"].contains(&&word[..]) || std::io::stdin().read_to_string(&mut text).is_err() {
        eprintln!("usage: plain seq|count < IMAGE");
        return ExitCode::from(2);
    }
    let image = match image_of(&text) {
        Ok(image) => image,
        Err(line) => {
            eprintln!("line {line} is refused");
            return ExitCode::from(2);
        }
    };
    let finished = run(&image);
    let output = if word == "count" { format!("{}\n", finished.executed) } else { report(&image, &finished) };
    match std::io::stdout().write_all(output.as_bytes()) {
        Ok(()) => ExitCode::from(u8::from(finished.fault.is_some())),
        Err(_) => ExitCode::from(3),
    }
}
