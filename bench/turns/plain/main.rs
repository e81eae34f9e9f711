//! The peer: turns of cores over a plain store in plain Rust, as a good Rust programmer writes them for this measurement.
//! `plain TURNS TIMES` takes so many turns with a new book, so many times, and prints what the last book holds; the time that
//! the turns took goes to the error stream.

mod book;
#[path = "../../seq/plain/decode.rs"]
mod decode;
mod hart;
mod store;

use book::{Book, Counts, drive};
use hart::Image;
use std::time::{Duration, Instant};

/// A histogram loop: each epoch counts eight words of the table at 1024. Which ones follows from its number.
///
/// `addi x5,x10,1; addi x8,x0,8;`
/// `slli x6,x5,13; xor x5,x5,x6; srli x6,x5,17; xor x5,x5,x6; slli x6,x5,5; xor x5,x5,x6;`
/// `andi x6,x5,1020; lw x7,1024(x6); addi x7,x7,1; sw x7,1024(x6);`
/// `addi x8,x8,-1; bne x8,x0,-44; jalr x0,0(x1)`
const CODE: &str = "93021500130480001393d200b3c2620013d31201b3c2620013935200b3c2620013f3c23f8323034093831300232073401304f4ffe31a04fc67800000";
const SIZE: usize = 4096;
const EPOCHS: u32 = 65_535;
const LIMIT: u32 = 200;

const CORES: u32 = 4;

/// The most entries of a history.
const ROOM: usize = 1 << 20;

fn image() -> Image {
    let byte = |at| u8::from_str_radix(&CODE[at..at + 2], 16).expect("two digits");
    let words: Vec<u32> =
        (0..CODE.len()).step_by(8).map(|at| u32::from_le_bytes([byte(at), byte(at + 2), byte(at + 4), byte(at + 6)])).collect();
    Image::new(SIZE, &words, EPOCHS, LIMIT)
}

/// So many core numbers, the same at each run: Marsaglia's xorshift.
fn schedule(turns: u32) -> Vec<u32> {
    let mut state = 2_463_534_242_u32;
    (0..turns)
        .map(|_| {
            state ^= state << 13;
            state ^= state >> 17;
            state ^= state << 5;
            (state >> 4) % CORES
        })
        .collect()
}

/// The sum of the bytes, each times its place.
fn sum_of(bytes: &[u8]) -> u64 {
    (1..).zip(bytes).map(|(place, byte)| place * u64::from(*byte)).sum()
}

fn main() {
    let numbers: Vec<u32> = std::env::args().skip(1).map(|word| word.parse().expect("plain TURNS TIMES")).collect();
    let [turns, times] = numbers[..] else { panic!("plain TURNS TIMES") };
    let schedule = schedule(turns);
    let mut taken = Duration::ZERO;
    for time in 0..times {
        let (mut book, mut shares) = (Book::new(image(), CORES as usize, ROOM), Counts::default());
        let begun = Instant::now();
        let driven = drive(&mut book, &schedule, &mut shares);
        taken += begun.elapsed();
        assert!(matches!(driven, Ok(None)) && shares == book.totals(), "the loop ended, or its history was full");
        if time + 1 == times {
            let Counts { loads, stores, restarts, commits } = shares;
            println!("{} entries, homefree {}", book.history().len(), book.homefree());
            println!("{loads} loads, {stores} stores, {restarts} restarts, {commits} commits, memory {}", sum_of(book.committed()));
        }
    }
    eprintln!("{} ns", taken.as_nanos());
}
