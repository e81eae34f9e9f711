//! The peer of `run`: the same machine in plain Rust, as a good Rust programmer writes it for this measurement.
//! `plain (slots | fifo | mutex) (caches | store) CORES` runs the image on standard input speculatively, one thread per core, and prints
//! the report of `trace_cli run` and the number of entries of its history. The book, its turns, its caches or plain store, and the
//! waiting of its cores are those of the proved machine; the lock is a ticket lock with the same waiting, one that wakes all who
//! sleep at each hand-over, or the standard library's mutex.
mod backoff;
mod book;
mod caches;
mod hart;
mod image;
#[path = "../../lock/lock.rs"]
mod lock;
mod plain_store;
#[path = "../../lock/slots_lock.rs"]
mod slots_lock;
mod store;

use std::io::Read;
use std::process::ExitCode;
use std::sync::Mutex;
use std::sync::atomic::{AtomicUsize, Ordering::SeqCst};
use std::time::Duration;

use backoff::Backoff;
use book::{Answer, Book};
use caches::Caches;
use hart::advance;
use image::Image;
use lock::TicketLock;
use plain_store::PlainStore;
use store::Store;

const ROOM: usize = 1_048_576;

/// A lock that lends its value for one turn.
trait Lock<T>: Sync {
    fn with<R>(&self, turn: impl FnOnce(&mut T) -> R) -> R;

    fn into_value(self) -> T;
}

impl<T: Send> Lock<T> for TicketLock<T> {
    fn with<R>(&self, turn: impl FnOnce(&mut T) -> R) -> R {
        turn(&mut self.lock())
    }

    fn into_value(self) -> T {
        self.into_inner()
    }
}

impl<T: Send> Lock<T> for slots_lock::TicketLock<T> {
    fn with<R>(&self, turn: impl FnOnce(&mut T) -> R) -> R {
        turn(&mut self.lock().unwrap())
    }

    fn into_value(self) -> T {
        self.into_inner()
    }
}

impl<T: Send> Lock<T> for Mutex<T> {
    fn with<R>(&self, turn: impl FnOnce(&mut T) -> R) -> R {
        turn(&mut self.lock().unwrap())
    }

    fn into_value(self) -> T {
        self.into_inner().unwrap()
    }
}

/// How often the starting thread looks whether all cores are there, and sleeps between two looks.
const MOST_LOOKS: u32 = 10_000;
const BETWEEN_LOOKS: Duration = Duration::from_micros(50);

/// The turns of one core, until the loop is over or the book is stopped.
fn core_loop<'a, S: Store>(lock: &impl Lock<Book<'a, S>>, image: &'a Image, core: usize, there: &AtomicUsize) {
    let mut backoff = Backoff::new();
    there.fetch_add(1, SeqCst);
    let mut next = None;
    loop {
        match lock.with(|book| book.turn(core, next.as_ref())) {
            Answer::Go(hart) => {
                backoff.reset();
                next = Some(advance(image, hart));
            }
            Answer::Again => backoff.snooze(),
            Answer::Left => next = None,
            Answer::Over | Answer::Stopped => return,
        }
    }
}

/// One thread for each core. The starting thread holds the book until all are there, but not for long, so that each core has its first
/// turn early.
fn run<'a, S: Store>(lock: impl Lock<Book<'a, S>>, image: &'a Image, cores: usize) -> Book<'a, S> {
    let there = AtomicUsize::new(0);
    std::thread::scope(|scope| {
        let (lock, there) = (&lock, &there);
        lock.with(|_| {
            for core in 0..cores {
                scope.spawn(move || core_loop(lock, image, core, there));
            }
            for _ in 0..MOST_LOOKS {
                if there.load(SeqCst) == cores {
                    break;
                }
                std::thread::sleep(BETWEEN_LOOKS);
            }
        });
    });
    lock.into_value()
}

/// Runs the image behind this kind of lock over this kind of store, and prints what came of it.
fn print_run<S: Store>(image: &Image, kind: &str, cores: usize) -> ExitCode {
    let book = Book::<S>::new(image, cores, ROOM);
    let book = match kind {
        "slots" => run(slots_lock::TicketLock::new(book), image, cores),
        "fifo" => run(TicketLock::new(book), image, cores),
        "mutex" => run(Mutex::new(book), image, cores),
        _ => return ExitCode::from(2),
    };
    let Some(report) = book.report(image) else {
        eprintln!("stopped HistoryFull");
        return ExitCode::from(3);
    };
    print!("{report}");
    println!("entries {}", book.entries());
    ExitCode::SUCCESS
}

fn main() -> ExitCode {
    let words: Vec<String> = std::env::args().skip(1).collect();
    let (kind, store, cores) = (words[0].as_str(), words[1].as_str(), words[2].parse().unwrap());
    let mut text = String::new();
    std::io::stdin().read_to_string(&mut text).unwrap();
    let image = Image::read(&text);
    match store {
        "caches" => print_run::<Caches>(&image, kind, cores),
        "store" => print_run::<PlainStore>(&image, kind, cores),
        _ => ExitCode::from(2),
    }
}
