//! What the peers do behind their locks: `THREADS TURNS [gap]` lets each thread add TURNS entries to one list, and prints how many it has
//! then; with `gap` the longest time between two turns too, and between two turns of one thread, in microseconds.
use std::sync::atomic::{AtomicU64, Ordering::SeqCst};
use std::time::{Duration, Instant};

pub struct List {
    entries: Vec<(u64, u64)>,
    times: Option<Times>,
}

/// When the last turn was, and each thread's, and the longest times between two.
struct Times {
    last: Option<Instant>,
    longest: Duration,
    last_of: Vec<Option<Instant>>,
    longest_of_one: Duration,
}

impl Times {
    fn new(threads: u64) -> Times {
        Times { last: None, longest: Duration::ZERO, last_of: vec![None; threads as usize], longest_of_one: Duration::ZERO }
    }

    fn note(&mut self, who: u64) {
        let now = Instant::now();
        let since = |last: &mut Option<Instant>| last.replace(now).map_or(Duration::ZERO, |last| now - last);
        self.longest = self.longest.max(since(&mut self.last));
        self.longest_of_one = self.longest_of_one.max(since(&mut self.last_of[who as usize]));
    }
}

impl List {
    pub fn add(&mut self, who: u64, turn: u64) {
        if let Some(times) = &mut self.times {
            times.note(who);
        }
        self.entries.push((who, turn));
    }
}

/// How often the starting thread looks whether all threads are there, and the sleep between two looks.
const MOST_LOOKS: u32 = 10_000;
const BETWEEN_LOOKS: Duration = Duration::from_micros(50);

/// A lock that lends its value for one turn.
pub trait Lock: Sync {
    fn new(list: List) -> Self;

    fn with<R>(&self, turn: impl FnOnce(&mut List) -> R) -> R;

    fn into_list(self) -> List;
}

pub fn run<L: Lock>() {
    let words: Vec<String> = std::env::args().skip(1).collect();
    let (threads, turns): (u64, u64) = (words[0].parse().unwrap(), words[1].parse().unwrap());
    let times = words.get(2).map(|_| Times::new(threads));
    let lock = L::new(List { entries: Vec::with_capacity((threads * turns) as usize), times });
    let there = AtomicU64::new(0);
    std::thread::scope(|scope| {
        let (lock, there) = (&lock, &there);
        // all threads wait for the lock before one has its first turn
        lock.with(|_| {
            for who in 0..threads {
                scope.spawn(move || {
                    there.fetch_add(1, SeqCst);
                    (0..turns).for_each(|turn| lock.with(|list| list.add(who, turn)));
                });
            }
            for _ in 0..MOST_LOOKS {
                if there.load(SeqCst) == threads {
                    break;
                }
                std::thread::sleep(BETWEEN_LOOKS);
            }
        });
    });
    let list = lock.into_list();
    println!("{} entries", list.entries.len());
    if let Some(times) = list.times {
        println!("gap {} {}", times.longest.as_micros(), times.longest_of_one.as_micros());
    }
}
