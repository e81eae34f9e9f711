//! A ticket lock in plain Rust in which each ticket has a word to sleep on: who hands over wakes the next alone and, while it pays to spin,
//! the one that is near then.
use std::cell::UnsafeCell;
use std::hint::spin_loop;
use std::ops::{Deref, DerefMut};
use std::sync::atomic::{AtomicU64, Ordering::SeqCst};

/// How often a thread looks, with pauses between, before it sleeps between two looks.
const LOOKS: u32 = 100;

/// A thread with more tickets than these before its own sleeps at once, and is woken where there are so many.
const NEAR: u64 = 3;

/// For how many tickets processors count as scarce, once a thread has looked in vain.
const SPAN: u64 = 5;

/// Tickets that are so many apart share a word.
const PLACES: usize = 64;

const AWAKE: u64 = 0;
const ASLEEP: u64 = 1;

/// Sleeping on a word, and waking those who do, by Linux's call `futex`. Only the lower half of the word is compared.
mod futex {
    use std::ffi::{c_int, c_long};
    use std::sync::atomic::AtomicU64;

    /// The number of `futex` on x86-64.
    const FUTEX: c_long = 202;
    const WAIT_PRIVATE: c_int = 128;
    const WAKE_PRIVATE: c_int = 129;

    /// The longest sleep: seconds and nanoseconds.
    const SLEEP: [c_long; 2] = [0, 10_000_000];

    unsafe extern "C" {
        fn syscall(number: c_long, ...) -> c_long;
    }

    pub fn park(word: &AtomicU64, expected: u32) {
        unsafe { syscall(FUTEX, word.as_ptr(), WAIT_PRIVATE, expected, SLEEP.as_ptr()) };
    }

    pub fn wake_all(word: &AtomicU64) {
        unsafe { syscall(FUTEX, word.as_ptr(), WAKE_PRIVATE, c_int::MAX) };
    }
}

/// A word with its cache line to itself.
#[repr(align(64))]
struct Alone(AtomicU64);

pub struct TicketLock<T> {
    next: AtomicU64,
    serving: AtomicU64,
    /// Before this ticket only the thread that is next spins.
    scarce: Alone,
    places: [Alone; PLACES],
    value: UnsafeCell<T>,
}

unsafe impl<T: Send> Sync for TicketLock<T> {}

/// All tickets have been drawn.
#[derive(Debug)]
pub struct Spent;

pub struct Guard<'a, T> {
    lock: &'a TicketLock<T>,
    ticket: u64,
}

impl<T> TicketLock<T> {
    pub fn new(value: T) -> TicketLock<T> {
        TicketLock {
            next: AtomicU64::new(0),
            serving: AtomicU64::new(0),
            scarce: Alone(AtomicU64::new(0)),
            places: [const { Alone(AtomicU64::new(AWAKE)) }; PLACES],
            value: UnsafeCell::new(value),
        }
    }

    /// Refuses where no ticket is left.
    pub fn lock(&self) -> Result<Guard<'_, T>, Spent> {
        let ticket = self.next.fetch_update(SeqCst, SeqCst, |next| next.checked_add(1)).map_err(|_| Spent)?;
        if self.serving.load(SeqCst) != ticket {
            self.wait(ticket);
        }
        Ok(Guard { lock: self, ticket })
    }

    fn place(&self, ticket: u64) -> &AtomicU64 {
        &self.places[ticket as usize % PLACES].0
    }

    fn wait(&self, ticket: u64) {
        let is_scarce = ticket < self.scarce.0.load(SeqCst);
        let near = if is_scarce { 1 } else { NEAR };
        let (mut looks, mut is_down) = (0, false);
        loop {
            let served = self.serving.load(SeqCst);
            if served == ticket {
                return;
            }
            if looks < LOOKS && ticket - served <= near {
                for _ in 0..1 << looks.min(6) {
                    spin_loop();
                }
                looks += 1;
            } else if is_down {
                futex::park(self.place(ticket), ASLEEP as u32);
                is_down = false;
            } else {
                if looks == LOOKS && !is_scarce && self.scarce.0.load(SeqCst) < served + SPAN {
                    self.scarce.0.store(served + SPAN, SeqCst);
                }
                self.place(ticket).store(ASLEEP, SeqCst);
                is_down = true;
            }
        }
    }

    fn wake(&self, ticket: u64) {
        let place = self.place(ticket);
        if place.load(SeqCst) == ASLEEP {
            place.store(AWAKE, SeqCst);
            futex::wake_all(place);
        }
    }

    fn hand_over(&self, served: u64) {
        self.serving.store(served, SeqCst);
        let next = self.next.load(SeqCst);
        if next == served {
            return;
        }
        self.wake(served);
        if next - served > NEAR && served >= self.scarce.0.load(SeqCst) {
            self.wake(served + NEAR);
        }
    }

    pub fn into_inner(self) -> T {
        self.value.into_inner()
    }
}

impl<T> Deref for Guard<'_, T> {
    type Target = T;

    fn deref(&self) -> &T {
        unsafe { &*self.lock.value.get() }
    }
}

impl<T> DerefMut for Guard<'_, T> {
    fn deref_mut(&mut self) -> &mut T {
        unsafe { &mut *self.lock.value.get() }
    }
}

impl<T> Drop for Guard<'_, T> {
    fn drop(&mut self) {
        self.lock.hand_over(self.ticket + 1);
    }
}
