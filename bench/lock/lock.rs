//! A ticket lock in plain Rust: threads that are near spin, others sleep on the word that is served, and who hands over wakes them.
//! A ticket is drawn in one of two ways: `lock` wraps past the last ticket, and `lock_checked` refuses there.
#![allow(dead_code)] // each program that has this file draws in one way alone
use std::cell::UnsafeCell;
use std::hint::spin_loop;
use std::ops::{Deref, DerefMut};
use std::sync::atomic::{AtomicU64, Ordering::SeqCst};

/// How often a thread looks, with pauses between, before it sleeps between two looks.
const LOOKS: u32 = 100;

/// A thread with more tickets than these before its own sleeps at once.
const NEAR: u64 = 3;

/// Sleeping on a word, and waking those who do, by Linux's call `futex`. Only the lower half of the word is compared.
mod futex {
    use std::ffi::{c_int, c_long};
    use std::ptr;
    use std::sync::atomic::AtomicU64;

    /// The number of `futex` on x86-64.
    const FUTEX: c_long = 202;
    const WAIT_PRIVATE: c_int = 128;
    const WAKE_PRIVATE: c_int = 129;

    unsafe extern "C" {
        fn syscall(number: c_long, ...) -> c_long;
    }

    pub fn park(word: &AtomicU64, expected: u32) {
        unsafe { syscall(FUTEX, word.as_ptr(), WAIT_PRIVATE, expected, ptr::null::<u8>()) };
    }

    pub fn wake_all(word: &AtomicU64) {
        unsafe { syscall(FUTEX, word.as_ptr(), WAKE_PRIVATE, c_int::MAX) };
    }
}

pub struct TicketLock<T> {
    next: AtomicU64,
    serving: AtomicU64,
    value: UnsafeCell<T>,
}

unsafe impl<T: Send> Sync for TicketLock<T> {}

/// All tickets have been drawn.
#[derive(Debug)]
pub struct Spent;

pub struct Guard<'a, T> {
    lock: &'a TicketLock<T>,
    ticket: u64,
}

impl<T> TicketLock<T> {
    pub fn new(value: T) -> TicketLock<T> {
        TicketLock { next: AtomicU64::new(0), serving: AtomicU64::new(0), value: UnsafeCell::new(value) }
    }

    /// Draws by one addition, which doesn't look for the last ticket.
    pub fn lock(&self) -> Guard<'_, T> {
        self.wait(self.next.fetch_add(1, SeqCst))
    }

    /// Draws by a compare-exchange, and refuses where no ticket is left.
    pub fn lock_checked(&self) -> Result<Guard<'_, T>, Spent> {
        let drawn = self.next.fetch_update(SeqCst, SeqCst, |next| next.checked_add(1));
        drawn.map(|ticket| self.wait(ticket)).map_err(|_| Spent)
    }

    fn wait(&self, ticket: u64) -> Guard<'_, T> {
        let mut looks = 0;
        loop {
            let served = self.serving.load(SeqCst);
            if served == ticket {
                return Guard { lock: self, ticket };
            }
            if looks < LOOKS && ticket - served <= NEAR {
                for _ in 0..1 << looks.min(6) {
                    spin_loop();
                }
                looks += 1;
            } else {
                futex::park(&self.serving, served as u32);
            }
        }
    }

    pub fn into_inner(self) -> T {
        self.value.into_inner()
    }
}

impl<T> Deref for Guard<'_, T> {
    type Target = T;

    fn deref(&self) -> &T {
        unsafe { &*self.lock.value.get() }
    }
}

impl<T> DerefMut for Guard<'_, T> {
    fn deref_mut(&mut self) -> &mut T {
        unsafe { &mut *self.lock.value.get() }
    }
}

impl<T> Drop for Guard<'_, T> {
    fn drop(&mut self) {
        self.lock.serving.store(self.ticket + 1, SeqCst);
        if self.lock.next.load(SeqCst) != self.ticket + 1 {
            futex::wake_all(&self.lock.serving);
        }
    }
}
