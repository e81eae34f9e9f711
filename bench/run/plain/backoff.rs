//! Pauses between two turns of a core that has to come again: longer and longer, and then it yields.
use std::hint::spin_loop;
use std::thread::yield_now;

const SPINS: u32 = 6;

pub struct Backoff {
    step: u32,
}

impl Backoff {
    pub fn new() -> Backoff {
        Backoff { step: 0 }
    }

    pub fn reset(&mut self) {
        self.step = 0;
    }

    pub fn snooze(&mut self) {
        if self.step <= SPINS {
            for _ in 0..1 << self.step {
                spin_loop();
            }
        } else {
            yield_now();
        }
        self.step = (self.step + 1).min(SPINS + 4);
    }
}
