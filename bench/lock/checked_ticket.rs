//! A ticket lock in plain Rust that refuses where no ticket is left, and wakes all who wait at each hand-over.
mod lock;
mod turns;

use lock::TicketLock;
use turns::{List, Lock};

impl Lock for TicketLock<List> {
    fn new(list: List) -> Self {
        TicketLock::new(list)
    }

    fn with<R>(&self, turn: impl FnOnce(&mut List) -> R) -> R {
        turn(&mut self.lock_checked().unwrap())
    }

    fn into_list(self) -> List {
        self.into_inner()
    }
}

fn main() {
    turns::run::<TicketLock<List>>();
}
