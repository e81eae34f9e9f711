//! The peer with the same waiting and the same promise: a ticket lock in plain Rust that refuses where no ticket is left, and in which each
//! ticket has a word to sleep on.
mod slots_lock;
mod turns;

use slots_lock::TicketLock;
use turns::{List, Lock};

impl Lock for TicketLock<List> {
    fn new(list: List) -> Self {
        TicketLock::new(list)
    }

    fn with<R>(&self, turn: impl FnOnce(&mut List) -> R) -> R {
        turn(&mut self.lock().unwrap())
    }

    fn into_list(self) -> List {
        self.into_inner()
    }
}

fn main() {
    turns::run::<TicketLock<List>>();
}
