//! The peer behind the standard library's mutex.
mod turns;

use std::sync::Mutex;
use turns::{List, Lock};

impl Lock for Mutex<List> {
    fn new(list: List) -> Self {
        Mutex::new(list)
    }

    fn with<R>(&self, turn: impl FnOnce(&mut List) -> R) -> R {
        turn(&mut self.lock().unwrap())
    }

    fn into_list(self) -> List {
        self.into_inner().unwrap()
    }
}

fn main() {
    turns::run::<Mutex<List>>();
}
