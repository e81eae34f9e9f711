//! The plain store: committed memory, and for each core the bytes that it has stored and those that it has loaded from
//! outside, each with the list of its addresses, so that a rollback costs what was touched. It never lets a core wait.
use crate::image::Image;
use crate::store::{Cores, Step, Store};

#[derive(Default)]
struct Bytes {
    cells: Vec<Option<u8>>,
    touched: Vec<u32>,
}

impl Bytes {
    fn new(size: usize) -> Bytes {
        Bytes { cells: vec![None; size], touched: Vec::with_capacity(256) }
    }

    fn get(&self, addr: u32) -> Option<u8> {
        self.cells[addr as usize]
    }

    fn set(&mut self, addr: u32, byte: u8) {
        if self.cells[addr as usize].replace(byte).is_none() {
            self.touched.push(addr);
        }
    }

    fn clear(&mut self) {
        for addr in self.touched.drain(..) {
            self.cells[addr as usize] = None;
        }
    }
}

struct Core {
    runs: bool,
    own: Bytes,
    guarded: Bytes,
}

impl Core {
    fn new(size: usize) -> Core {
        Core { runs: false, own: Bytes::new(size), guarded: Bytes::new(size) }
    }

    fn drop_attempt(&mut self) {
        self.runs = false;
        self.forget();
    }

    fn forget(&mut self) {
        self.own.clear();
        self.guarded.clear();
    }
}

pub struct PlainStore {
    committed: Vec<u8>,
    cores: Vec<Core>,
}

impl PlainStore {
    /// Drops the attempts of the other cores that have loaded a byte of which this holds.
    fn hurt(&mut self, core: usize, written: impl Fn(&Core) -> bool) -> Cores {
        let mut hurt = 0;
        for k in (0..self.cores.len()).filter(|&k| k != core) {
            if self.cores[k].runs && written(&self.cores[k]) {
                hurt |= 1 << k;
                self.cores[k].drop_attempt();
            }
        }
        hurt
    }
}

impl Store for PlainStore {
    fn new(image: &Image, cores: usize) -> PlainStore {
        PlainStore { committed: image.bytes.clone(), cores: (0..cores).map(|_| Core::new(image.size)).collect() }
    }

    fn begin(&mut self, core: usize, _epoch: u32) {
        self.cores[core].runs = true;
    }

    fn load(&mut self, core: usize, addr: u32, width: u32) -> Step {
        let core = &mut self.cores[core];
        let mut value = 0;
        for i in 0..width {
            let byte = match core.own.get(addr + i) {
                Some(byte) => byte,
                None => {
                    let byte = self.committed[(addr + i) as usize];
                    core.guarded.set(addr + i, byte);
                    byte
                }
            };
            value |= u32::from(byte) << (8 * i);
        }
        Step::Done { value, hurt: 0 }
    }

    fn store(&mut self, core: usize, addr: u32, width: u32, value: u32) -> Step {
        for i in 0..width {
            self.cores[core].own.set(addr + i, (value >> (8 * i)) as u8);
        }
        Step::Done { value: 0, hurt: 0 }
    }

    fn publish(&mut self, core: usize) -> Cores {
        let own = std::mem::take(&mut self.cores[core].own);
        let hurt = self.hurt(core, |other| own.touched.iter().any(|&addr| other.guarded.get(addr).is_some()));
        for &addr in &own.touched {
            self.committed[addr as usize] = own.cells[addr as usize].unwrap();
        }
        self.cores[core].own = own;
        self.cores[core].forget();
        hurt
    }

    fn straight_load(&mut self, _core: usize, addr: u32, width: u32) -> (u32, Cores) {
        let bytes = &self.committed[addr as usize..(addr + width) as usize];
        (bytes.iter().rev().fold(0, |value, &byte| value << 8 | u32::from(byte)), 0)
    }

    fn straight_store(&mut self, core: usize, addr: u32, width: u32, value: u32) -> Cores {
        for i in 0..width {
            self.committed[(addr + i) as usize] = (value >> (8 * i)) as u8;
        }
        self.hurt(core, |other| (0..width).any(|i| other.guarded.get(addr + i).is_some()))
    }

    fn leave(&mut self, core: usize) {
        self.cores[core].drop_attempt();
    }

    fn cancel(&mut self, core: usize) {
        self.cores[core].drop_attempt();
    }

    fn committed(&self) -> Vec<u8> {
        self.committed.clone()
    }
}
