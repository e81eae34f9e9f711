//! A plain store of speculative epochs: committed bytes, and for each core the bytes that its attempt has stored and read.

pub const MAX_CORES: usize = 16;

/// For how many accesses of each core room is made at once.
const MOST_ACCESSES: u32 = 64;

/// Some of the cores of a store.
#[derive(Clone, Copy)]
pub struct CoreSet([bool; MAX_CORES]);

impl CoreSet {
    fn none() -> CoreSet {
        CoreSet([false; MAX_CORES])
    }

    pub fn has(&self, core: usize) -> bool {
        self.0.get(core).is_some_and(|member| *member)
    }

    fn insert(&mut self, core: usize) {
        self.0[core] = true;
    }
}

/// What an access came to. A plain store never waits.
pub enum Step {
    Done { value: u32, hurt: CoreSet },
    #[allow(dead_code)]
    Wait,
}

/// Some of memory's bytes, kept beside it: a byte or none at each address, and the addresses where there is one.
#[derive(Default)]
struct ShadowBytes {
    cells: Vec<Option<u8>>,
    touched: Vec<u32>,
}

impl ShadowBytes {
    fn get(&self, addr: u32) -> Option<u8> {
        self.cells.get(addr as usize).copied().flatten()
    }

    fn reserve(&mut self, size: u32, bytes: u32) {
        self.touched.reserve(bytes as usize);
        if self.cells.len() < size as usize {
            self.cells.resize(size as usize, None);
        }
    }

    fn set(&mut self, addr: u32, byte: u8) {
        let cell = &mut self.cells[addr as usize];
        if cell.is_none() {
            self.touched.push(addr);
        }
        *cell = Some(byte);
    }

    fn number(&self, memory: &[u8], addr: u32, width: u32) -> u32 {
        let seen = |addr: u32| self.get(addr).unwrap_or(memory[addr as usize]);
        match width {
            1 => u32::from(seen(addr)),
            2 => u32::from(u16::from_le_bytes([seen(addr), seen(addr + 1)])),
            _ => u32::from_le_bytes([seen(addr), seen(addr + 1), seen(addr + 2), seen(addr + 3)]),
        }
    }

    /// Notes the bytes that a load reads from outside `own`.
    fn note(&mut self, own: &ShadowBytes, memory: &[u8], addr: u32, width: u32) {
        for a in addr..addr + width {
            if own.get(a).is_none() {
                self.set(a, memory[a as usize]);
            }
        }
    }

    fn keep(&mut self, addr: u32, width: u32, value: u32) {
        for (a, byte) in (addr..addr + width).zip(value.to_le_bytes()) {
            self.set(a, byte);
        }
    }

    fn commit(&self, memory: &mut [u8]) {
        for addr in &self.touched {
            if let Some(byte) = self.cells[*addr as usize] {
                memory[*addr as usize] = byte;
            }
        }
    }

    fn clear(&mut self) {
        for addr in &self.touched {
            self.cells[*addr as usize] = None;
        }
        self.touched.clear();
    }
}

#[derive(Clone, Copy)]
struct Attempt {
    #[allow(dead_code)]
    epoch: u32,
    straight: bool,
}

#[derive(Default)]
struct CoreState {
    attempt: Option<Attempt>,
    own: ShadowBytes,
    guarded: ShadowBytes,
}

impl CoreState {
    fn drop_attempt(&mut self) {
        self.attempt = None;
        self.own.clear();
        self.guarded.clear();
    }

    fn go_straight(&mut self) {
        if let Some(attempt) = &mut self.attempt {
            attempt.straight = true;
        }
        self.own.clear();
        self.guarded.clear();
    }

    fn guards_any(&self, own: &ShadowBytes) -> bool {
        self.attempt.is_some() && own.touched.iter().any(|addr| own.get(*addr).is_some() && self.guarded.get(*addr).is_some())
    }

    fn guards_from(&self, addr: u32, width: u32) -> bool {
        self.attempt.is_some() && (addr..addr + width).any(|a| self.guarded.get(a).is_some())
    }
}

pub struct PlainStore {
    committed: Vec<u8>,
    states: Vec<CoreState>,
    budget: u32,
}

impl PlainStore {
    pub fn fresh(bytes: &[u8], cores: usize) -> PlainStore {
        PlainStore { committed: bytes.to_vec(), states: (0..cores).map(|_| CoreState::default()).collect(), budget: 0 }
    }

    /// Makes room for the calls of a turn.
    pub fn reserve(&mut self) {
        if self.budget < 4 {
            let size = self.committed.len() as u32;
            let accesses = size.min(4 * MOST_ACCESSES) / 4;
            for state in &mut self.states {
                state.own.reserve(size, 4 * accesses);
                state.guarded.reserve(size, 4 * accesses);
            }
            self.budget = accesses;
        }
    }

    pub fn begin(&mut self, core: usize, epoch: u32) {
        self.states[core].attempt = Some(Attempt { epoch, straight: false });
    }

    pub fn load(&mut self, core: usize, addr: u32, width: u32) -> Step {
        let state = &mut self.states[core];
        let value = state.own.number(&self.committed, addr, width);
        state.guarded.note(&state.own, &self.committed, addr, width);
        self.budget -= 1;
        Step::Done { value, hurt: CoreSet::none() }
    }

    pub fn store(&mut self, core: usize, addr: u32, width: u32, value: u32) -> Step {
        self.states[core].own.keep(addr, width, value);
        self.budget -= 1;
        Step::Done { value: 0, hurt: CoreSet::none() }
    }

    pub fn publish(&mut self, core: usize) -> CoreSet {
        let own = &self.states[core].own;
        let hurt = self.others(core, |state| state.guards_any(own));
        self.drop_attempts(hurt);
        let state = &mut self.states[core];
        state.own.commit(&mut self.committed);
        state.go_straight();
        hurt
    }

    pub fn straight_load(&mut self, core: usize, addr: u32, width: u32) -> (u32, CoreSet) {
        (self.states[core].own.number(&self.committed, addr, width), CoreSet::none())
    }

    pub fn straight_store(&mut self, core: usize, addr: u32, width: u32, value: u32) -> CoreSet {
        let hurt = self.others(core, |state| state.guards_from(addr, width));
        self.drop_attempts(hurt);
        self.committed[addr as usize..][..width as usize].copy_from_slice(&value.to_le_bytes()[..width as usize]);
        hurt
    }

    pub fn leave(&mut self, core: usize) {
        self.states[core].drop_attempt();
    }

    pub fn committed(&self) -> &[u8] {
        &self.committed
    }

    /// The other cores of which this holds.
    fn others(&self, core: usize, guards: impl Fn(&CoreState) -> bool) -> CoreSet {
        let mut hurt = CoreSet::none();
        for (k, state) in self.states.iter().enumerate() {
            if k != core && guards(state) {
                hurt.insert(k);
            }
        }
        hurt
    }

    fn drop_attempts(&mut self, hurt: CoreSet) {
        for (k, state) in self.states.iter_mut().enumerate() {
            if hurt.has(k) {
                state.drop_attempt();
            }
        }
    }
}
