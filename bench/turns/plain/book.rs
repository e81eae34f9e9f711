//! The book: a history of speculative epochs, and the turns that make it.

use crate::hart::{Arrived, Hart, Image, Stop, advance, loaded, stored};
use crate::store::{CoreSet, MAX_CORES, PlainStore, Step};

/// How many free entries a turn has to find.
const FREE_ENTRIES: usize = 16;

#[derive(Clone, Copy)]
#[allow(dead_code)]
pub enum What {
    Start(u32),
    Load { addr: u32, width: u32, value: u32 },
    Store { addr: u32, width: u32, value: u32 },
    Hurt(u32),
    Restart,
    Publish,
    Commit,
    Fault { cause: u32, pc: u32 },
}

#[derive(Clone, Copy)]
#[allow(dead_code)]
pub struct Entry {
    pub by: u32,
    pub what: What,
}

#[derive(Clone, Copy, Default, PartialEq)]
pub struct Counts {
    pub loads: u64,
    pub stores: u64,
    pub restarts: u64,
    pub commits: u64,
}

#[derive(Clone, Copy)]
#[allow(dead_code)]
pub enum End {
    Done(u32),
    Fault { epoch: u32, cause: u32, pc: u32 },
}

pub enum Answer {
    Go(Hart),
    Again,
    Left,
    Over(End),
}

pub struct HistoryFull;

/// What a core runs.
#[derive(Clone, Copy)]
struct Running {
    epoch: u32,
    hart: Hart,
    straight: bool,
    hurt: bool,
}

pub struct Book {
    image: Image,
    history: Vec<Entry>,
    totals: Counts,
    running: Vec<Option<Running>>,
    homefree: u32,
    next_epoch: u32,
    end: Option<End>,
    store: PlainStore,
    room: usize,
}

impl Book {
    pub fn new(image: Image, cores: usize, room: usize) -> Book {
        let store = PlainStore::fresh(&image.bytes, cores);
        let end = (image.epochs == 0).then_some(End::Done(0));
        let (history, running) = (Vec::new(), vec![None; cores]);
        Book { image, history, totals: Counts::default(), running, homefree: 0, next_epoch: 0, end, store, room }
    }

    pub fn history(&self) -> &[Entry] {
        &self.history
    }

    pub fn homefree(&self) -> u32 {
        self.homefree
    }

    pub fn totals(&self) -> Counts {
        self.totals
    }

    pub fn committed(&self) -> &[u8] {
        self.store.committed()
    }

    /// One turn of a core, with the hart that it has in hand gone on to its next stop.
    pub fn turn(&mut self, core: usize, next: Option<&Arrived>, shares: &mut Counts) -> Result<Answer, HistoryFull> {
        if let Some(end) = self.end {
            return Ok(Answer::Over(end));
        }
        if self.room - self.history.len() < FREE_ENTRIES {
            return Err(HistoryFull);
        }
        self.history.reserve(FREE_ENTRIES);
        self.store.reserve();
        Ok(match (self.running[core], next) {
            (None, _) => self.start(core),
            (Some(now), _) if now.hurt => self.restart(core, now, shares),
            (Some(now), Some(arrived)) if arrived.base == now.hart => self.run(core, now, arrived, shares),
            (Some(now), _) => Answer::Go(now.hart),
        })
    }

    fn start(&mut self, core: usize) -> Answer {
        let epoch = self.next_epoch;
        if epoch >= self.image.epochs {
            return Answer::Again;
        }
        self.store.begin(core, epoch);
        self.note(core, What::Start(epoch));
        self.next_epoch += 1;
        self.begin(core, epoch)
    }

    fn restart(&mut self, core: usize, now: Running, shares: &mut Counts) -> Answer {
        self.store.begin(core, now.epoch);
        self.note(core, What::Restart);
        self.totals.restarts += 1;
        shares.restarts += 1;
        self.begin(core, now.epoch)
    }

    fn begin(&mut self, core: usize, epoch: u32) -> Answer {
        let hart = Hart::start(epoch);
        self.running[core] = Some(Running { epoch, hart, straight: false, hurt: false });
        Answer::Go(hart)
    }

    fn run(&mut self, core: usize, now: Running, arrived: &Arrived, shares: &mut Counts) -> Answer {
        match arrived.at {
            Stop::Load { addr, width, .. } => self.load(core, now, arrived, addr, width, shares),
            Stop::Store { addr, width, value } => self.store(core, now, arrived, (addr, width, value), shares),
            Stop::Ended if now.epoch != self.homefree => Answer::Again,
            Stop::Ended => self.commit(core, now, shares),
            Stop::Fault { .. } if now.epoch != self.homefree => Answer::Again,
            Stop::Fault { cause, pc } => self.fault(core, now, cause, pc),
        }
    }

    fn load(&mut self, core: usize, now: Running, arrived: &Arrived, addr: u32, width: u32, shares: &mut Counts) -> Answer {
        if !now.straight {
            match self.store.load(core, addr, width) {
                Step::Done { value, hurt } => return self.note_load(core, now, arrived, (addr, width, value), hurt, shares),
                Step::Wait if now.epoch != self.homefree => return Answer::Again,
                Step::Wait => {}
            }
        }
        let now = self.go_straight(core, now);
        let (value, hurt) = self.store.straight_load(core, addr, width);
        self.note_load(core, now, arrived, (addr, width, value), hurt, shares)
    }

    fn store(&mut self, core: usize, now: Running, arrived: &Arrived, access: (u32, u32, u32), shares: &mut Counts) -> Answer {
        let (addr, width, value) = access;
        if !now.straight {
            match self.store.store(core, addr, width, value) {
                Step::Done { hurt, .. } => return self.note_store(core, now, arrived, access, hurt, shares),
                Step::Wait if now.epoch != self.homefree => return Answer::Again,
                Step::Wait => {}
            }
        }
        let now = self.go_straight(core, now);
        let hurt = self.store.straight_store(core, addr, width, value);
        self.note_store(core, now, arrived, access, hurt, shares)
    }

    fn note_load(&mut self, core: usize, now: Running, arrived: &Arrived, access: (u32, u32, u32), hurt: CoreSet, shares: &mut Counts) -> Answer {
        let (addr, width, value) = access;
        self.hurt_all(core, hurt);
        self.note(core, What::Load { addr, width, value });
        self.totals.loads += 1;
        shares.loads += 1;
        self.go_on(core, now, loaded(arrived, value))
    }

    fn note_store(&mut self, core: usize, now: Running, arrived: &Arrived, access: (u32, u32, u32), hurt: CoreSet, shares: &mut Counts) -> Answer {
        let (addr, width, value) = access;
        self.hurt_all(core, hurt);
        self.note(core, What::Store { addr, width, value });
        self.totals.stores += 1;
        shares.stores += 1;
        self.go_on(core, now, stored(arrived))
    }

    fn go_on(&mut self, core: usize, now: Running, hart: Hart) -> Answer {
        self.running[core] = Some(Running { hart, ..now });
        Answer::Go(hart)
    }

    /// The homefree core publishes, unless it is straight.
    fn go_straight(&mut self, core: usize, now: Running) -> Running {
        if now.straight {
            return now;
        }
        let hurt = self.store.publish(core);
        self.hurt_all(core, hurt);
        self.note(core, What::Publish);
        Running { straight: true, ..now }
    }

    fn commit(&mut self, core: usize, now: Running, shares: &mut Counts) -> Answer {
        self.settle(core, now);
        self.note(core, What::Commit);
        self.totals.commits += 1;
        shares.commits += 1;
        self.running[core] = None;
        self.homefree += 1;
        self.store.leave(core);
        if self.homefree < self.image.epochs {
            return Answer::Left;
        }
        let end = End::Done(self.homefree);
        self.end = Some(end);
        Answer::Over(end)
    }

    fn fault(&mut self, core: usize, now: Running, cause: u32, pc: u32) -> Answer {
        self.settle(core, now);
        self.note(core, What::Fault { cause, pc });
        let end = End::Fault { epoch: now.epoch, cause, pc };
        self.end = Some(end);
        Answer::Over(end)
    }

    fn settle(&mut self, core: usize, now: Running) {
        if !now.straight {
            let hurt = self.store.publish(core);
            self.hurt_all(core, hurt);
        }
    }

    fn hurt_all(&mut self, by: usize, hurt: CoreSet) {
        for k in 0..self.running.len() {
            if hurt.has(k) {
                let now = self.running[k].as_mut().expect("it had an attempt");
                now.hurt = true;
                let epoch = now.epoch;
                self.note(by, What::Hurt(epoch));
            }
        }
    }

    fn note(&mut self, by: usize, what: What) {
        self.history.push(Entry { by: by as u32, what });
    }
}

/// Takes one turn for each core number, up to the first that ends the loop or fails.
pub fn drive(book: &mut Book, schedule: &[u32], shares: &mut Counts) -> Result<Option<End>, HistoryFull> {
    let mut held: [Option<Arrived>; MAX_CORES] = [None; MAX_CORES];
    for core in schedule {
        let core = *core as usize;
        match book.turn(core, held[core].as_ref(), shares)? {
            Answer::Go(hart) => held[core] = Some(advance(&book.image, hart)),
            Answer::Again => {}
            Answer::Left => held[core] = None,
            Answer::Over(end) => return Ok(Some(end)),
        }
    }
    Ok(None)
}
