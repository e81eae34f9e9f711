//! The book: the history of the loop, the cores that it has led to, and their store.
use crate::hart::{Arrived, Hart, Stop, loaded, stored};
use crate::image::Image;
use crate::store::{Cores, Step, Store};

/// What a turn came to.
pub enum Answer {
    Go(Hart),
    Again,
    Left,
    Over,
    Stopped,
}

#[derive(Clone, Copy)]
#[allow(dead_code)] // a history is kept to be read: here just its length is
enum What {
    Start(u32),
    Load { addr: u32, width: u32, value: u32 },
    Store { addr: u32, width: u32, value: u32 },
    Publish,
    Hurt(u32),
    Cancel(u32),
    Restart,
    Commit,
    Fault { cause: u32, pc: u32 },
}

#[derive(Clone, Copy)]
#[allow(dead_code)]
struct Entry {
    by: u32,
    what: What,
}

#[derive(Clone, Copy)]
struct Running {
    epoch: u32,
    hart: Hart,
    straight: bool,
    hurt: bool,
}

#[derive(Clone, Copy)]
enum End {
    Done(u32),
    Exit(u32),
    Fault { epoch: u32, cause: u32, pc: u32 },
}

pub struct Book<'a, S> {
    image: &'a Image,
    history: Vec<Entry>,
    counts: [u64; 4],
    running: Vec<Option<Running>>,
    homefree: u32,
    next_epoch: u32,
    end: Option<End>,
    store: S,
    room: usize,
    stopped: bool,
}

impl<'a, S: Store> Book<'a, S> {
    pub fn new(image: &'a Image, cores: usize, room: usize) -> Book<'a, S> {
        Book {
            image,
            history: Vec::new(),
            counts: [0; 4],
            running: vec![None; cores],
            homefree: 0,
            next_epoch: 0,
            end: (image.epochs == 0).then_some(End::Done(0)),
            store: S::new(image, cores),
            room,
            stopped: false,
        }
    }

    pub fn turn(&mut self, core: usize, next: Option<&Arrived>) -> Answer {
        if self.end.is_some() {
            return Answer::Over;
        }
        if self.stopped {
            return Answer::Stopped;
        }
        if self.room - self.history.len() < self.image.free_entries() {
            self.stopped = true;
            return Answer::Stopped;
        }
        self.history.reserve(self.image.free_entries());
        let Some(now) = self.running[core] else {
            return self.start(core);
        };
        if now.hurt {
            return self.restart(core, now);
        }
        match next {
            Some(arrived) if arrived.base == now.hart => self.run(core, now, arrived),
            _ => Answer::Go(now.hart),
        }
    }

    fn note(&mut self, core: usize, what: What) {
        self.history.push(Entry { by: core as u32, what });
    }

    fn begin(&mut self, core: usize, epoch: u32) -> Answer {
        self.store.begin(core, epoch);
        let hart = Hart::start(self.image, epoch);
        self.running[core] = Some(Running { epoch, hart, straight: false, hurt: false });
        Answer::Go(hart)
    }

    fn start(&mut self, core: usize) -> Answer {
        if self.next_epoch == self.image.epochs {
            return Answer::Again;
        }
        self.note(core, What::Start(self.next_epoch));
        self.next_epoch += 1;
        self.begin(core, self.next_epoch - 1)
    }

    fn restart(&mut self, core: usize, now: Running) -> Answer {
        self.note(core, What::Restart);
        self.counts[2] += 1;
        self.begin(core, now.epoch)
    }

    fn run(&mut self, core: usize, now: Running, arrived: &Arrived) -> Answer {
        match arrived.at {
            Stop::Load { addr, width, .. } => self.load(core, now, arrived, addr, width),
            Stop::Store { addr, width, value } => self.store(core, now, arrived, addr, width, value),
            _ if now.epoch != self.homefree => Answer::Again,
            Stop::Ended => self.commit(core, now, arrived),
            Stop::Fault { cause, pc } => {
                self.settle(core, now);
                self.note(core, What::Fault { cause, pc });
                self.end = Some(End::Fault { epoch: now.epoch, cause, pc });
                Answer::Over
            }
        }
    }

    /// A load. Where the store lets it wait, the homefree core goes straight, and any other has to come again.
    fn load(&mut self, core: usize, now: Running, arrived: &Arrived, addr: u32, width: u32) -> Answer {
        let mut now = now;
        let step = if now.straight { Step::Wait } else { self.store.load(core, addr, width) };
        let (value, hurt) = match step {
            Step::Done { value, hurt } => (value, hurt),
            Step::Wait if now.epoch != self.homefree => return Answer::Again,
            Step::Wait => {
                now = self.go_straight(core, now);
                self.store.straight_load(core, addr, width)
            }
        };
        self.hurt_all(core, hurt);
        self.note(core, What::Load { addr, width, value });
        self.counts[0] += 1;
        self.go(core, now, loaded(arrived, value))
    }

    /// A store. Where the store of epochs lets it wait, the homefree core goes straight, and any other has to come again.
    fn store(&mut self, core: usize, now: Running, arrived: &Arrived, addr: u32, width: u32, value: u32) -> Answer {
        let mut now = now;
        let step = if now.straight { Step::Wait } else { self.store.store(core, addr, width, value) };
        let hurt = match step {
            Step::Done { hurt, .. } => hurt,
            Step::Wait if now.epoch != self.homefree => return Answer::Again,
            Step::Wait => {
                now = self.go_straight(core, now);
                self.store.straight_store(core, addr, width, value)
            }
        };
        self.hurt_all(core, hurt);
        self.note(core, What::Store { addr, width, value });
        self.counts[1] += 1;
        self.go(core, now, stored(arrived))
    }

    fn go(&mut self, core: usize, now: Running, hart: Hart) -> Answer {
        self.running[core] = Some(Running { hart, ..now });
        Answer::Go(hart)
    }

    fn hurt_all(&mut self, core: usize, hurt: Cores) {
        for k in (0..self.running.len()).filter(|&k| hurt >> k & 1 == 1) {
            let running = self.running[k].as_mut().unwrap();
            running.hurt = true;
            let epoch = running.epoch;
            self.note(core, What::Hurt(epoch));
        }
    }

    /// The homefree core publishes, unless it is straight.
    fn settle(&mut self, core: usize, now: Running) {
        if !now.straight {
            let hurt = self.store.publish(core);
            self.hurt_all(core, hurt);
        }
    }

    fn go_straight(&mut self, core: usize, now: Running) -> Running {
        if !now.straight {
            self.settle(core, now);
            self.note(core, What::Publish);
        }
        Running { straight: true, ..now }
    }

    fn commit(&mut self, core: usize, now: Running, arrived: &Arrived) -> Answer {
        self.settle(core, now);
        if arrived.now.exits(self.image) {
            self.end = Some(End::Exit(self.homefree));
            self.cancel_others(core);
        }
        self.note(core, What::Commit);
        self.counts[3] += 1;
        self.running[core] = None;
        self.store.leave(core);
        self.homefree += 1;
        if self.end.is_none() && self.homefree == self.image.epochs {
            self.end = Some(End::Done(self.homefree));
        }
        if self.end.is_some() { Answer::Over } else { Answer::Left }
    }

    fn cancel_others(&mut self, core: usize) {
        for k in (0..self.running.len()).filter(|&k| k != core) {
            if let Some(other) = self.running[k].take() {
                if !other.hurt {
                    self.store.cancel(k);
                }
                self.note(core, What::Cancel(other.epoch));
            }
        }
    }

    pub fn entries(&self) -> usize {
        self.history.len()
    }

    /// The report of a loop that is over.
    pub fn report(&self, image: &Image) -> Option<String> {
        let mut text = match self.end? {
            End::Done(epochs) => format!("end done {epochs}\n"),
            End::Exit(epoch) => format!("end exit {epoch}\n"),
            End::Fault { epoch, cause, pc } => format!("end fault {epoch} {cause} {pc:08x}\n"),
        };
        let committed = self.store.committed();
        let rows = committed.chunks(16).zip(image.bytes.chunks(16));
        for (i, (now, _)) in rows.enumerate().filter(|(_, (now, before))| now != before) {
            let digits: String = now.iter().map(|byte| format!("{byte:02x}")).collect();
            text += &format!("at {:08x} {digits}\n", 16 * i);
        }
        Some(text)
    }
}
