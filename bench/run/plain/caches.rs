//! Speculative caches on one bus: for each core a cache of 4 sets of 2 ways and an ownership required buffer, and memory.
//! States, marks, messages and the order of the steps are those of the proved machine.
use crate::image::Image;
use crate::store::{Cores, Step, Store};

const SETS: usize = 4;
const WAYS: usize = 2;
const LONGEST_LINE: usize = 32;

#[derive(Clone, Copy, PartialEq, Debug)]
enum State {
    I,
    S,
    E,
    M,
    SpS,
    SpE,
}

use State::{E, I, M, S, SpE, SpS};

#[derive(Clone, Copy)]
struct Line {
    addr: u32,
    state: State,
    loaded: bool,
    /// The modified bytes, a bit each.
    mask: u32,
    cells: [u8; LONGEST_LINE],
}

impl Line {
    const INVALID: Line = Line { addr: 0, state: I, loaded: false, mask: 0, cells: [0; LONGEST_LINE] };

    fn is_marked(&self) -> bool {
        matches!(self.state, SpS | SpE)
    }

    /// The core may store to it and tell nobody.
    fn is_owned(&self) -> bool {
        self.state == SpE || self.state == SpS && self.mask != 0
    }

    fn to(&mut self, state: State) {
        self.state = state;
        if !matches!(state, SpS | SpE) {
            self.loaded = false;
            self.mask = 0;
        }
    }

    fn number(&self, offset: usize, width: usize) -> u32 {
        let bytes = &self.cells[offset..offset + width];
        bytes.iter().rev().fold(0, |value, &byte| value << 8 | u32::from(byte))
    }

    fn write(&mut self, offset: usize, width: usize, value: u32) {
        self.cells[offset..offset + width].copy_from_slice(&value.to_le_bytes()[..width]);
    }

    fn roll_back(&mut self) {
        match self.state {
            SpS | SpE if self.mask != 0 => self.to(I),
            SpS => self.to(S),
            SpE => self.to(E),
            _ => {}
        }
    }

    fn settle(&mut self) {
        match self.state {
            SpS | SpE if self.mask != 0 => self.to(M),
            SpS => self.to(S),
            SpE => self.to(E),
            _ => {}
        }
    }
}

fn span(offset: usize, width: usize) -> u32 {
    ((1 << width) - 1) << offset
}

#[derive(Clone, Copy, PartialEq)]
enum Notice {
    Load,
    Store,
    Publish,
}

/// What a notice makes of a copy.
#[derive(Clone, Copy)]
struct Reply {
    state: State,
    enters: bool,
    violated: bool,
}

fn reply(notice: Notice, line: &Line, later: bool) -> Reply {
    let to = |state, enters| Reply { state, enters, violated: false };
    let loaded = |line: &Line| match line.state {
        I => to(I, false),
        S | E | M => to(S, false),
        SpS => to(SpS, false),
        SpE => to(SpS, line.mask != 0),
    };
    let published = |line: &Line| match line.state {
        I | S | E | M => to(I, false),
        SpS | SpE if line.loaded => Reply { state: I, enters: false, violated: true },
        SpS => to(SpS, false),
        SpE => to(SpS, true),
    };
    match notice {
        Notice::Load => loaded(line),
        Notice::Store if line.is_marked() && !later => loaded(line),
        Notice::Store | Notice::Publish => published(line),
    }
}

/// The ownership required buffer.
#[derive(Clone, Copy)]
struct Buffer {
    lines: [u32; 8],
    count: usize,
    limit: usize,
}

impl Buffer {
    fn is_full(&self) -> bool {
        self.count == self.limit
    }

    fn enter(&mut self, addr: u32) {
        self.lines[self.count] = addr;
        self.count += 1;
    }

    fn take_first(&mut self) -> Option<u32> {
        if self.count == 0 {
            return None;
        }
        let first = self.lines[0];
        self.lines.copy_within(1..self.count, 0);
        self.count -= 1;
        Some(first)
    }
}

struct Core {
    lines: [Line; SETS * WAYS],
    buffer: Buffer,
    /// The epoch that it runs; 0 where it runs none.
    epoch: u32,
    shift: u32,
}

impl Core {
    fn set(&self, addr: u32) -> usize {
        WAYS * ((addr >> self.shift) as usize % SETS)
    }

    fn find(&self, addr: u32) -> Option<usize> {
        let set = self.set(addr);
        (set..set + WAYS).find(|&place| self.lines[place].state != I && self.lines[place].addr == addr)
    }

    /// Where a line at `addr` comes: the lowest invalid way of its set, else the lowest without marks.
    fn room(&self, addr: u32) -> Option<usize> {
        let set = self.set(addr);
        let mut ways = set..set + WAYS;
        ways.clone().find(|&place| self.lines[place].state == I).or_else(|| ways.find(|&place| !self.lines[place].is_marked()))
    }

    fn drop_attempt(&mut self) {
        self.lines.iter_mut().for_each(Line::roll_back);
        self.buffer.count = 0;
        self.epoch = 0;
    }
}

/// What becomes of the cores at a message.
struct Survey {
    hurt: Cores,
    busy: bool,
    alone: bool,
}

pub struct Caches {
    cores: Vec<Core>,
    memory: Vec<u8>,
    length: usize,
}

impl Caches {
    fn split(&self, addr: u32) -> (u32, usize) {
        let offset = addr as usize % self.length;
        (addr - offset as u32, offset)
    }

    fn committed_line(&self, addr: u32) -> [u8; LONGEST_LINE] {
        for core in &self.cores {
            if let Some(place) = core.find(addr)
                && core.lines[place].state == M
            {
                return core.lines[place].cells;
            }
        }
        let mut line = [0; LONGEST_LINE];
        line[..self.length].copy_from_slice(&self.memory[addr as usize..addr as usize + self.length]);
        line
    }

    fn write_line(&mut self, addr: u32, line: &[u8; LONGEST_LINE]) {
        self.memory[addr as usize..addr as usize + self.length].copy_from_slice(&line[..self.length]);
    }

    fn survey(&self, notice: Notice, core: usize, addr: u32) -> Survey {
        let epoch = self.cores[core].epoch;
        let mut survey = Survey { hurt: 0, busy: false, alone: true };
        for (k, other) in self.cores.iter().enumerate().filter(|&(k, _)| k != core) {
            let Some(place) = other.find(addr) else { continue };
            let later = epoch < other.epoch;
            let reply = reply(notice, &other.lines[place], later);
            let overflows = reply.enters && other.buffer.is_full();
            if reply.violated || overflows && later {
                survey.hurt |= 1 << k;
            } else {
                survey.busy |= overflows;
                survey.alone &= reply.state == I;
            }
        }
        survey
    }

    fn tell(&mut self, notice: Notice, core: usize, addr: u32, line: &[u8; LONGEST_LINE], hurt: Cores) {
        let epoch = self.cores[core].epoch;
        for (k, other) in self.cores.iter_mut().enumerate().filter(|&(k, _)| k != core) {
            if hurt >> k & 1 == 1 {
                other.drop_attempt();
            }
            let Some(place) = other.find(addr) else { continue };
            let copy = &mut other.lines[place];
            if hurt >> k & 1 == 1 {
                copy.to(I);
                continue;
            }
            let reply = reply(notice, copy, epoch < other.epoch);
            copy.to(reply.state);
            if notice == Notice::Publish {
                for x in (0..self.length).filter(|&x| copy.mask >> x & 1 == 0) {
                    copy.cells[x] = line[x];
                }
            }
            if reply.enters {
                other.buffer.enter(addr);
            }
        }
    }

    /// The core takes a line that it doesn't hold, after telling the others, and answers where it has come.
    fn fetch(&mut self, notice: Notice, core: usize, addr: u32, place: usize, state: State, cells: [u8; LONGEST_LINE], hurt: Cores) {
        let victim = self.cores[core].lines[place];
        self.tell(notice, core, addr, &cells, hurt);
        if victim.state == M {
            self.write_line(victim.addr, &victim.cells);
        }
        self.write_line(addr, &cells);
        self.cores[core].lines[place] = Line { addr, state, loaded: false, mask: 0, cells };
    }

    fn write(&mut self, core: usize, place: usize, offset: usize, width: usize, value: u32) {
        let line = &mut self.cores[core].lines[place];
        line.mask |= span(offset, width);
        line.write(offset, width, value);
    }

    /// Puts the committed line of an M copy into memory, before it is marked.
    fn write_back(&mut self, core: usize, place: usize) {
        let line = self.cores[core].lines[place];
        if line.state == M {
            self.write_line(line.addr, &line.cells);
        }
    }
}

impl Store for Caches {
    fn new(image: &Image, cores: usize) -> Caches {
        let (length, limit) = if image.version == 1 { (16_u32, 4) } else { (32, 8) };
        let core = || Core {
            lines: [Line::INVALID; SETS * WAYS],
            buffer: Buffer { lines: [0; 8], count: 0, limit },
            epoch: 0,
            shift: length.trailing_zeros(),
        };
        Caches { cores: (0..cores).map(|_| core()).collect(), memory: image.bytes.clone(), length: length as usize }
    }

    fn begin(&mut self, core: usize, epoch: u32) {
        self.cores[core].epoch = epoch;
    }

    fn load(&mut self, core: usize, addr: u32, width: u32) -> Step {
        let (at, offset) = self.split(addr);
        let width = width as usize;
        let (place, hurt) = match self.cores[core].find(at) {
            Some(place) => {
                self.write_back(core, place);
                let line = &mut self.cores[core].lines[place];
                line.state = if matches!(line.state, S | SpS) { SpS } else { SpE };
                (place, 0)
            }
            None => {
                let Some(place) = self.cores[core].room(at) else { return Step::Wait };
                let survey = self.survey(Notice::Load, core, at);
                if survey.busy {
                    return Step::Wait;
                }
                let cells = self.committed_line(at);
                let state = if survey.alone { SpE } else { SpS };
                self.fetch(Notice::Load, core, at, place, state, cells, survey.hurt);
                (place, survey.hurt)
            }
        };
        let line = &mut self.cores[core].lines[place];
        let accessed = span(offset, width);
        line.loaded |= line.mask & accessed != accessed;
        Step::Done { value: line.number(offset, width), hurt }
    }

    fn store(&mut self, core: usize, addr: u32, width: u32, value: u32) -> Step {
        let (at, offset) = self.split(addr);
        let width = width as usize;
        let found = self.cores[core].find(at);
        if let Some(place) = found
            && self.cores[core].lines[place].is_owned()
        {
            self.write(core, place, offset, width, value);
            return Step::Done { value: 0, hurt: 0 };
        }
        let Some(place) = found.or_else(|| self.cores[core].room(at)) else { return Step::Wait };
        let survey = self.survey(Notice::Store, core, at);
        if !survey.alone && self.cores[core].buffer.is_full() || survey.busy {
            return Step::Wait;
        }
        let state = if survey.alone { SpE } else { SpS };
        if found.is_some() {
            let cells = self.cores[core].lines[place].cells;
            self.tell(Notice::Store, core, at, &cells, survey.hurt);
            self.write_back(core, place);
            self.cores[core].lines[place].state = state;
        } else {
            let cells = self.committed_line(at);
            self.fetch(Notice::Store, core, at, place, state, cells, survey.hurt);
        }
        if !survey.alone {
            self.cores[core].buffer.enter(at);
        }
        self.write(core, place, offset, width, value);
        Step::Done { value: 0, hurt: survey.hurt }
    }

    fn publish(&mut self, core: usize) -> Cores {
        let mut hurt = 0;
        while let Some(at) = self.cores[core].buffer.take_first() {
            let survey = self.survey(Notice::Publish, core, at);
            let place = self.cores[core].find(at).unwrap();
            let cells = self.cores[core].lines[place].cells;
            self.tell(Notice::Publish, core, at, &cells, survey.hurt);
            self.write_line(at, &cells);
            self.cores[core].lines[place].to(if survey.alone { M } else { S });
            hurt |= survey.hurt;
        }
        self.cores[core].lines.iter_mut().for_each(Line::settle);
        hurt
    }

    fn straight_load(&mut self, core: usize, addr: u32, width: u32) -> (u32, Cores) {
        let (at, offset) = self.split(addr);
        let (place, hurt) = match self.cores[core].find(at) {
            Some(place) => (place, 0),
            None => {
                let place = self.cores[core].room(at).unwrap();
                let survey = self.survey(Notice::Load, core, at);
                let cells = self.committed_line(at);
                let state = if survey.alone { E } else { S };
                self.fetch(Notice::Load, core, at, place, state, cells, survey.hurt);
                (place, survey.hurt)
            }
        };
        (self.cores[core].lines[place].number(offset, width as usize), hurt)
    }

    fn straight_store(&mut self, core: usize, addr: u32, width: u32, value: u32) -> Cores {
        let (at, offset) = self.split(addr);
        let found = self.cores[core].find(at);
        let mut line = match found {
            Some(place) => self.cores[core].lines[place],
            None => Line { addr: at, cells: self.committed_line(at), ..Line::INVALID },
        };
        line.write(offset, width as usize, value);
        let place = found.unwrap_or_else(|| self.cores[core].room(at).unwrap());
        if matches!(line.state, E | M) {
            line.state = M;
            self.cores[core].lines[place] = line;
            return 0;
        }
        let survey = self.survey(Notice::Publish, core, at);
        let state = if survey.alone { M } else { S };
        if found.is_some() {
            self.tell(Notice::Publish, core, at, &line.cells, survey.hurt);
            self.write_line(at, &line.cells);
            line.state = state;
            self.cores[core].lines[place] = line;
        } else {
            self.fetch(Notice::Publish, core, at, place, state, line.cells, survey.hurt);
        }
        survey.hurt
    }

    fn leave(&mut self, core: usize) {
        self.cores[core].epoch = 0;
    }

    fn cancel(&mut self, core: usize) {
        self.cores[core].drop_attempt();
    }

    fn committed(&self) -> Vec<u8> {
        let lines = (0..self.memory.len()).step_by(self.length);
        let mut bytes: Vec<u8> = lines.flat_map(|addr| self.committed_line(addr as u32)[..self.length].to_vec()).collect();
        bytes.truncate(self.memory.len());
        bytes
    }
}
