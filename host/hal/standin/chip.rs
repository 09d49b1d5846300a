//! The simulated chip: what its fields read, and a record, in order, of what is done to them, nine words an entry.
use std::cell::RefCell;
use std::mem::take;

/// A kind (1 set, 2 wait, 3 check, 4 read) and four times a field from 1, or 0, with its value.
pub type Nine = [u32; 9];

/// What the chip's fields read.
#[derive(Clone, Debug)]
pub struct State {
    pub hsion: bool,
    /// As a divisor.
    pub hsidiv: u32,
    pub actvos: u32,
    /// CSIRDY at its check; at its wait it comes up like the others.
    pub csirdy: bool,
    pub reset_flags: u32,
    /// How many reads miss at each poll, in order; beyond the end none does.
    pub misses: Vec<u8>,
}

impl Default for State {
    fn default() -> State {
        State { hsion: true, hsidiv: 2, actvos: 0, csirdy: true, reset_flags: 0, misses: Vec::new() }
    }
}

/// The values read at an entry, of its first and second field; none where nothing was read.
pub type Reads = [Option<u32>; 2];

/// What was done to the fields: an entry for each operation and each read of a poll, and the values that were read there.
#[derive(Clone, Debug, Default)]
pub struct Record {
    pub entries: Vec<Nine>,
    pub reads: Vec<Reads>,
    /// What was written back to the reset flags.
    pub reset_flags: Option<u32>,
}

struct Chip {
    state: State,
    bank: [u32; 82],
    record: Record,
    /// Polls that came to their end, and reads that missed since.
    polls: usize,
    missed: u8,
    /// The first of two flags has come up, and stays up.
    first_up: bool,
}

thread_local! {
    static CHIP: RefCell<Chip> = RefCell::new(Chip {
        state: State::default(),
        bank: [0; 82],
        record: Record::default(),
        polls: 0,
        missed: 0,
        first_up: false,
    });
}

fn with<T>(f: impl FnOnce(&mut Chip) -> T) -> T {
    CHIP.with(|chip| f(&mut chip.borrow_mut()))
}

/// Sets the chip, with an empty record; `used` is one whose memory is taken over.
pub fn start(state: &State, mut used: Record) {
    used.entries.clear();
    used.reads.clear();
    used.reset_flags = None;
    with(|chip| {
        chip.state.clone_from(state);
        chip.record = used;
        chip.polls = 0;
        chip.missed = 0;
        chip.first_up = false;
    })
}

/// The record since the start.
pub fn finish() -> Record {
    with(|chip| take(&mut chip.record))
}

impl Chip {
    fn push(&mut self, entry: Nine, read: Reads) {
        assert!(self.record.entries.len() < 10_000, "the stand-in: a poll goes on and on");
        self.record.entries.push(entry);
        self.record.reads.push(read);
    }

    /// One read of a poll: whether it misses.
    fn misses(&mut self) -> bool {
        let wanted = self.state.misses.get(self.polls).copied().unwrap_or(0);
        let miss = self.missed < wanted;
        if miss {
            self.missed += 1;
        } else {
            self.missed = 0;
            self.polls += 1;
        }
        miss
    }
}

fn one(kind: u32, field: u32, value: u32) -> Nine {
    [kind, field + 1, value, 0, 0, 0, 0, 0, 0]
}

/// The fields that one `modify` or `write` sets.
pub struct Op {
    entry: Nine,
    next: usize,
}

impl Op {
    pub fn set() -> Op {
        Op { entry: [1, 0, 0, 0, 0, 0, 0, 0, 0], next: 1 }
    }

    pub fn add(&mut self, field: u32, value: u32) {
        self.entry[self.next] = field + 1;
        self.entry[self.next + 1] = value;
        self.next += 2;
    }

    pub fn done(self) {
        with(|chip| {
            for pair in self.entry[1..self.next].chunks(2) {
                chip.bank[pair[0] as usize - 1] = pair[1];
            }
            chip.push(self.entry, [None, None]);
        })
    }
}

/// A poll of a ready flag.
pub fn poll(field: u32) -> bool {
    with(|chip| {
        let ready = !chip.misses();
        chip.push(one(2, field, 1), [Some(ready as u32), None]);
        ready
    })
}

/// A poll of two ready flags, the first of them. Where it is down the second is not read: the sources' `||` ends there.
pub fn poll_first(field: u32, second: u32) -> bool {
    with(|chip| {
        chip.first_up = chip.first_up || !chip.misses();
        if chip.first_up {
            chip.push(one(2, field, 1), [Some(1), None]);
        } else {
            chip.push([2, field + 1, 1, second + 1, 1, 0, 0, 0, 0], [Some(0), None]);
        }
        chip.first_up
    })
}

/// A poll of two ready flags, the second of them: it joins the entry of the first.
pub fn poll_second(field: u32) -> bool {
    with(|chip| {
        let ready = !chip.misses();
        let entry = chip.record.entries.last_mut().expect("the stand-in: a first flag");
        assert!(entry[0] == 2 && entry[3] == 0, "the stand-in: no first flag before the second");
        entry[3] = field + 1;
        entry[4] = 1;
        chip.record.reads.last_mut().expect("as many reads")[1] = Some(ready as u32);
        ready
    })
}

/// A poll of a field's value: it waits for what was set, in the same field or (SWS after SW) another.
pub fn poll_value(field: u32, as_set: u32) -> u32 {
    with(|chip| {
        let wanted = chip.bank[as_set as usize];
        let other = if wanted == 1 { 2 } else { 1 };
        let value = if chip.misses() { other } else { wanted };
        chip.push(one(2, field, wanted), [Some(value), None]);
        value
    })
}

/// The assertion of CSIRDY.
pub fn check(field: u32) -> bool {
    with(|chip| {
        let ready = chip.state.csirdy;
        chip.push(one(3, field, 1), [Some(ready as u32), None]);
        ready
    })
}

/// HSION and HSIDIV are asserted (refusals 16 and 17): document 01's list has no entry for that.
pub fn hsion() -> bool {
    with(|chip| chip.state.hsion)
}

pub fn hsidiv() -> u32 {
    with(|chip| chip.state.hsidiv)
}

/// The one read that is an entry.
pub fn actvos(field: u32) -> u32 {
    with(|chip| {
        let value = chip.state.actvos;
        chip.push(one(4, field, 0), [Some(value), None]);
        value
    })
}

pub fn reset_flags() -> u32 {
    with(|chip| chip.state.reset_flags)
}

pub fn write_reset_flags(word: u32) {
    with(|chip| chip.record.reset_flags = Some(word))
}
