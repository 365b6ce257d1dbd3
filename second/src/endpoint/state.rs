//! The state of an endpoint, and the block of 64 bytes that says it.

use std::fmt;
use std::ops::RangeInclusive;

use crate::endpoint::{DATA, NOOP};

/// The bytes of a block, of an entry, and where the entries begin.
pub const BLOCK: usize = 64;
const ENTRY: usize = 3;
const ENTRIES_AT: usize = 16;

/// The most confirmations that are awaited at a time, and the bytes of so many entries.
pub const MOST_AWAITED: usize = 16;
const ENTRIES: usize = ENTRY * MOST_AWAITED;

/// The limits that an endpoint may have.
pub const LIMITS: RangeInclusive<u32> = 1_000_000..=50_000_000;

#[derive(Clone, Copy, Debug, PartialEq)]
pub enum Role {
    Client = 1,
    Server = 2,
}

#[derive(Clone, Copy, Debug, PartialEq)]
pub enum Flow {
    Producer = 1,
    Consumer = 2,
}

#[derive(Clone, Copy, Debug, PartialEq)]
pub enum Phase {
    Fresh = 0,
    Opening = 1,
    Idle = 2,
    Offer = 3,
    Batch = 4,
    Closed = 5,
}

impl Role {
    pub const ALL: [Role; 2] = [Role::Client, Role::Server];

    fn of(byte: u8) -> Option<Role> {
        Role::ALL.into_iter().find(|role| *role as u8 == byte)
    }
}

impl Flow {
    pub const ALL: [Flow; 2] = [Flow::Producer, Flow::Consumer];

    pub fn of(byte: u8) -> Option<Flow> {
        Flow::ALL.into_iter().find(|flow| *flow as u8 == byte)
    }

    /// The flow of the other end of the pipe.
    pub fn other(self) -> Flow {
        match self {
            Flow::Producer => Flow::Consumer,
            Flow::Consumer => Flow::Producer,
        }
    }
}

impl Phase {
    pub const ALL: [Phase; 6] = [Phase::Fresh, Phase::Opening, Phase::Idle, Phase::Offer, Phase::Batch, Phase::Closed];

    fn of(byte: u8) -> Option<Phase> {
        Phase::ALL.into_iter().find(|phase| *phase as u8 == byte)
    }

    /// Whether messages are counted in this phase.
    pub fn counts(self) -> bool {
        matches!(self, Phase::Offer | Phase::Batch)
    }

    /// Whether the first READY has passed and no CLOSE has.
    pub fn is_running(self) -> bool {
        matches!(self, Phase::Idle | Phase::Offer | Phase::Batch)
    }
}

/// A confirmation that is awaited: the type and type-data of the message that asked for it.
#[derive(Clone, Copy, Debug, PartialEq)]
pub struct Entry {
    pub message_type: u8,
    pub type_data: u16,
}

impl Entry {
    fn of(bytes: &[u8]) -> Entry {
        Entry { message_type: bytes[0], type_data: u16::from_be_bytes([bytes[1], bytes[2]]) }
    }

    fn bytes(self) -> [u8; ENTRY] {
        let [high, low] = self.type_data.to_be_bytes();
        [self.message_type, high, low]
    }

    fn is_data(self) -> bool {
        self.message_type == DATA
    }
}

/// The confirmations that are awaited, the oldest first, in the bytes that a block has for them: those behind the last
/// entry are zero. How many of them belong to DATA is kept beside them, so that entries are walked over only where a
/// block is read.
#[derive(Clone, PartialEq)]
pub struct Awaited {
    count: usize,
    unconfirmed: usize,
    bytes: [u8; ENTRIES],
}

impl Awaited {
    pub const NONE: Awaited = Awaited { count: 0, unconfirmed: 0, bytes: [0; ENTRIES] };

    /// The first so many entries; nothing where they are too many, one is of another type than NOOP and DATA, or the
    /// others are not zero.
    fn read(bytes: &[u8; ENTRIES], count: usize) -> Option<Awaited> {
        let others = bytes.get(ENTRY * count..)?;
        if *others != [0; ENTRIES][..others.len()] {
            return None;
        }
        let mut unconfirmed = 0;
        for entry in bytes[..ENTRY * count].chunks_exact(ENTRY) {
            match entry[0] {
                NOOP => {}
                DATA => unconfirmed += 1,
                _ => return None,
            }
        }
        Some(Awaited { count, unconfirmed, bytes: *bytes })
    }

    pub fn len(&self) -> usize {
        self.count
    }

    /// How many of these belong to DATA.
    pub fn unconfirmed(&self) -> usize {
        self.unconfirmed
    }

    pub fn is_empty(&self) -> bool {
        self.count == 0
    }

    pub fn iter(&self) -> impl ExactSizeIterator<Item = Entry> + '_ {
        self.bytes[..ENTRY * self.count].chunks_exact(ENTRY).map(Entry::of)
    }

    pub fn oldest(&self) -> Option<Entry> {
        self.iter().next()
    }

    /// These and one more, for which there must be room.
    pub fn push(&mut self, entry: Entry) {
        let at = ENTRY * self.count;
        self.bytes[at..at + ENTRY].copy_from_slice(&entry.bytes());
        self.count += 1;
        self.unconfirmed += usize::from(entry.is_data());
    }

    /// These without the oldest, which this is.
    fn drop_oldest(&mut self, oldest: Entry) {
        self.bytes.copy_within(ENTRY.., 0);
        self.bytes[ENTRIES - ENTRY..].fill(0);
        self.count -= 1;
        self.unconfirmed -= usize::from(oldest.is_data());
    }

    /// Only the oldest so many of these.
    pub fn truncate(&mut self, most: usize) {
        *self = self.iter().take(most).collect();
    }
}

impl FromIterator<Entry> for Awaited {
    fn from_iter<T: IntoIterator<Item = Entry>>(entries: T) -> Awaited {
        let mut awaited = Awaited::NONE;
        entries.into_iter().for_each(|entry| awaited.push(entry));
        awaited
    }
}

impl fmt::Debug for Awaited {
    fn fmt(&self, f: &mut fmt::Formatter) -> fmt::Result {
        f.debug_list().entries(self.iter()).finish()
    }
}

/// What a good block says. The number of confirmations awaited is W, and that of those which belong to DATA is byte 6.
#[derive(Clone, Debug, PartialEq)]
pub struct State {
    pub role: Role,
    pub flow: Flow,
    pub phase: Phase,
    pub n: u16,
    pub limit: u32,
    pub awaited: Awaited,
}

impl State {
    /// An endpoint that has sent and received nothing.
    pub fn fresh(role: Role, flow: Flow, limit: u32) -> State {
        State { role, flow, phase: Phase::Fresh, n: 0, limit, awaited: Awaited::NONE }
    }

    pub fn is_producer(&self) -> bool {
        self.flow == Flow::Producer
    }

    /// A CLOSE either way, or a refusal that closes.
    pub fn close(&mut self) {
        (self.phase, self.n, self.awaited) = (Phase::Closed, 0, Awaited::NONE);
    }

    /// A READY either way: idle where its count is 0, else in this phase with so many messages.
    pub fn ready(&mut self, count: u16, phase: Phase) {
        (self.phase, self.n) = (if count == 0 { Phase::Idle } else { phase }, count);
    }

    /// A DATA either way: one message less, and idle behind the last.
    pub fn one_less(&mut self) {
        self.ready(self.n - 1, Phase::Batch);
    }

    /// A confirmation of the oldest message that asked for one; whether it is one.
    pub fn confirm(&mut self, confirmed: Entry) -> bool {
        let matches = self.awaited.oldest() == Some(confirmed);
        if matches {
            self.awaited.drop_oldest(confirmed);
        }
        matches
    }

    /// Stores the state in its block.
    pub fn store(&self, block: &mut [u8]) {
        block[..4].copy_from_slice(&[self.role as u8, self.flow as u8, self.phase as u8, self.awaited.len() as u8]);
        block[4..6].copy_from_slice(&self.n.to_be_bytes());
        block[6..8].copy_from_slice(&[self.awaited.unconfirmed() as u8, 0]);
        block[8..12].copy_from_slice(&self.limit.to_be_bytes());
        block[12..ENTRIES_AT].fill(0);
        block[ENTRIES_AT..].copy_from_slice(&self.awaited.bytes);
    }

    /// The state that a block says; nothing where it is not 64 bytes or not good.
    pub fn read(block: &[u8]) -> Option<State> {
        let block: &[u8; BLOCK] = block.try_into().ok()?;
        let (head, entries) = block.split_at(ENTRIES_AT);
        let state = State {
            role: Role::of(head[0])?,
            flow: Flow::of(head[1])?,
            phase: Phase::of(head[2])?,
            n: u16::from_be_bytes([head[4], head[5]]),
            limit: u32::from_be_bytes([head[8], head[9], head[10], head[11]]),
            awaited: Awaited::read(entries.try_into().ok()?, head[3].into())?,
        };
        let unconfirmed = usize::from(head[6]) == state.awaited.unconfirmed();
        let zeros = head[7] == 0 && head[12..] == [0; 4];
        (unconfirmed && zeros && state.is_good()).then_some(state)
    }

    /// Whether the parts of a state go together, each being in its own range.
    fn is_good(&self) -> bool {
        let counted = self.phase.counts() == (self.n != 0);
        let may_await = self.phase.is_running() || self.awaited.is_empty();
        let may_await_data = self.is_producer() || self.awaited.unconfirmed() == 0;
        counted && may_await && may_await_data && LIMITS.contains(&self.limit)
    }
}
