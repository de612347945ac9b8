// A stripe in plain Rust, with the standard library alone: the same rules are asked, and the same
// records, regions, history and open copy are kept.
#![allow(dead_code)]

use std::collections::VecDeque;
use std::hint::black_box;
use std::ops::Range;
use std::sync::Arc;

pub const REGION: u64 = 128;
pub const CHUNK: u64 = 16;
pub const MOST_RECORDS: usize = 256;
pub const MOST_ENTRIES: usize = 1_024;
pub const NUMBERS: u64 = 1 << 63;
pub const LEGS: usize = 8;

#[derive(Clone, Copy)]
pub struct Block(pub [u8; 512]);

pub enum Kind {
    Read,
    Write(u64),
}

// What is kept of a block that was written or read, but for its bytes.
pub struct Head {
    pub seq: u64,
    pub kind: Kind,
    pub block: u64,
}

// The data of a run of blocks.
pub enum Data {
    Cut(Arc<[u8]>, Range<usize>),
    Zero(u64),
}

impl Data {
    pub fn bytes(&self) -> &[u8] {
        match self {
            Data::Cut(received, range) => &received[range.clone()],
            Data::Zero(count) => &[0; 65_536][..*count as usize * 512],
        }
    }

    pub fn blocks(&self) -> u64 {
        self.bytes().len() as u64 / 512
    }
}

// A write of a run of blocks: its first ticket, its first block, and how many they are.
pub struct Record {
    pub ticket: u64,
    pub block: u64,
    pub blocks: u64,
    pub data: Data,
    pub owed: [bool; LEGS],
    pub entry: Option<u64>,
}

#[derive(Debug)]
pub enum Refusal {
    Busy(u64),
    Copying(u8),
    Full,
    Settling,
    Stopped,
    Exhausted,
    NoTicket,
    NotOwed,
    NotYet,
    NotJoining,
    OtherCopy(u8),
}

pub enum Reach {
    Pushed(usize),
    Complete(u64),
}

pub struct Receipt {
    pub block: u64,
    pub number: u64,
}

// The last entries, their bytes, and the count of all.
pub struct Kept {
    heads: VecDeque<Head>,
    bytes: Vec<u8>,
    pub total: u64,
}

impl Kept {
    fn new() -> Kept {
        Kept {
            heads: VecDeque::with_capacity(MOST_ENTRIES),
            bytes: vec![0; MOST_ENTRIES * 512],
            total: 0,
        }
    }

    // An entry for each block of a run; the bytes of all go in one copy, or two at the ring's end.
    fn push_run(&mut self, block: u64, bytes: &[u8], kind: impl Fn(u64) -> Kind) {
        let start = self.total as usize % MOST_ENTRIES * 512;
        for at in 0..bytes.len() as u64 / 512 {
            if self.heads.len() == MOST_ENTRIES {
                self.heads.pop_front();
            }
            self.heads.push_back(Head {
                seq: self.total,
                kind: kind(at),
                block: block + at,
            });
            self.total += 1;
        }
        let (before_end, behind) = bytes.split_at(bytes.len().min(self.bytes.len() - start));
        self.bytes[start..start + before_end.len()].copy_from_slice(before_end);
        self.bytes[..behind.len()].copy_from_slice(behind);
    }

    // The entries that are kept, with the bytes of each.
    pub fn entries(&self) -> impl Iterator<Item = (&Head, &[u8])> {
        self.heads.iter().map(|head| {
            let start = head.seq as usize % MOST_ENTRIES * 512;
            (head, &self.bytes[start..start + 512])
        })
    }
}

// The records by rising ticket. Each stays in its slot; a search reads tickets and blocks alone.
pub struct Records {
    pub tickets: Vec<u64>,
    pub blocks: Vec<Range<u64>>,
    pub slots: Vec<u8>,
    pub stored: Vec<Option<Record>>,
    pub free: Vec<u8>,
    pub unlanded: u64,
}

impl Records {
    pub fn new() -> Records {
        Records {
            tickets: Vec::with_capacity(MOST_RECORDS),
            blocks: Vec::with_capacity(MOST_RECORDS),
            slots: Vec::with_capacity(MOST_RECORDS),
            stored: (0..MOST_RECORDS).map(|_| None).collect(),
            free: (0..=255).rev().collect(),
            unlanded: 0,
        }
    }

    pub fn at(&self, place: usize) -> &Record {
        self.stored[self.slots[place] as usize].as_ref().unwrap()
    }

    pub fn at_mut(&mut self, place: usize) -> &mut Record {
        self.stored[self.slots[place] as usize].as_mut().unwrap()
    }

    pub fn find(&self, ticket: u64) -> Result<usize, Refusal> {
        self.tickets.binary_search(&ticket).map_err(|_| Refusal::NoTicket)
    }

    pub fn busy_among(&self, blocks: Range<u64>) -> Option<u64> {
        let under_way = |place: &usize| {
            let held = &self.blocks[*place];
            held.start < blocks.end
                && blocks.start < held.end
                && self.at(*place).owed.contains(&true)
        };
        let place = (0..self.blocks.len()).find(under_way)?;
        Some(self.tickets[place])
    }

    pub fn is_full(&self) -> bool {
        self.tickets.len() >= MOST_RECORDS
    }

    pub fn push(&mut self, record: Record) {
        let slot = self.free.pop().unwrap();
        self.tickets.push(record.ticket);
        self.blocks.push(record.block..record.block + record.blocks);
        self.slots.push(slot);
        self.unlanded += record.blocks;
        self.stored[slot as usize] = Some(record);
    }

    pub fn remove(&mut self, place: usize) -> Record {
        self.tickets.remove(place);
        self.blocks.remove(place);
        let slot = self.slots.remove(place);
        self.free.push(slot);
        self.stored[slot as usize].take().unwrap()
    }
}

#[derive(Clone, Copy)]
pub struct CopyPlace {
    pub leg: u8,
    pub region: u64,
    pub cursor: u64,
}

pub struct LegFlags {
    pub out: bool,
    pub behind: Vec<bool>,
    pub count: u64,
    pub lowest: usize,
}

// For each region the writes under way, and for each leg the regions that it is behind in. The
// region's size is known at run time only, as it is to the proved stripe.
pub struct Regions {
    pub region: u64,
    pub legs: Vec<LegFlags>,
    pub writes: Vec<u16>,
    pub copy: Option<CopyPlace>,
}

impl Regions {
    pub fn new(blocks: u64, in_sync: [bool; 2]) -> Regions {
        let regions = blocks.div_ceil(REGION) as usize;
        let flags = |in_sync: bool| LegFlags {
            out: false,
            behind: vec![!in_sync; regions],
            count: if in_sync { 0 } else { regions as u64 },
            lowest: if in_sync { regions } else { 0 },
        };
        Regions {
            region: black_box(REGION),
            legs: in_sync.map(flags).into(),
            writes: vec![0; regions],
            copy: None,
        }
    }

    pub fn is_current(&self, leg: usize, block: u64) -> bool {
        let region = block / self.region;
        let Some(flags) = self.legs.get(leg) else {
            return false;
        };
        let is_copied = |copy: CopyPlace| {
            copy.leg as usize == leg && copy.region == region && block % self.region < copy.cursor
        };
        (!flags.out && !flags.behind[region as usize]) || self.copy.is_some_and(is_copied)
    }

    pub fn targets(&self, block: u64) -> [bool; LEGS] {
        std::array::from_fn(|leg| self.is_current(leg, block))
    }

    pub fn is_quiet(&self, block: u64) -> bool {
        self.writes[(block / self.region) as usize] == 0
    }

    pub fn begin(&mut self, block: u64) {
        let region = (block / self.region) as usize;
        self.writes[region] += 1;
        for leg in self.legs.iter_mut().filter(|leg| leg.out) {
            leg.count += u64::from(!leg.behind[region]);
            leg.behind[region] = true;
        }
    }

    pub fn finish(&mut self, block: u64) {
        self.writes[(block / self.region) as usize] -= 1;
    }

    // Blocks left to copy, without those of the open chunk.
    pub fn left(&self, leg: usize) -> u64 {
        let copied = match self.copy {
            Some(copy) if copy.leg as usize == leg => copy.cursor,
            _ => 0,
        };
        self.legs[leg].count * self.region - copied
    }

    pub fn advance(&mut self, copy: CopyPlace, blocks: u64) {
        let cursor = copy.cursor + blocks;
        self.copy = Some(CopyPlace { cursor, ..copy });
        if cursor == self.region {
            let leg = &mut self.legs[copy.leg as usize];
            self.copy = None;
            leg.behind[copy.region as usize] = false;
            leg.count -= 1;
            leg.lowest += 1;
            while leg.behind.get(leg.lowest) == Some(&false) {
                leg.lowest += 1;
            }
        }
    }
}

// The open chunk of a copy: so many blocks are read, and so many written.
pub struct Buffer {
    pub slots: Vec<Block>,
    pub blocks: u64,
    pub read: u64,
    pub written: u64,
}

#[derive(Clone, Copy, PartialEq)]
pub enum LegState {
    InSync,
    Joining,
}

pub struct Stripe {
    pub legs: Vec<Vec<u8>>,
    pub states: Vec<LegState>,
    pub regions: Regions,
    pub buffer: Buffer,
    pub records: Records,
    pub tickets: u64,
    pub kept: Kept,
    pub turn: u64,
    pub settling: bool,
    pub stopped: bool,
}

impl Stripe {
    pub fn open(legs: Vec<Vec<u8>>, in_sync: [bool; 2]) -> Stripe {
        let state = |in_sync| if in_sync { LegState::InSync } else { LegState::Joining };
        let blocks = legs[0].len() as u64 / 512;
        Stripe {
            legs,
            states: in_sync.map(state).into(),
            regions: Regions::new(blocks, in_sync),
            buffer: Buffer {
                slots: vec![Block([0; 512]); black_box(CHUNK) as usize],
                blocks: 0,
                read: 0,
                written: 0,
            },
            records: Records::new(),
            tickets: 0,
            kept: Kept::new(),
            turn: 0,
            settling: false,
            stopped: false,
        }
    }

    pub fn is_exhausted(&self) -> bool {
        self.kept.total + self.records.unlanded >= NUMBERS
    }

    pub fn copying_on(&self, run: &Range<u64>) -> Option<u8> {
        let copy = self.regions.copy?;
        let start = copy.region * self.regions.region + copy.cursor;
        (start < run.end && run.start < start + self.buffer.blocks).then_some(copy.leg)
    }

    pub fn begin_cause(&self, run: Range<u64>) -> Option<Refusal> {
        if self.stopped {
            return Some(Refusal::Stopped);
        }
        if self.settling {
            return Some(Refusal::Settling);
        }
        if let Some(ticket) = self.records.busy_among(run.clone()) {
            return Some(Refusal::Busy(ticket));
        }
        if let Some(leg) = self.copying_on(&run) {
            return Some(Refusal::Copying(leg));
        }
        if self.records.is_full() {
            return Some(Refusal::Full);
        }
        self.is_exhausted().then_some(Refusal::Exhausted)
    }

    pub fn begin(&mut self, block: u64, data: Data) -> Result<u64, (Refusal, Data)> {
        let blocks = data.blocks();
        if let Some(refusal) = self.begin_cause(block..block + blocks) {
            return Err((refusal, data));
        }
        let ticket = self.tickets;
        let owed = self.regions.targets(block);
        self.regions.begin(block);
        self.records.push(Record {
            ticket,
            block,
            blocks,
            data,
            owed,
            entry: None,
        });
        self.tickets += blocks;
        Ok(ticket)
    }

    pub fn push(&mut self, ticket: u64, leg: usize) -> Result<Reach, Refusal> {
        if self.stopped {
            return Err(Refusal::Stopped);
        }
        let place = self.records.find(ticket)?;
        let record = self.records.at_mut(place);
        if record.owed.get(leg) != Some(&true) {
            return Err(Refusal::NotOwed);
        }
        let bytes = record.data.bytes();
        let start = record.block as usize * 512;
        self.legs[leg][start..start + bytes.len()].copy_from_slice(bytes);
        let landed = if leg == 0 && record.entry.is_none() {
            record.entry = Some(self.kept.total);
            self.kept.push_run(record.block, bytes, |at| Kind::Write(ticket + at));
            record.blocks
        } else {
            0
        };
        record.owed[leg] = false;
        let (block, entry) = (record.block, record.entry);
        let owed = record.owed.iter().filter(|owed| **owed).count();
        self.records.unlanded -= landed;
        if owed > 0 {
            return Ok(Reach::Pushed(owed));
        }
        self.regions.finish(block);
        Ok(Reach::Complete(entry.unwrap()))
    }

    pub fn claim(&mut self, ticket: u64) -> Result<Receipt, Refusal> {
        if self.stopped {
            return Err(Refusal::Stopped);
        }
        let place = self.records.find(ticket)?;
        if self.records.at(place).owed.contains(&true) {
            return Err(Refusal::NotYet);
        }
        let record = self.records.remove(place);
        Ok(Receipt {
            block: record.block,
            number: record.entry.unwrap(),
        })
    }

    // The leg that a read takes: one leg after the other in a quiet region, else the master.
    pub fn leg_to_read(&self, block: u64) -> usize {
        if !self.regions.is_quiet(block) {
            return 0;
        }
        let current = self.regions.targets(block);
        let count = current.iter().filter(|is_current| **is_current).count();
        let mut legs = (0..LEGS).filter(|leg| current[*leg]);
        legs.nth(self.turn as usize % count).unwrap()
    }

    pub fn read(&mut self, block: u64, into: &mut [u8]) -> Result<Receipt, Refusal> {
        if self.stopped {
            return Err(Refusal::Stopped);
        }
        if self.settling {
            return Err(Refusal::Settling);
        }
        if self.is_exhausted() {
            return Err(Refusal::Exhausted);
        }
        let number = self.kept.total;
        let start = block as usize * 512;
        into.copy_from_slice(&self.legs[self.leg_to_read(block)][start..start + into.len()]);
        self.kept.push_run(block, into, |_| Kind::Read);
        if self.regions.is_quiet(block) {
            self.turn = (self.turn + 1) % 840;
        }
        Ok(Receipt { block, number })
    }

    pub fn copy_cause(&self, leg: usize) -> Option<Refusal> {
        if self.stopped {
            return Some(Refusal::Stopped);
        }
        if self.settling {
            return Some(Refusal::Settling);
        }
        (self.states[leg] != LegState::Joining).then_some(Refusal::NotJoining)
    }

    // Reads a block of the chunk or, once all of them are read, writes one. None: nothing is left.
    pub fn copy(&mut self, leg: usize) -> Result<Option<u64>, Refusal> {
        if let Some(refusal) = self.copy_cause(leg) {
            return Err(refusal);
        }
        if self.regions.legs[leg].count == 0 {
            return Ok(None);
        }
        let copy = self.regions.copy.unwrap_or(CopyPlace {
            leg: leg as u8,
            region: self.regions.legs[leg].lowest as u64,
            cursor: 0,
        });
        if copy.leg as usize != leg {
            return Err(Refusal::OtherCopy(copy.leg));
        }
        let start = copy.region * self.regions.region + copy.cursor;
        if self.buffer.blocks == 0 {
            let most = self.buffer.slots.len() as u64;
            let blocks = most.min(self.regions.region - copy.cursor);
            if let Some(ticket) = self.records.busy_among(start..start + blocks) {
                return Err(Refusal::Busy(ticket));
            }
            self.buffer.blocks = blocks;
            self.regions.copy = Some(copy);
        }
        let buffer = &mut self.buffer;
        if buffer.read < buffer.blocks {
            let at = (start + buffer.read) as usize * 512;
            let slot = &mut buffer.slots[buffer.read as usize];
            slot.0.copy_from_slice(&self.legs[0][at..at + 512]);
            buffer.read += 1;
        } else {
            let at = (start + buffer.written) as usize * 512;
            self.legs[leg][at..at + 512].copy_from_slice(&buffer.slots[buffer.written as usize].0);
            buffer.written += 1;
            if buffer.written == buffer.blocks {
                self.regions.advance(copy, buffer.blocks);
                (buffer.blocks, buffer.read, buffer.written) = (0, 0, 0);
            }
        }
        Ok(Some(self.regions.left(leg) - self.buffer.written))
    }
}
