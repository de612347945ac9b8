// The same work in plain Rust, with the standard library alone: stripes behind locks, one hold of a
// lock for each step, in each stripe the same rules, records, regions and history, and calls that
// go one region after the other.
use std::hint::black_box;
use std::sync::{Arc, Mutex};
use std::thread;
use std::time::Instant;

#[path = "../common/stripe.rs"]
mod stripe;
use stripe::{Data, Kind, LEGS, NUMBERS, REGION, Reach, Stripe};

const BLOCKS: u64 = 16_384;
const BYTES: u64 = 512 * BLOCKS;
const TURNS: u64 = 16;
const ROUNDS: u32 = 5;
const MOST: usize = 1 << 20;

// A stripe of so many blocks, which two legs have.
fn open_stripe(blocks: u64) -> Stripe {
    let leg = || vec![0; blocks as usize * 512];
    Stripe::open(vec![leg(), leg()], [true, true])
}

// What a client was given in one stripe.
#[derive(Clone, Copy, Default)]
struct Part {
    front: u64,
    count: u64,
}

impl Part {
    // So many blocks got numbers, of which this is the first.
    fn note(&mut self, number: u64, blocks: u64) {
        self.count += blocks;
        self.front = self.front.max(number + blocks);
    }
}

struct Mirror {
    stripes: Vec<Mutex<Stripe>>,
    region: u64,
}

impl Mirror {
    fn new(stripes: u64) -> Mirror {
        let open = |_| Mutex::new(open_stripe(BLOCKS / stripes));
        Mirror {
            stripes: (0..stripes).map(open).collect(),
            region: black_box(REGION),
        }
    }

    // The stripe of a block of the export, and the block's number in it.
    fn place(&self, block: u64) -> (usize, u64) {
        let (region, stripes) = (block / self.region, self.stripes.len() as u64);
        let in_stripe = region / stripes * self.region + block % self.region;
        ((region % stripes) as usize, in_stripe)
    }

    // The stripe of a block, and how many of so many blocks from it on lie in its region.
    fn run(&self, block: u64, blocks: usize) -> (usize, usize) {
        let left = self.region - block % self.region;
        (self.place(block).0, blocks.min(left as usize))
    }

    // One hold of one lock.
    fn step<T>(&self, stripe: usize, part: &Part, step: impl FnOnce(&mut Stripe) -> T) -> T {
        let mut held = self.stripes[stripe].lock().unwrap();
        assert!(held.kept.total >= part.front);
        step(&mut held)
    }

    // Writes a run of blocks that lies in one region.
    fn write_run(&self, part: &mut Part, block: u64, data: Data) {
        let blocks = data.blocks();
        let (stripe, block) = self.place(block);
        let ticket = match self.step(stripe, part, |held| held.begin(block, data)) {
            Ok(ticket) => ticket,
            Err((refusal, _)) => panic!("{refusal:?}"),
        };
        for leg in 0..2 {
            match self
                .step(stripe, part, |held| held.push(ticket, leg))
                .unwrap()
            {
                Reach::Pushed(owed) => assert!(owed < LEGS),
                Reach::Complete(number) => assert!(number < NUMBERS),
            }
        }
        let receipt = self.step(stripe, part, |held| held.claim(ticket)).unwrap();
        part.note(receipt.number, blocks);
    }

    fn write(&self, parts: &mut [Part], offset: u64, received: &Arc<[u8]>, len: usize) {
        let (mut block, mut at) = (offset / 512, 0);
        while at < len {
            let (stripe, blocks) = self.run(block, (len - at) / 512);
            let end = at + blocks * 512;
            let data = Data::Cut(received.clone(), at..end);
            self.write_run(&mut parts[stripe], block, data);
            (block, at) = (block + blocks as u64, end);
        }
    }

    fn read_run(&self, part: &mut Part, block: u64, into: &mut [u8]) {
        let (stripe, block) = self.place(block);
        let receipt = self
            .step(stripe, part, |held| held.read(block, into))
            .unwrap();
        part.note(receipt.number, into.len() as u64 / 512);
    }

    fn read(&self, parts: &mut [Part], offset: u64, into: &mut [u8]) {
        let (mut block, mut left) = (offset / 512, into);
        while !left.is_empty() {
            let (stripe, blocks) = self.run(block, left.len() / 512);
            let (own, rest) = left.split_at_mut(blocks * 512);
            self.read_run(&mut parts[stripe], block, own);
            (block, left) = (block + blocks as u64, rest);
        }
    }
}

#[derive(Clone, Copy)]
enum Work {
    Write,
    Read,
}

#[derive(Clone, Copy)]
struct Row {
    work: Work,
    size: u64,
    threads: u64,
    stripes: u64,
}

struct Client {
    number: u64,
    parts: Vec<Part>,
    received: Arc<[u8]>,
    target: Vec<u8>,
}

impl Client {
    fn new(row: Row, number: u64) -> Client {
        let byte = |i: u64| (i / 512 + i + number) as u8;
        Client {
            number,
            parts: vec![Part::default(); row.stripes as usize],
            received: (0..MOST as u64).map(byte).collect(),
            target: vec![0; row.size as usize],
        }
    }

    fn call(&mut self, mirror: &Mirror, row: Row, offset: u64) -> u64 {
        match row.work {
            Work::Write => {
                let len = row.size as usize;
                mirror.write(&mut self.parts, offset, &self.received, len);
                1
            }
            Work::Read => {
                mirror.read(&mut self.parts, offset, &mut self.target);
                u64::from(self.target[0]) ^ u64::from(*self.target.last().unwrap())
            }
        }
    }

    fn calls(&mut self, mirror: &Mirror, row: Row) -> u64 {
        let share = BYTES / row.threads;
        let places = share / row.size;
        let mut sum = 0u64;
        for turn in 0..TURNS * places {
            let place = (turn + 37 * self.number) * 7919 % places;
            let offset = self.number * share + place * row.size;
            sum = sum.wrapping_add(self.call(mirror, row, offset));
        }
        sum
    }
}

fn all_calls(mirror: &Mirror, clients: &mut [Client], row: Row) -> u64 {
    if let [one] = clients {
        return one.calls(mirror, row);
    }
    thread::scope(|scope| {
        let start = |client| scope.spawn(move || Client::calls(client, mirror, row));
        let started: Vec<_> = clients.iter_mut().map(start).collect();
        let sums = started.into_iter().map(|thread| thread.join().unwrap());
        sums.fold(0, u64::wrapping_add)
    })
}

fn export_sum(mirror: &Mirror, parts: &mut [Part]) -> u64 {
    let mut bytes = vec![0; BYTES as usize];
    mirror.read(parts, 0, &mut bytes);
    let told = u64::from(bytes[0]) ^ u64::from(bytes[bytes.len() - 1]);
    black_box(told);
    let add = |sum: u64, byte: &u8| sum.wrapping_mul(31).wrapping_add(u64::from(*byte));
    bytes.iter().fold(0, add)
}

fn round(row: Row) -> (u64, u64) {
    let mirror = Mirror::new(row.stripes);
    let mut clients: Vec<_> = (0..row.threads)
        .map(|number| Client::new(row, number))
        .collect();
    let first = &mut clients[0];
    for at in 0..8 {
        mirror.write(&mut first.parts, at * MOST as u64, &first.received, MOST);
    }
    let start = Instant::now();
    let told = all_calls(&mirror, &mut clients, row);
    let nanos = start.elapsed().as_nanos() as u64;
    let there = export_sum(&mirror, &mut clients[0].parts);
    let had: u64 = mirror
        .stripes
        .iter()
        .map(|stripe| stripe.lock().unwrap().kept.total)
        .sum();
    let counted: u64 = clients
        .iter()
        .flat_map(|client| &client.parts)
        .map(|part| part.count)
        .sum();
    assert_eq!(had, counted);
    // The history is kept, though nobody reads it here.
    for stripe in &mirror.stripes {
        for (entry, bytes) in stripe.lock().unwrap().kept.entries() {
            let ticket = match entry.kind {
                Kind::Read => 0,
                Kind::Write(ticket) => ticket,
            };
            black_box((entry.seq, ticket, entry.block, bytes));
        }
    }
    (nanos, told ^ there ^ had)
}

fn print_rounds(row: Row, name: &str) {
    for _ in 0..ROUNDS {
        let (nanos, sum) = round(row);
        let (blocks, bytes) = (TURNS * BLOCKS, TURNS * BYTES);
        println!("{name}: {blocks} {bytes} {sum} {nanos}");
    }
}

// All rows, or the one that the first word names.
fn main() {
    let only = std::env::args().nth(1);
    for (size, called) in [(4096, "4K"), (65_536, "64K"), (1 << 20, "1M")] {
        for (work, verb) in [(Work::Write, "write"), (Work::Read, "read")] {
            for threads in [1, 4] {
                for stripes in [1, 4, 16] {
                    let row = Row {
                        work,
                        size,
                        threads,
                        stripes,
                    };
                    let name = format!("{verb} {called}, {threads} on {stripes}");
                    if only.as_ref().is_some_and(|only| *only != name) {
                        continue;
                    }
                    print_rounds(row, &name);
                }
            }
        }
    }
}
