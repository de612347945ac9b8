// Steps of one stripe of plain Rust.
use std::sync::Arc;
use std::time::Instant;

#[path = "../common/stripe.rs"]
mod stripe;
use stripe::{Data, Kind, LEGS, NUMBERS, Reach, Stripe};

const BLOCKS: u64 = 16_384;
const STEPS: u64 = 16_384;
const ROUNDS: u32 = 20;

#[derive(Clone, Copy)]
enum Work {
    Cuts(u64),
    Zeroes,
    Batches(u64),
    Reads(u64),
    Copies,
}

fn write(stripe: &mut Stripe, block: u64, data: Data) -> u64 {
    let Ok(ticket) = stripe.begin(block, data) else {
        panic!("refused")
    };
    for leg in 0..2 {
        match stripe.push(ticket, leg).unwrap() {
            Reach::Pushed(owed) => assert!(owed < LEGS),
            Reach::Complete(number) => assert!(number < NUMBERS),
        }
    }
    let receipt = stripe.claim(ticket).unwrap();
    assert!(receipt.block == block);
    receipt.number
}

// So many blocks of the receive buffer.
fn cut(received: &Arc<[u8]>, at: u64, blocks: u64) -> Data {
    let start = (at % (128 / blocks) * blocks) as usize * 512;
    Data::Cut(received.clone(), start..start + blocks as usize * 512)
}

// The first block of a step's run of so many.
fn run_of_step(at: u64, blocks: u64) -> u64 {
    at.wrapping_mul(7919) % (BLOCKS / blocks) * blocks
}

fn batch(stripe: &mut Stripe, received: &Arc<[u8]>, at: u64, writes: u64) -> u64 {
    let mut next = 0;
    for at in at * writes..at * writes + writes {
        match stripe.begin(run_of_step(at, 1), cut(received, at, 1)) {
            Ok(begun) => next = begun + 1,
            Err((refusal, _)) => panic!("{refusal:?}"),
        }
    }
    let tickets = next - writes..next;
    for leg in 0..2 {
        for ticket in tickets.clone() {
            stripe.push(ticket, leg).unwrap();
        }
    }
    tickets.map(|ticket| stripe.claim(ticket).unwrap().number).sum()
}

fn read(stripe: &mut Stripe, block: u64, room: &mut [u8]) -> u64 {
    let receipt = stripe.read(block, room).unwrap();
    receipt.number ^ u64::from(room[0]) ^ u64::from(room[room.len() - 1])
}

fn copy(stripe: &mut Stripe) -> u64 {
    let first = stripe.copy(1).unwrap().unwrap_or(BLOCKS);
    let second = stripe.copy(1).unwrap().unwrap_or(BLOCKS);
    first.wrapping_mul(31) ^ second
}

fn steps(stripe: &mut Stripe, work: Work, received: &Arc<[u8]>, count: u64) -> u64 {
    let mut sum = 0u64;
    let mut room = [0; 65_536];
    for at in 0..count {
        let told = match work {
            Work::Cuts(blocks) => write(stripe, run_of_step(at, blocks), cut(received, at, blocks)),
            Work::Zeroes => write(stripe, run_of_step(at, 1), Data::Zero(1)),
            Work::Batches(writes) => batch(stripe, received, at, writes),
            Work::Reads(blocks) => {
                read(stripe, run_of_step(at, blocks), &mut room[..blocks as usize * 512])
            }
            Work::Copies => copy(stripe),
        };
        sum = sum.wrapping_add(told);
    }
    sum
}

fn filled(work: Work, received: &Arc<[u8]>) -> Stripe {
    let leg = || vec![0; BLOCKS as usize * 512];
    let legs = vec![leg(), leg()];
    if !matches!(work, Work::Copies) {
        let mut stripe = Stripe::open(legs, [true, true]);
        steps(&mut stripe, Work::Cuts(1), received, BLOCKS);
        return stripe;
    }
    let mut stripe = Stripe::open(legs, [true, false]);
    for at in 0..BLOCKS {
        let Ok(ticket) = stripe.begin(run_of_step(at, 1), cut(received, at, 1)) else {
            panic!("refused")
        };
        stripe.push(ticket, 0).unwrap();
        stripe.claim(ticket).unwrap();
    }
    stripe
}

fn history_sum(stripe: &Stripe) -> u64 {
    let mut sum = 0u64;
    for (entry, held) in stripe.kept.entries() {
        let ticket = match entry.kind {
            Kind::Read => 0,
            Kind::Write(ticket) => ticket,
        };
        let mut bytes = 0u64;
        for byte in held {
            bytes = bytes.wrapping_mul(31).wrapping_add(u64::from(*byte));
        }
        sum = sum
            .wrapping_mul(31)
            .wrapping_add(entry.seq ^ ticket)
            .wrapping_add(entry.block ^ bytes);
    }
    sum
}

fn leg_sum(stripe: &Stripe) -> u64 {
    let told = |block: &[u8]| u64::from(block[0]) ^ u64::from(block[511]);
    let add = |sum: u64, block| sum.wrapping_mul(31).wrapping_add(told(block));
    stripe.legs[1].chunks(512).fold(0, add)
}

fn main() {
    let received: Arc<[u8]> = (0..65_536u32).map(|i| (i / 512 + i) as u8).collect();
    for (name, work, count) in [
        ("write", Work::Cuts(1), STEPS),
        ("write of 8 blocks", Work::Cuts(8), STEPS / 8),
        ("write of 128 blocks", Work::Cuts(128), STEPS / 128),
        ("write of zeroes", Work::Zeroes, STEPS),
        ("write, 16 under way", Work::Batches(16), STEPS / 16),
        ("write, 128 under way", Work::Batches(128), STEPS / 128),
        ("write, 256 under way", Work::Batches(256), STEPS / 256),
        ("read", Work::Reads(1), STEPS),
        ("read of 8 blocks", Work::Reads(8), STEPS / 8),
        ("read of 128 blocks", Work::Reads(128), STEPS / 128),
        ("copy of 8 MiB", Work::Copies, STEPS),
    ] {
        for _ in 0..ROUNDS {
            let mut stripe = filled(work, &received);
            let start = Instant::now();
            let told = steps(&mut stripe, work, &received, count);
            let nanos = start.elapsed().as_nanos();
            let sum = told ^ history_sum(&stripe) ^ leg_sum(&stripe);
            println!("{name}: {STEPS} {} {sum} {nanos}", STEPS * 512);
        }
    }
}
