// What four threads do in the time of one, on this machine: a loop that stays in registers, eight of them
// side by side, and copies of 512-byte blocks between memory of each thread's own. One loop waits for its
// own results, and leaves a core's units free for another thread; eight keep them busy. Where one gains
// four and eight gain two, a guest's four cores are the threads of two.
//
//     rustc --edition 2024 -O bench/cores.rs -o cores && ./cores
use std::hint::black_box;
use std::thread;
use std::time::Instant;

const ROUNDS: usize = 15;
const STEPS: u64 = 100_000_000;
const BLOCK: usize = 512;

fn register_loop() {
    let mut state = black_box(1u64);
    for step in 0..STEPS {
        state = state.wrapping_mul(6_364_136_223_846_793_005).wrapping_add(step);
    }
    black_box(state);
}

fn eight_loops() {
    let mut states = black_box([1u64, 2, 3, 4, 5, 6, 7, 8]);
    for step in 0..STEPS / 4 {
        for state in &mut states {
            *state = state.wrapping_mul(6_364_136_223_846_793_005).wrapping_add(step);
        }
    }
    black_box(states);
}

// Copies each block once a turn, never one right after its neighbour.
fn copies(blocks: usize) {
    let from = vec![1u8; blocks * BLOCK];
    let mut into = vec![2u8; blocks * BLOCK];
    for turn in 0..(1 << 20) {
        let at = turn * 7919 % blocks * BLOCK;
        into[at..at + BLOCK].copy_from_slice(&from[at..at + BLOCK]);
        black_box(&mut into);
    }
}

fn seconds(threads: usize, work: impl Fn() + Sync) -> f64 {
    let start = Instant::now();
    thread::scope(|scope| {
        for _ in 0..threads {
            scope.spawn(&work);
        }
    });
    start.elapsed().as_secs_f64()
}

// The gain is the throughput of four threads over that of one: the median over the rounds, in turn.
fn gain(name: &str, work: impl Fn() + Sync) {
    let mut gains: Vec<f64> = (0..ROUNDS)
        .map(|_| 4.0 * seconds(1, &work) / seconds(4, &work))
        .collect();
    gains.sort_by(f64::total_cmp);
    println!("{name:32} {:.2} ({:.2} to {:.2})", gains[ROUNDS / 2], gains[0], gains[ROUNDS - 1]);
}

fn main() {
    println!("{:32} four threads over one: median (least to most)", "");
    gain("a loop in registers", register_loop);
    gain("eight loops in registers", eight_loops);
    for kib in [256, 2_048, 8_192] {
        gain(&format!("copies out of {kib} KiB a thread"), || copies(kib * 1024 / BLOCK));
    }
}
