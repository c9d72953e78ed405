//! Times the scores of the proved crate beside those of a plain Rust twin: 8 sites, 256 partitions, a full
//! window of sets of 32 partitions, of which one is noted before each call. Prints both times and the ratio.

mod twin;

use std::time::{Duration, Instant};
use twin::{PartSet, Vector, Weights, Window};

const SITES: usize = 8;

const PARTS: usize = 256;

const SETS: usize = 512;

const PER_SET: usize = 32;

const ROUNDS: u32 = 2000;

unsafe extern "C" {
    /// The sum over the rounds of the site with the first of the greatest scores.
    fn placement_rounds(
        rounds: u32,
        homes: *const u8,
        homes_len: usize,
        sets: *const u16,
        sets_len: usize,
        per_set: usize,
        vectors: *const u64,
        vectors_len: usize,
        wanted: *const u16,
        wanted_len: usize,
    ) -> u64;
}

struct Input {
    homes: Vec<u8>,
    sets: Vec<u16>,
    vectors: Vec<u64>,
    wanted: Vec<u16>,
}

/// The numbers of a small generator, the same in each run.
fn input() -> Input {
    let mut x: u64 = 1;
    let mut draw = |below: u64| {
        x = x * 48271 % 2147483647;
        x % below
    };
    let homes = (0..PARTS).map(|_| draw(SITES as u64) as u8 + 1).collect();
    let sets = (0..SETS * PER_SET).map(|_| draw(PARTS as u64) as u16).collect();
    let vectors = (0..SITES * SITES).map(|_| draw(1000)).collect();
    let wanted = (0..PER_SET).map(|_| draw(PARTS as u64) as u16).collect();
    Input { homes, sets, vectors, wanted }
}

fn by_crate(input: &Input) -> u64 {
    unsafe {
        placement_rounds(
            ROUNDS,
            input.homes.as_ptr(),
            input.homes.len(),
            input.sets.as_ptr(),
            input.sets.len(),
            PER_SET,
            input.vectors.as_ptr(),
            input.vectors.len(),
            input.wanted.as_ptr(),
            input.wanted.len(),
        )
    }
}

#[inline(never)]
fn by_twin(input: &Input) -> u64 {
    let sets: Vec<PartSet> = input.sets.chunks(PER_SET).map(PartSet::of).collect();
    let vectors: Vec<Vector> = input.vectors.chunks(SITES).map(|numbers| numbers.try_into().unwrap()).collect();
    let wanted = PartSet::of(&input.wanted);
    let mut window = Window::new();
    for set in &sets {
        window.note(*set);
    }
    let mut sum = 0;
    for round in 0..ROUNDS {
        window.note(sets[round as usize % sets.len()]);
        let weights = Weights { balance: 1, delay: 1, together: 1 + round % 7 };
        let scores = twin::scores(&window, &input.homes, &vectors, weights, wanted);
        let mut best = 0;
        for at in 1..scores.len() {
            if scores[best] < scores[at] {
                best = at;
            }
        }
        sum += best as u64 + 1;
    }
    sum
}

fn timed(run: impl Fn() -> u64) -> (u64, Duration) {
    let begin = Instant::now();
    let sum = run();
    (sum, begin.elapsed())
}

fn main() {
    let input = input();
    let mut best = [Duration::MAX; 2];
    // The two take turns, and the best time of each counts.
    for _ in 0..5 {
        let (ours, our_time) = timed(|| by_crate(&input));
        let (theirs, their_time) = timed(|| by_twin(&input));
        assert_eq!(ours, theirs, "the two disagree");
        best = [best[0].min(our_time), best[1].min(their_time)];
    }
    let micros = |time: Duration| time.as_secs_f64() * 1e6 / f64::from(ROUNDS);
    println!("crate {:.1} microseconds a call", micros(best[0]));
    println!("twin {:.1} microseconds a call", micros(best[1]));
    println!("ratio {:.2}", best[0].as_secs_f64() / best[1].as_secs_f64());
}
