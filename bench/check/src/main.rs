//! The plain twin of the histories' bench: a reader and a printer of the same lines. The reader accepts what dm_past accepts, and builds as
//! much; of a text that is no history it tells the first faulty line alone, and not what is wrong with it.

mod read;
mod step;
mod write;

use read::{Schema, read};
use std::hint::black_box;
use std::time::Instant;
use std::{env, fs};
use write::print;

/// Turns of a measurement, of which the least counts.
const TURNS: u32 = 20;

const SCHEMA: Schema = Schema {
    sites: 3,
    parts: 6,
    width: 1_000,
};

/// The least nanoseconds in which the work is done.
fn least<T>(work: impl Fn() -> T) -> u128 {
    let turn = |_| {
        let start = Instant::now();
        let done = work();
        let took = start.elapsed().as_nanos();
        drop(black_box(done));
        took
    };
    (0..TURNS).map(turn).min().expect("a turn")
}

fn main() {
    let name = env::args().nth(1).expect("the name of a history");
    let text = fs::read(name).expect("a file");
    let steps = read(SCHEMA, &text).unwrap_or_else(|line| panic!("line {line} is faulty"));
    assert_eq!(print(&steps).as_bytes(), text, "another text is printed");
    let reading = least(|| read(SCHEMA, black_box(&text)));
    let printing = least(|| print(black_box(&steps)));
    let (lines, bytes) = (steps.len(), text.len());
    println!("plain read {lines} {reading} {bytes}");
    println!("plain print {lines} {printing} {bytes}");
}
