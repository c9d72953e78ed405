//! The twin of the chronicle's benchmark: a list behind std's Mutex, one push a lock.
use std::sync::Mutex;
use std::thread;
use std::time::Instant;

/// Turns of each measurement, over all threads.
const TURNS: u64 = 400_000;

fn run(threads: u64) -> u128 {
    let list = Mutex::new(Vec::new());
    let start = Instant::now();
    thread::scope(|scope| {
        for actor in 1..=threads {
            let list = &list;
            scope.spawn(move || {
                for i in 0..TURNS / threads {
                    list.lock().unwrap().push(i * 8 + actor);
                }
            });
        }
    });
    let took = start.elapsed().as_nanos();
    assert_eq!(list.lock().unwrap().len() as u64, TURNS);
    took
}

fn main() {
    for threads in [1, 2, 4] {
        println!("mutex {threads} {}", run(threads));
    }
}
