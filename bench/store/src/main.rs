//! Times the reads and installs of a `dm_store` store beside those of a plain twin: a map from keys to
//! vectors of versions. Sixty keys are written and read in turn, whatever else the two hold. Of
//! several tries the least time of each counts.

use std::collections::HashMap;
use std::sync::OnceLock;
use std::time::Instant;

/// The keys that are written and read.
const TOUCHED: u32 = 60;
const INSTALLS: u32 = 200_000;
const READS: u32 = 2_000_000;
const TRIES: usize = 9;

/// What the timed calls took, in nanoseconds, and the sum of what was read.
#[repr(C)]
#[derive(Clone, Copy, Default)]
struct Times {
    installs: u64,
    reads: u64,
    sum: i64,
}

/// How many keys are known and how many versions held, and what is timed.
#[derive(Clone, Copy)]
struct Load {
    keys: u32,
    before: u32,
    installs: u32,
    reads: u32,
    at: u64,
}

unsafe extern "C" {
    safe fn dm_store_run(
        keys: u32,
        before: u32,
        installs: u32,
        reads: u32,
        at: u64,
        times: &mut Times,
    ) -> bool;
}

/// The nanoseconds since the first call.
#[unsafe(no_mangle)]
extern "C" fn bench_now() -> u64 {
    static START: OnceLock<Instant> = OnceLock::new();
    START.get_or_init(Instant::now).elapsed().as_nanos() as u64
}

fn store_run(load: Load) -> Times {
    let mut times = Times::default();
    assert!(
        dm_store_run(
            load.keys,
            load.before,
            load.installs,
            load.reads,
            load.at,
            &mut times
        ),
        "no memory"
    );
    times
}

#[derive(Clone, Copy)]
struct Version {
    origin: u8,
    seq: u64,
    value: i64,
}

struct Twin {
    versions: HashMap<u32, Vec<Version>>,
}

impl Twin {
    #[inline(never)]
    fn install(&mut self, origin: u8, seq: u64, writes: &[(u32, i64)]) {
        for &(key, value) in writes {
            let versions = self.versions.get_mut(&key).expect("a known key");
            versions.push(Version { origin, seq, value });
        }
    }

    #[inline(never)]
    fn read(&self, key: u32, begin: &[u64; 3]) -> i64 {
        let Some(versions) = self.versions.get(&key) else {
            return 0;
        };
        versions
            .iter()
            .rev()
            .find(|version| version.seq <= begin[usize::from(version.origin) - 1])
            .map_or(0, |version| version.value)
    }
}

/// What `dm_store_run` does, by the twin. Its vectors have room for what comes, as the store has.
fn twin_run(load: Load) -> Times {
    let room = ((load.before + load.installs) / TOUCHED + 1) as usize;
    let mut twin = Twin {
        versions: (0..load.keys.max(TOUCHED))
            .map(|key| {
                (
                    key,
                    Vec::with_capacity(if key < TOUCHED { room } else { 0 }),
                )
            })
            .collect(),
    };
    let writes: Vec<[(u32, i64); 1]> = (0..TOUCHED).map(|key| [(key, i64::from(key))]).collect();
    let mut install = |from: u32, count: u32| {
        for i in 0..count {
            twin.install(1, u64::from(from + i) + 1, &writes[(i % TOUCHED) as usize]);
        }
    };
    install(0, load.before);
    let start = bench_now();
    install(load.before, load.installs);
    let between = bench_now();
    let begin = [load.at, 0, 0];
    let mut sum = 0i64;
    for i in 0..load.reads {
        sum = sum.wrapping_add(twin.read(i % TOUCHED, &begin));
    }
    let end = bench_now();
    Times {
        installs: between - start,
        reads: end - between,
        sum,
    }
}

/// Runs both on the load in turns, and prints a line of nanoseconds a call.
fn compare(what: &str, load: Load) {
    let mut least = [f64::INFINITY; 2];
    for _ in 0..TRIES {
        let times = [store_run(load), twin_run(load)];
        assert_eq!(times[0].sum, times[1].sum, "the two read different values");
        for (least, times) in least.iter_mut().zip(times) {
            let each = if load.installs > 0 {
                times.installs as f64 / f64::from(load.installs)
            } else {
                times.reads as f64 / f64::from(load.reads)
            };
            *least = least.min(each);
        }
    }
    let [store, twin] = least;
    println!(
        "{what:<22} {:>9} {:>9} {store:>9.1} {twin:>9.1} {:>7.2}",
        load.keys,
        load.before,
        store / twin
    );
}

fn main() {
    println!("nanoseconds of a          keys  versions     store      twin   ratio");
    for keys in [TOUCHED, 1_000_000] {
        for before in [1, 1_000, 100_000] {
            let reads = Load {
                keys,
                before,
                installs: 0,
                reads: READS,
                at: u64::from(before),
            };
            compare("read of the newest", reads);
            if before == 1_000 {
                compare(
                    "read of the 9th newest",
                    Load {
                        at: 1_000 - 8 * u64::from(TOUCHED),
                        ..reads
                    },
                );
            }
            compare(
                "install of one write",
                Load {
                    installs: INSTALLS,
                    reads: 0,
                    ..reads
                },
            );
        }
    }
}
