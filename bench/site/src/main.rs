//! The plain twin of the site's bench: two sites in one process, which keep one history, versions of values, write locks and a log in memory.

use std::collections::HashMap;
use std::hint::black_box;
use std::time::Instant;

type Vector = [u64; 8];

#[derive(Clone, Copy, PartialEq, Eq)]
struct Txn {
    session: u32,
    number: u32,
    attempt: u64,
}

#[expect(dead_code, reason = "they are read to be held")]
enum Step {
    Route { txn: Txn, keys: Vec<u32>, min: Vector, site: u8 },
    Begin { site: u8, txn: Txn, begin: Vector },
    Commit { entry: Entry },
    End { site: u8, txn: Txn, ops: Vec<Op>, reads: Vec<(u32, i64)> },
    Refresh { site: u8, origin: u8 },
    Reply { session: u32, number: u32, committed: bool },
}

#[derive(Clone, Copy)]
enum Op {
    Read(u32),
    Write(u32, i64),
}

#[expect(dead_code, reason = "they are read to be held")]
struct Entry {
    txn: Txn,
    origin: u8,
    seq: u64,
    begin: Vector,
    ops: Vec<Op>,
    reads: Vec<(u32, i64)>,
    writes: Vec<(u32, i64)>,
}

/// What is kept of the history beside its steps.
struct Book {
    steps: Vec<Step>,
    /// The place of each origin's commits.
    entries: [Vec<usize>; 2],
    vectors: [Vector; 2],
    session: Vector,
    /// What the session runs, and the number of its last answered item.
    runs: Option<Txn>,
    replies: u32,
}

struct Site {
    number: u8,
    versions: HashMap<u32, Vec<(u8, u64, i64)>>,
    holders: Vec<(Txn, Vec<u32>)>,
    log: Vec<u8>,
    gate: usize,
}

struct Run {
    txn: Txn,
    begin: Vector,
    ops: Vec<Op>,
    reads: Vec<(u32, i64)>,
    writes: Vec<(u32, i64)>,
}

impl Book {
    fn new() -> Book {
        Book {
            steps: Vec::new(),
            entries: [Vec::new(), Vec::new()],
            vectors: [[0; 8]; 2],
            session: [0; 8],
            runs: None,
            replies: 0,
        }
    }

    fn route(&mut self, txn: Txn, keys: Vec<u32>, site: u8) -> Vector {
        assert!(self.runs.is_none() && txn.number == self.replies + 1);
        let min = self.session;
        self.steps.push(Step::Route { txn, keys, min, site });
        min
    }

    fn reply(&mut self, txn: Txn, committed: bool) {
        assert!(self.runs.is_none() && txn.number == self.replies + 1);
        self.replies += 1;
        self.steps.push(Step::Reply { session: txn.session, number: txn.number, committed });
    }
}

fn covers(small: &Vector, great: &Vector) -> bool {
    small.iter().zip(great).all(|(a, b)| a <= b)
}

impl Site {
    fn new(number: u8) -> Site {
        Site { number, versions: HashMap::new(), holders: Vec::new(), log: vec![0], gate: 0 }
    }

    fn begin(&mut self, book: &mut Book, txn: Txn, keys: Vec<u32>, min: &Vector) -> Run {
        let begin = book.vectors[self.number as usize - 1];
        assert!(covers(min, &begin));
        let held = self.holders.iter().any(|(_, held)| held.iter().any(|key| keys.contains(key)));
        assert!(!held);
        self.holders.push((txn, keys));
        book.runs = Some(txn);
        book.steps.push(Step::Begin { site: self.number, txn, begin });
        Run { txn, begin, ops: Vec::new(), reads: Vec::new(), writes: Vec::new() }
    }

    fn value(&self, key: u32, at: &Vector) -> i64 {
        let versions = self.versions.get(&key).map_or(&[][..], Vec::as_slice);
        let newest = versions.iter().rev().find(|(origin, seq, _)| *seq <= at[*origin as usize - 1]);
        newest.map_or(0, |(_, _, value)| *value)
    }

    fn op(&self, run: &mut Run, op: Op) {
        run.ops.push(op);
        match op {
            Op::Read(key) => {
                let own = run.writes.iter().find(|(k, _)| *k == key).map(|(_, v)| *v);
                run.reads.push((key, own.unwrap_or_else(|| self.value(key, &run.begin))));
            }
            Op::Write(key, value) => match run.writes.binary_search_by_key(&key, |(k, _)| *k) {
                Ok(at) => run.writes[at].1 = value,
                Err(at) => run.writes.insert(at, (key, value)),
            },
        }
    }

    fn install(&mut self, entry: &Entry) {
        for (key, value) in &entry.writes {
            self.versions.entry(*key).or_default().push((entry.origin, entry.seq, *value));
        }
    }

    fn append(&mut self, entry: &Entry) {
        let mut frame = Vec::with_capacity(64);
        frame.extend_from_slice(&[0; 4]);
        frame.push(1);
        frame.extend_from_slice(&entry.txn.session.to_be_bytes());
        frame.extend_from_slice(&entry.txn.number.to_be_bytes());
        frame.extend_from_slice(&entry.txn.attempt.to_be_bytes());
        frame.extend_from_slice(&entry.seq.to_be_bytes());
        frame.push(2);
        for n in &entry.begin[..2] {
            frame.extend_from_slice(&n.to_be_bytes());
        }
        frame.push(entry.writes.len() as u8);
        for (key, value) in &entry.writes {
            frame.extend_from_slice(&key.to_be_bytes());
            frame.extend_from_slice(&value.to_be_bytes());
        }
        let len = frame.len() as u32 - 4;
        frame[..4].copy_from_slice(&len.to_be_bytes());
        frame.push(0);
        self.log.extend_from_slice(&frame);
        sync(&self.log);
        self.log[self.gate] = 1;
        sync(&self.log);
        self.gate += frame.len();
    }

    fn commit(&mut self, book: &mut Book, run: Run) {
        assert!(book.runs == Some(run.txn));
        self.holders.retain(|(txn, _)| *txn != run.txn);
        let (txn, committed) = (run.txn, !run.writes.is_empty());
        if committed {
            let own = &mut book.vectors[self.number as usize - 1][self.number as usize - 1];
            *own += 1;
            let seq = *own;
            let Run { txn, begin, ops, reads, writes } = run;
            let entry = Entry { txn, origin: self.number, seq, begin, ops, reads, writes };
            self.append(&entry);
            self.install(&entry);
            let mut vector = begin;
            vector[self.number as usize - 1] = seq;
            for (a, b) in book.session.iter_mut().zip(vector) {
                *a = (*a).max(b);
            }
            book.entries[self.number as usize - 1].push(book.steps.len());
            book.steps.push(Step::Commit { entry });
        } else {
            let Run { txn, ops, reads, .. } = run;
            book.steps.push(Step::End { site: self.number, txn, ops, reads });
        }
        book.runs = None;
        book.reply(txn, committed);
    }

    fn refresh(&mut self, book: &mut Book) {
        let own = self.number as usize - 1;
        let origin = (0..2).find(|at| *at != own && (book.vectors[own][*at] as usize) < book.entries[*at].len());
        let origin = origin.expect("something to take over");
        let place = book.entries[origin][book.vectors[own][origin] as usize];
        let Step::Commit { entry } = &book.steps[place] else {
            unreachable!()
        };
        assert!(covers(&entry.begin, &book.vectors[own]));
        self.install(entry);
        book.vectors[own][origin] += 1;
        book.steps.push(Step::Refresh { site: self.number, origin: origin as u8 + 1 });
    }
}

#[inline(never)]
fn sync(log: &[u8]) {
    black_box(log.len());
}

/// So many transactions at site 1, each of one op.
fn serve(book: &mut Book, site: &mut Site, first: u32, count: u32, writes: bool) {
    for number in first..first + count {
        let txn = Txn { session: 1, number, attempt: 1 };
        let key = number % 10;
        let min = book.route(txn, vec![key], 1);
        let mut run = site.begin(book, txn, vec![key], &min);
        let op = if writes { Op::Write(key, i64::from(number)) } else { Op::Read(key) };
        site.op(&mut run, op);
        site.commit(book, run);
    }
}

/// The frames of the records of a site's log.
fn frames(site: &Site) -> Vec<Vec<u8>> {
    let mut frames = Vec::new();
    let mut rest = &site.log[..];
    while let [1, length @ ..] = rest {
        let len = 4 + u32::from_be_bytes(length[..4].try_into().expect("four bytes")) as usize;
        frames.push(length[..len].to_vec());
        rest = &length[len..];
    }
    frames
}

/// Serves so many commits, Refreshes of site 2 and reads, and gives the nanoseconds that it took.
fn time(commits: u32, refreshes: u32, reads: u32) -> u128 {
    let start = Instant::now();
    let (mut book, mut one, mut two) = (Book::new(), Site::new(1), Site::new(2));
    serve(&mut book, &mut one, 1, commits, true);
    for _ in 0..refreshes {
        two.refresh(&mut book);
    }
    serve(&mut book, &mut one, commits + 1, reads, false);
    black_box((frames(&one), frames(&two)));
    let took = start.elapsed().as_nanos();
    black_box((book.steps.len(), one.log.len(), two.versions.len()));
    took
}

fn main() {
    for count in [1_000, 100_000] {
        println!("plain commits {count} {}", time(count, 0, 0));
        println!("plain refreshes {count} {}", time(count, count, 0));
        println!("plain reads {count} {}", time(count, count, count));
    }
}
