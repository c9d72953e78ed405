//! The plain twin of the clients' bench: two sites behind their locks, a routing table with a lock for each partition, and one history for all.

use std::collections::{HashMap, VecDeque};
use std::hint::black_box;
use std::sync::{Condvar, Mutex, MutexGuard, RwLock};
use std::time::Instant;

type Vector = [u64; 8];

#[derive(Clone, Copy, PartialEq, Eq)]
struct Txn {
    session: u32,
    number: u32,
    attempt: u64,
}

#[expect(dead_code, reason = "they are read to be held")]
enum Step {
    Route { txn: Txn, keys: Vec<u32>, min: Vector, site: u8 },
    Ask { part: u16, epoch: u64, to: u8, txn: Txn },
    Release { site: u8, part: u16, epoch: u64, to: u8, vector: Vector },
    Grant { site: u8, part: u16, epoch: u64, vector: Vector },
    Settle { part: u16, epoch: u64 },
    Begin { site: u8, txn: Txn, begin: Vector },
    Commit { entry: Entry },
    Refresh { site: u8, origin: u8 },
    Reply { session: u32, number: u32, said: Said },
}

#[derive(Clone, Copy)]
#[expect(dead_code, reason = "they are read to be held")]
enum Said {
    Committed { site: u8, seq: u64 },
    Placed { part: u16, site: u8, epoch: u64 },
}

#[derive(Clone, Copy)]
enum Op {
    Add(u32, i64),
}

#[expect(dead_code, reason = "they are read to be held")]
struct Entry {
    txn: Txn,
    origin: u8,
    seq: u64,
    begin: Vector,
    ops: Vec<Op>,
    reads: Vec<(u32, i64)>,
    writes: Vec<(u32, i64)>,
}

/// What is kept of the history beside its steps.
struct Book {
    steps: Vec<Step>,
    /// The place of each origin's commits.
    entries: [Vec<usize>; 2],
    vectors: [Vector; 2],
    session: Vector,
    /// What the session runs, and the number of its last answered item.
    runs: Option<Txn>,
    replies: u32,
    /// Where each partition is mastered, and under which epoch.
    masters: [(u8, u64); 2],
    /// The partitions of the last transactions.
    window: VecDeque<u16>,
}

struct Site {
    number: u8,
    versions: HashMap<u32, Vec<(u8, u64, i64)>>,
    holders: Vec<(Txn, Vec<u32>)>,
    log: Vec<u8>,
    gate: usize,
}

struct Run {
    txn: Txn,
    begin: Vector,
    ops: Vec<Op>,
    reads: Vec<(u32, i64)>,
    writes: Vec<(u32, i64)>,
}

struct Place {
    site: u8,
    epoch: u64,
    asked: Option<u8>,
}

struct Shared {
    book: Mutex<Book>,
    sites: [(Mutex<Site>, Condvar); 2],
    table: [(RwLock<()>, Mutex<Place>); 2],
}

fn covers(small: &Vector, great: &Vector) -> bool {
    small.iter().zip(great).all(|(a, b)| a <= b)
}

impl Book {
    fn new() -> Book {
        Book {
            steps: Vec::new(),
            entries: [Vec::new(), Vec::new()],
            vectors: [[0; 8]; 2],
            session: [0; 8],
            runs: None,
            replies: 0,
            masters: [(1, 0), (2, 0)],
            window: VecDeque::new(),
        }
    }

    fn route(&mut self, txn: Txn, keys: Vec<u32>, site: u8) -> Vector {
        assert!(self.runs.is_none() && txn.number == self.replies + 1);
        for key in &keys {
            if self.window.len() == 128 {
                self.window.pop_front();
            }
            self.window.push_back((key / 10) as u16);
        }
        let min = self.session;
        self.steps.push(Step::Route { txn, keys, min, site });
        min
    }

    fn reply(&mut self, session: u32, said: Said) {
        assert!(self.runs.is_none());
        self.replies += 1;
        self.steps.push(Step::Reply { session, number: self.replies, said });
    }
}

impl Site {
    fn new(number: u8) -> Site {
        Site { number, versions: HashMap::new(), holders: Vec::new(), log: vec![0], gate: 0 }
    }

    fn at(&self) -> usize {
        self.number as usize - 1
    }

    fn begin(&mut self, book: &Mutex<Book>, txn: Txn, keys: Vec<u32>, min: &Vector) -> Run {
        while !covers(min, &lock(book).vectors[self.at()]) {
            self.refresh(book);
        }
        let mut book = lock(book);
        let begin = book.vectors[self.at()];
        assert!(keys.iter().all(|key| book.masters[*key as usize / 10].0 == self.number));
        assert!(!self.holders.iter().any(|(_, held)| held.iter().any(|key| keys.contains(key))));
        self.holders.push((txn, keys));
        book.runs = Some(txn);
        book.steps.push(Step::Begin { site: self.number, txn, begin });
        Run { txn, begin, ops: Vec::new(), reads: Vec::new(), writes: Vec::new() }
    }

    fn value(&self, key: u32, at: &Vector) -> i64 {
        let versions = self.versions.get(&key).map_or(&[][..], Vec::as_slice);
        let newest = versions.iter().rev().find(|(origin, seq, _)| *seq <= at[*origin as usize - 1]);
        newest.map_or(0, |(_, _, value)| *value)
    }

    fn op(&self, run: &mut Run, op: Op) {
        run.ops.push(op);
        let Op::Add(key, by) = op;
        match run.writes.binary_search_by_key(&key, |(k, _)| *k) {
            Ok(at) => run.writes[at].1 += by,
            Err(at) => {
                let value = self.value(key, &run.begin).wrapping_add(by);
                run.writes.insert(at, (key, value));
            }
        }
    }

    fn install(&mut self, entry: &Entry) {
        for (key, value) in &entry.writes {
            self.versions.entry(*key).or_default().push((entry.origin, entry.seq, *value));
        }
    }

    fn append(&mut self, kind: u8, fill: impl FnOnce(&mut Vec<u8>)) {
        let mut frame = Vec::with_capacity(64);
        frame.extend_from_slice(&[0; 4]);
        frame.push(kind);
        fill(&mut frame);
        let len = frame.len() as u32 - 4;
        frame[..4].copy_from_slice(&len.to_be_bytes());
        frame.push(0);
        self.log.extend_from_slice(&frame);
        sync(&self.log);
        self.log[self.gate] = 1;
        sync(&self.log);
        self.gate += frame.len();
    }

    fn commit(&mut self, book: &Mutex<Book>, run: Run) -> (u64, Vector) {
        let at = self.at();
        let seq = {
            let book = lock(book);
            assert!(book.runs == Some(run.txn));
            book.vectors[at][at] + 1
        };
        let Run { txn, begin, ops, reads, writes } = run;
        let entry = Entry { txn, origin: self.number, seq, begin, ops, reads, writes };
        self.append(1, |frame| {
            frame.extend_from_slice(&entry.txn.session.to_be_bytes());
            frame.extend_from_slice(&entry.txn.number.to_be_bytes());
            frame.extend_from_slice(&entry.txn.attempt.to_be_bytes());
            frame.extend_from_slice(&entry.seq.to_be_bytes());
            numbers(frame, &entry.begin);
            frame.push(entry.writes.len() as u8);
            for (key, value) in &entry.writes {
                frame.extend_from_slice(&key.to_be_bytes());
                frame.extend_from_slice(&value.to_be_bytes());
            }
        });
        self.install(&entry);
        self.holders.retain(|(other, _)| *other != txn);
        let mut vector = begin;
        vector[at] = seq;
        let mut book = lock(book);
        book.vectors[at][at] = seq;
        let place = book.steps.len();
        book.entries[at].push(place);
        book.steps.push(Step::Commit { entry });
        book.runs = None;
        (seq, vector)
    }

    /// Whether it lacks a transaction of the other site.
    fn lags(&self, book: &Mutex<Book>) -> bool {
        let (book, own) = (lock(book), self.at());
        (0..2).any(|at| at != own && (book.vectors[own][at] as usize) < book.entries[at].len())
    }

    fn refresh(&mut self, book: &Mutex<Book>) {
        let own = self.at();
        let mut book = lock(book);
        let book = &mut *book;
        let origin = (0..2).find(|at| *at != own && (book.vectors[own][*at] as usize) < book.entries[*at].len());
        let origin = origin.expect("something to take over");
        let place = book.entries[origin][book.vectors[own][origin] as usize];
        let Step::Commit { entry } = &book.steps[place] else {
            unreachable!()
        };
        assert!(covers(&entry.begin, &book.vectors[own]));
        self.install(entry);
        book.vectors[own][origin] += 1;
        book.steps.push(Step::Refresh { site: self.number, origin: origin as u8 + 1 });
    }

    fn release(&mut self, book: &Mutex<Book>, part: u16, epoch: u64, to: u8) -> Vector {
        assert!(!self.holders.iter().any(|(_, held)| held.iter().any(|key| key / 10 == u32::from(part))));
        let vector = lock(book).vectors[self.at()];
        self.append(2, |frame| {
            frame.extend_from_slice(&part.to_be_bytes());
            frame.extend_from_slice(&epoch.to_be_bytes());
            frame.push(to);
            numbers(frame, &vector);
        });
        lock(book).steps.push(Step::Release { site: self.number, part, epoch, to, vector });
        vector
    }

    fn grant(&mut self, book: &Mutex<Book>, part: u16, epoch: u64, vector: &Vector) {
        while !covers(vector, &lock(book).vectors[self.at()]) {
            self.refresh(book);
        }
        self.append(3, |frame| {
            frame.extend_from_slice(&part.to_be_bytes());
            frame.extend_from_slice(&epoch.to_be_bytes());
            numbers(frame, vector);
        });
        let mut book = lock(book);
        book.masters[part as usize] = (self.number, epoch);
        book.steps.push(Step::Grant { site: self.number, part, epoch, vector: *vector });
    }
}

fn numbers(frame: &mut Vec<u8>, vector: &Vector) {
    frame.push(2);
    for n in &vector[..2] {
        frame.extend_from_slice(&n.to_be_bytes());
    }
}

#[inline(never)]
fn sync(log: &[u8]) {
    black_box(log.len());
}

fn lock<T>(of: &Mutex<T>) -> MutexGuard<'_, T> {
    of.lock().expect("no thread panics")
}

impl Shared {
    fn new() -> Shared {
        let place = |site| (RwLock::new(()), Mutex::new(Place { site, epoch: 0, asked: None }));
        let site = |number| (Mutex::new(Site::new(number)), Condvar::new());
        Shared { book: Mutex::new(Book::new()), sites: [site(1), site(2)], table: [place(1), place(2)] }
    }

    fn site(&self, number: u8) -> (MutexGuard<'_, Site>, &Condvar) {
        let (site, bell) = &self.sites[number as usize - 1];
        (lock(site), bell)
    }

    /// A transaction that adds 1 to a key.
    fn transact(&self, txn: Txn, key: u32) -> Said {
        let (gate, place) = &self.table[key as usize / 10];
        let look = gate.read().expect("no thread panics");
        let master = {
            let place = lock(place);
            assert!(place.asked.is_none());
            place.site
        };
        let min = lock(&self.book).route(txn, vec![key], master);
        drop(look);
        let mut run = self.site(master).0.begin(&self.book, txn, vec![key], &min);
        let (mut site, bell) = self.site(master);
        site.op(&mut run, Op::Add(key, 1));
        let (seq, vector) = site.commit(&self.book, run);
        bell.notify_all();
        drop(site);
        let said = Said::Committed { site: master, seq };
        let mut book = lock(&self.book);
        for (a, b) in book.session.iter_mut().zip(vector) {
            *a = (*a).max(b);
        }
        book.reply(txn.session, said);
        said
    }

    /// A move of a partition by hand.
    fn place(&self, txn: Txn, part: u16, to: u8) -> Said {
        let (gate, place) = &self.table[part as usize];
        let alone = gate.write().expect("no thread panics");
        let mut place = lock(place);
        lock(&self.book).route(txn, Vec::new(), to);
        if place.site != to {
            let (from, epoch) = (place.site, place.epoch);
            lock(&self.book).steps.push(Step::Ask { part, epoch, to, txn });
            place.asked = Some(to);
            let (mut old, bell) = self.site(from);
            let vector = old.release(&self.book, part, epoch, to);
            bell.notify_all();
            drop(old);
            let (mut new, bell) = self.site(to);
            new.grant(&self.book, part, epoch + 1, &vector);
            bell.notify_all();
            drop(new);
            lock(&self.book).steps.push(Step::Settle { part, epoch: epoch + 1 });
            *place = Place { site: to, epoch: epoch + 1, asked: None };
        }
        let said = Said::Placed { part, site: to, epoch: place.epoch };
        drop(place);
        drop(alone);
        lock(&self.book).reply(txn.session, said);
        said
    }
}

/// Serves so many transactions, where they move with a move of their partition ahead of every tenth, and gives the nanoseconds that it took.
fn time(count: u32, moves: bool) -> u128 {
    let start = Instant::now();
    let shared = Shared::new();
    let mut told = Vec::new();
    let mut number = 0;
    let mut next = || {
        number += 1;
        Txn { session: 1, number, attempt: 1 }
    };
    for at in 0..count {
        if moves && at % 10 == 9 {
            told.push(shared.place(next(), 0, if at % 20 == 9 { 2 } else { 1 }));
        }
        told.push(shared.transact(next(), at % 10));
    }
    for site in [1, 2] {
        let mut site = shared.site(site).0;
        while site.lags(&shared.book) {
            site.refresh(&shared.book);
        }
    }
    let took = start.elapsed().as_nanos();
    black_box((lock(&shared.book).steps.len(), told.len()));
    took
}

fn main() {
    for count in [1_000, 100_000] {
        println!("plain masters {count} {}", time(count, false));
        println!("plain moves {count} {}", time(count, true));
    }
}
