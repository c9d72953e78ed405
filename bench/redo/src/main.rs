//! The plain twin of the redo log's bench: a bare loop of the four calls of an append, over a file and over memory, and a reader of a log that
//! checks as much as a load does.

use std::fs::{File, OpenOptions};
use std::hint::black_box;
use std::io;
use std::os::unix::fs::FileExt;
use std::time::Instant;

const FILE: u32 = 1_000;
const MEMORY: u32 = 20_000;
const LOAD: u32 = 100_000;

const COMMIT: [u8; 59] = [
    0, 0, 0, 55, 1, 0, 0, 0, 1, 0, 0, 0, 1, 0, 0, 0, 0, 0, 0, 0, 1, 0, 0, 0, 0, 0, 0, 0, 1, 2, 0, 0,
    0, 0, 0, 0, 0, 0, 0, 0, 0, 0, 0, 0, 0, 0, 1, 0, 0, 0, 3, 0, 0, 0, 0, 0, 0, 0, 5,
];

/// What is written to, and synced.
trait Disk {
    fn write_at(&mut self, at: u64, piece: &[u8]) -> io::Result<()>;
    fn sync(&mut self) -> io::Result<()>;
}

impl Disk for File {
    fn write_at(&mut self, at: u64, piece: &[u8]) -> io::Result<()> {
        self.write_all_at(piece, at)
    }

    fn sync(&mut self) -> io::Result<()> {
        self.sync_all()
    }
}

impl Disk for Vec<u8> {
    #[inline(never)]
    fn write_at(&mut self, at: u64, piece: &[u8]) -> io::Result<()> {
        let (at, end) = (at as usize, at as usize + piece.len());
        if self.len() < end {
            self.resize(end, 0);
        }
        self[at..end].copy_from_slice(piece);
        Ok(())
    }

    #[inline(never)]
    fn sync(&mut self) -> io::Result<()> {
        black_box(self.len());
        Ok(())
    }
}

fn append<D: Disk>(disk: &mut D, count: u32) -> io::Result<()> {
    let mut closed = COMMIT.to_vec();
    closed.push(0);
    let mut gate = 0;
    disk.write_at(gate, &[0])?;
    disk.sync()?;
    for _ in 0..count {
        disk.write_at(gate + 1, &closed)?;
        disk.sync()?;
        disk.write_at(gate, &[1])?;
        disk.sync()?;
        gate += closed.len() as u64;
    }
    Ok(())
}

#[expect(dead_code, reason = "it is read to be held")]
struct Commit {
    session: u32,
    number: u32,
    attempt: u64,
    seq: u64,
    begin: [u64; 8],
    sites: u8,
    writes: Vec<(u32, i64)>,
}

struct Reader<'a> {
    bytes: &'a [u8],
    at: usize,
}

impl Reader<'_> {
    fn take<const N: usize>(&mut self) -> Option<[u8; N]> {
        let piece = self.bytes.get(self.at..self.at + N)?.try_into().ok()?;
        self.at += N;
        Some(piece)
    }

    fn byte(&mut self) -> Option<u8> {
        Some(self.take::<1>()?[0])
    }

    fn u32(&mut self) -> Option<u32> {
        Some(u32::from_be_bytes(self.take()?))
    }

    fn u64(&mut self) -> Option<u64> {
        Some(u64::from_be_bytes(self.take()?))
    }

    fn commit(&mut self) -> Option<Commit> {
        let len = self.u32()? as usize;
        let end = self.at + len;
        if len > 475 || self.byte()? != 1 {
            return None;
        }
        let (session, number, attempt, seq, sites) =
            (self.u32()?, self.u32()?, self.u64()?, self.u64()?, self.byte()?);
        if !(1..=32).contains(&session) || number == 0 || attempt == 0 || seq == 0 || !(1..=8).contains(&sites) {
            return None;
        }
        let mut begin = [0; 8];
        for component in begin.iter_mut().take(usize::from(sites)) {
            *component = self.u64()?;
        }
        let count = self.byte()?;
        if !(1..=32).contains(&count) {
            return None;
        }
        let mut writes = Vec::new();
        let mut least = 0;
        for _ in 0..count {
            let (key, value) = (self.u32()?, self.u64()?.cast_signed());
            if key < least || key > 16_777_215 {
                return None;
            }
            least = key + 1;
            writes.push((key, value));
        }
        (self.at == end).then_some(Commit {
            session,
            number,
            attempt,
            seq,
            begin,
            sites,
            writes,
        })
    }
}

/// The records of a file, or None where it is bad.
fn read(file: &[u8]) -> Option<Vec<Commit>> {
    let bytes = file.to_vec();
    let mut reader = Reader {
        bytes: &bytes,
        at: 0,
    };
    let mut records = Vec::new();
    while reader.at + 1 < reader.bytes.len() && reader.byte()? == 1 {
        records.push(reader.commit()?);
    }
    Some(records)
}

fn main() -> io::Result<()> {
    let mut file = OpenOptions::new()
        .read(true)
        .write(true)
        .create(true)
        .truncate(true)
        .open("twin.log")?;
    let start = Instant::now();
    append(&mut file, FILE)?;
    println!("plain file {} {FILE}", start.elapsed().as_nanos());
    let mut memory = Vec::new();
    let start = Instant::now();
    append(&mut memory, MEMORY)?;
    println!("plain memory {} {MEMORY}", start.elapsed().as_nanos());
    let mut log = Vec::new();
    for _ in 0..LOAD {
        log.push(1);
        log.extend_from_slice(&COMMIT);
    }
    log.push(0);
    let start = Instant::now();
    let records = read(&log).expect("a good log");
    let took = start.elapsed().as_nanos();
    assert_eq!(records.len(), LOAD as usize);
    black_box(&records);
    println!("plain load {took} {}", records.len());
    Ok(())
}
