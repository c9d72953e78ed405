//! The steps of a history.

#[derive(Clone, Copy)]
pub struct TxnId {
    pub session: u32,
    pub number: u32,
    pub attempt: u64,
}

#[derive(Clone, Copy)]
pub struct Pair {
    pub key: u32,
    pub value: i64,
}

#[derive(Clone, Copy)]
pub enum Op {
    Read { key: u32 },
    Write { key: u32, value: i64 },
    Add { key: u32, by: i64 },
}

impl Op {
    pub fn key(&self) -> u32 {
        match *self {
            Op::Read { key } | Op::Write { key, .. } | Op::Add { key, .. } => key,
        }
    }
}

/// A number for each site.
#[derive(Clone, Copy)]
pub struct Vector {
    pub count: u8,
    pub parts: [u64; 8],
}

impl Vector {
    pub fn as_slice(&self) -> &[u64] {
        &self.parts[..usize::from(self.count)]
    }
}

pub struct Entry {
    pub txn: TxnId,
    pub origin: u8,
    pub seq: u64,
    pub begin: Vector,
    pub ops: Vec<Op>,
    pub reads: Vec<Pair>,
    pub writes: Vec<Pair>,
}

pub enum Want {
    Txn(Vec<u32>),
    Place(u16),
    Restart,
}

#[derive(Clone, Copy)]
pub enum Choice {
    Master,
    Best,
    Reader,
    Hand,
}

#[derive(Clone, Copy)]
pub enum Found {
    Clean,
    Kept,
    Lost,
}

#[derive(Clone, Copy)]
pub enum Cause {
    Undeclared {
        key: u32,
    },
    Log {
        site: u8,
    },
    Damage {
        site: u8,
        place: u64,
        read: Option<u8>,
        written: Option<u8>,
    },
    Memory,
}

#[derive(Clone, Copy)]
pub enum Said {
    Committed { site: u8, seq: u64 },
    Read { site: u8 },
    InDoubt { site: u8 },
    Placed { part: u16, site: u8, epoch: u64 },
    Restarted { site: u8 },
    Refused(Cause),
}

pub enum Pending {
    Commit(Entry),
    Release {
        part: u16,
        epoch: u64,
        to: u8,
        vector: Vector,
    },
    Grant {
        part: u16,
        epoch: u64,
        vector: Vector,
    },
}

pub enum Step {
    Route {
        txn: TxnId,
        want: Want,
        min: Vector,
        site: u8,
        choice: Choice,
    },
    Reply {
        session: u32,
        number: u32,
        said: Said,
    },
    Ask {
        part: u16,
        epoch: u64,
        to: u8,
        txn: TxnId,
    },
    Settle {
        part: u16,
        epoch: u64,
    },
    Begin {
        site: u8,
        txn: TxnId,
        begin: Vector,
    },
    Moved {
        site: u8,
        txn: TxnId,
    },
    End {
        site: u8,
        txn: TxnId,
        ops: Vec<Op>,
        reads: Vec<Pair>,
    },
    Fail {
        site: u8,
        txn: TxnId,
        cause: Cause,
    },
    Refresh {
        site: u8,
        origin: u8,
    },
    /// A Commit, a Release or a Grant.
    Done {
        site: u8,
        pending: Pending,
    },
    Doubt {
        site: u8,
        pending: Pending,
    },
    Restart {
        site: u8,
        vector: Vector,
        found: Found,
    },
}
