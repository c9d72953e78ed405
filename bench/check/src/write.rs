//! Printing a history.

use crate::step::{Cause, Choice, Found, Op, Pair, Pending, Said, Step, TxnId, Vector, Want};
use std::fmt::{Display, Formatter, Result, Write as _};

/// The lines of the steps.
pub fn print(steps: &[Step]) -> String {
    let mut text = String::new();
    for step in steps {
        writeln!(text, "{step}").expect("a string takes what is written");
    }
    text
}

impl Display for TxnId {
    fn fmt(&self, f: &mut Formatter<'_>) -> Result {
        write!(f, "{}.{}.{}", self.session, self.number, self.attempt)
    }
}

impl Display for Vector {
    fn fmt(&self, f: &mut Formatter<'_>) -> Result {
        f.write_str("[")?;
        for (nth, part) in self.as_slice().iter().enumerate() {
            let space = if nth == 0 { "" } else { " " };
            write!(f, "{space}{part}")?;
        }
        f.write_str("]")
    }
}

impl Display for Pair {
    fn fmt(&self, f: &mut Formatter<'_>) -> Result {
        write!(f, "{}:{}", self.key, self.value)
    }
}

impl Display for Op {
    fn fmt(&self, f: &mut Formatter<'_>) -> Result {
        match self {
            Op::Read { key } => write!(f, "g{key}"),
            Op::Write { key, value } => write!(f, "p{key}:{value}"),
            Op::Add { key, by } => write!(f, "a{key}:{by}"),
        }
    }
}

/// Items with a comma between each two, or `-` for none.
struct List<'a, T>(&'a [T]);

impl<T: Display> Display for List<'_, T> {
    fn fmt(&self, f: &mut Formatter<'_>) -> Result {
        let Some((first, rest)) = self.0.split_first() else {
            return f.write_str("-");
        };
        write!(f, "{first}")?;
        for item in rest {
            write!(f, ",{item}")?;
        }
        Ok(())
    }
}

impl Display for Want {
    fn fmt(&self, f: &mut Formatter<'_>) -> Result {
        match self {
            Want::Txn(keys) => write!(f, "txn {}", List(keys)),
            Want::Place(part) => write!(f, "place {part}"),
            Want::Restart => f.write_str("restart"),
        }
    }
}

impl Display for Choice {
    fn fmt(&self, f: &mut Formatter<'_>) -> Result {
        f.write_str(match self {
            Choice::Master => "master",
            Choice::Best => "best",
            Choice::Reader => "reader",
            Choice::Hand => "hand",
        })
    }
}

impl Display for Found {
    fn fmt(&self, f: &mut Formatter<'_>) -> Result {
        f.write_str(match self {
            Found::Clean => "clean",
            Found::Kept => "kept",
            Found::Lost => "lost",
        })
    }
}

/// A byte of a log, which may be past its end.
struct LogByte(Option<u8>);

impl Display for LogByte {
    fn fmt(&self, f: &mut Formatter<'_>) -> Result {
        match self.0 {
            Some(byte) => write!(f, "{byte}"),
            None => f.write_str("-"),
        }
    }
}

/// Why an attempt failed, whose site stands in front.
struct OwnCause<'a>(&'a Cause);

impl Display for OwnCause<'_> {
    fn fmt(&self, f: &mut Formatter<'_>) -> Result {
        match self.0 {
            Cause::Undeclared { key } => write!(f, "undeclared {key}"),
            Cause::Log { .. } => f.write_str("log"),
            Cause::Damage {
                place,
                read,
                written,
                ..
            } => write!(f, "damage {place} {} {}", LogByte(*read), LogByte(*written)),
            Cause::Memory => f.write_str("memory"),
        }
    }
}

impl Display for Cause {
    fn fmt(&self, f: &mut Formatter<'_>) -> Result {
        match self {
            Cause::Undeclared { key } => write!(f, "undeclared {key}"),
            Cause::Log { site } => write!(f, "log {site}"),
            Cause::Damage {
                site,
                place,
                read,
                written,
            } => write!(
                f,
                "damage {site} {place} {} {}",
                LogByte(*read),
                LogByte(*written)
            ),
            Cause::Memory => f.write_str("memory"),
        }
    }
}

impl Display for Said {
    fn fmt(&self, f: &mut Formatter<'_>) -> Result {
        match self {
            Said::Committed { site, seq } => write!(f, "committed {site} {seq}"),
            Said::Read { site } => write!(f, "read {site}"),
            Said::InDoubt { site } => write!(f, "doubt {site}"),
            Said::Placed { part, site, epoch } => write!(f, "placed {part} {site} {epoch}"),
            Said::Restarted { site } => write!(f, "restarted {site}"),
            Said::Refused(cause) => write!(f, "refused {cause}"),
        }
    }
}

/// A Commit, a Release or a Grant of a site.
struct Act<'a>(u8, &'a Pending);

impl Display for Act<'_> {
    fn fmt(&self, f: &mut Formatter<'_>) -> Result {
        let Act(site, pending) = self;
        match pending {
            Pending::Commit(entry) => write!(
                f,
                "commit {} {} {} {} ops {} reads {} writes {}",
                entry.origin,
                entry.txn,
                entry.seq,
                entry.begin,
                List(&entry.ops),
                List(&entry.reads),
                List(&entry.writes)
            ),
            Pending::Release {
                part,
                epoch,
                to,
                vector,
            } => write!(f, "release {site} {part} {epoch} to {to} {vector}"),
            Pending::Grant {
                part,
                epoch,
                vector,
            } => write!(f, "grant {site} {part} {epoch} {vector}"),
        }
    }
}

impl Display for Step {
    fn fmt(&self, f: &mut Formatter<'_>) -> Result {
        match self {
            Step::Route {
                txn,
                want,
                min,
                site,
                choice,
            } => write!(f, "route {txn} {want} min {min} to {site} {choice}"),
            Step::Reply {
                session,
                number,
                said,
            } => write!(f, "reply {session} {number} {said}"),
            Step::Ask {
                part,
                epoch,
                to,
                txn,
            } => write!(f, "ask {part} {epoch} {to} {txn}"),
            Step::Settle { part, epoch } => write!(f, "settle {part} {epoch}"),
            Step::Begin { site, txn, begin } => write!(f, "begin {site} {txn} {begin}"),
            Step::Moved { site, txn } => write!(f, "moved {site} {txn}"),
            Step::End {
                site,
                txn,
                ops,
                reads,
            } => write!(
                f,
                "end {site} {txn} ops {} reads {}",
                List(ops),
                List(reads)
            ),
            Step::Fail { site, txn, cause } => write!(f, "fail {site} {txn} {}", OwnCause(cause)),
            Step::Refresh { site, origin } => write!(f, "refresh {site} {origin}"),
            Step::Done { site, pending } => write!(f, "{}", Act(*site, pending)),
            Step::Doubt { site, pending } => write!(f, "doubt {}", Act(*site, pending)),
            Step::Restart {
                site,
                vector,
                found,
            } => write!(f, "restart {site} {vector} {found}"),
        }
    }
}
