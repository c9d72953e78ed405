//! Reading a history.

use crate::step::{
    Cause, Choice, Entry, Found, Op, Pair, Pending, Said, Step, TxnId, Vector, Want,
};

const SESSIONS: u32 = 32;
const MOST_KEYS: usize = 32;
const MOST_OPS: usize = 64;

#[derive(Clone, Copy)]
pub struct Schema {
    pub sites: u8,
    pub parts: u16,
    pub width: u32,
}

/// The steps of the text, or the number of its first faulty line.
pub fn read(schema: Schema, text: &[u8]) -> Result<Vec<Step>, usize> {
    let mut steps = Vec::new();
    for (nth, line) in text.split_inclusive(|byte| *byte == b'\n').enumerate() {
        let step = line.strip_suffix(b"\n").and_then(|line| {
            Line {
                schema,
                rest: Some(line),
            }
            .step()
        });
        steps.push(step.ok_or(nth + 1)?);
    }
    Ok(steps)
}

/// The number of which the word is the canonical text.
fn number<T: TryFrom<u64>>(word: &[u8]) -> Option<T> {
    match word {
        [] | [b'0', _, ..] => None,
        digits => {
            let mut number = 0u64;
            for digit in digits {
                if !digit.is_ascii_digit() {
                    return None;
                }
                number = number
                    .checked_mul(10)?
                    .checked_add(u64::from(digit - b'0'))?;
            }
            T::try_from(number).ok()
        }
    }
}

fn signed(word: &[u8]) -> Option<i64> {
    match word {
        [b'-', size @ ..] => match number(size)? {
            0 => None,
            size => 0i64.checked_sub_unsigned(size),
        },
        _ => number(word),
    }
}

fn cut(word: &[u8], mark: u8) -> Option<(&[u8], &[u8])> {
    let place = word.iter().position(|byte| *byte == mark)?;
    Some((&word[..place], &word[place + 1..]))
}

fn pair(word: &[u8]) -> Option<Pair> {
    let (key, value) = cut(word, b':')?;
    Some(Pair {
        key: number(key)?,
        value: signed(value)?,
    })
}

fn op(word: &[u8]) -> Option<Op> {
    match word {
        [b'g', key @ ..] => Some(Op::Read { key: number(key)? }),
        [b'p', rest @ ..] => pair(rest).map(|Pair { key, value }| Op::Write { key, value }),
        [b'a', rest @ ..] => pair(rest).map(|Pair { key, value }| Op::Add { key, by: value }),
        _ => None,
    }
}

/// Items with a comma between each two, or `-` for none.
fn list<T>(word: &[u8], item: impl Fn(&[u8]) -> Option<T>) -> Option<Vec<T>> {
    if word == b"-" {
        return Some(Vec::new());
    }
    word.split(|byte| *byte == b',').map(item).collect()
}

fn byte(word: &[u8]) -> Option<Option<u8>> {
    if word == b"-" {
        return Some(None);
    }
    number(word).map(Some)
}

/// A line, of whose words the first ones are read. Behind the last one there is no rest.
struct Line<'a> {
    schema: Schema,
    rest: Option<&'a [u8]>,
}

impl<'a> Line<'a> {
    fn word(&mut self) -> Option<&'a [u8]> {
        let rest = self.rest?;
        match cut(rest, b' ') {
            Some((word, behind)) => {
                self.rest = Some(behind);
                Some(word)
            }
            None => {
                self.rest = None;
                Some(rest)
            }
        }
    }

    fn fixed(&mut self, text: &[u8]) -> Option<()> {
        (self.word()? == text).then_some(())
    }

    fn number<T: TryFrom<u64>>(&mut self) -> Option<T> {
        number(self.word()?)
    }

    fn site(&mut self) -> Option<u8> {
        let site = self.number()?;
        (1 <= site && site <= self.schema.sites).then_some(site)
    }

    fn part(&mut self) -> Option<u16> {
        let part = self.number()?;
        (part < self.schema.parts).then_some(part)
    }

    fn is_key(&self, key: u32) -> bool {
        u64::from(key) < u64::from(self.schema.parts) * u64::from(self.schema.width)
    }

    fn session(&self, session: u32) -> Option<u32> {
        (1..=SESSIONS).contains(&session).then_some(session)
    }

    fn txn(&mut self) -> Option<TxnId> {
        let (session, behind) = cut(self.word()?, b'.')?;
        let (number_word, attempt) = cut(behind, b'.')?;
        Some(TxnId {
            session: self.session(number(session)?)?,
            number: number(number_word)?,
            attempt: number(attempt)?,
        })
    }

    fn vector(&mut self) -> Option<Vector> {
        let count = self.schema.sites;
        let mut parts = [0; 8];
        let mut word = self.word()?.strip_prefix(b"[")?;
        let (last, front) = parts[..usize::from(count)].split_last_mut()?;
        for part in front {
            *part = number(word)?;
            word = self.word()?;
        }
        *last = number(word.strip_suffix(b"]")?)?;
        Some(Vector { count, parts })
    }

    fn keys(&mut self) -> Option<Vec<u32>> {
        let keys = list(self.word()?, number)?;
        let is_good = keys.len() <= MOST_KEYS
            && keys.iter().all(|key| self.is_key(*key))
            && keys.is_sorted_by(|key, next| key < next);
        is_good.then_some(keys)
    }

    fn ops(&mut self) -> Option<Vec<Op>> {
        let ops = list(self.word()?, op)?;
        let is_good = ops.len() <= MOST_OPS && ops.iter().all(|op| self.is_key(op.key()));
        is_good.then_some(ops)
    }

    fn pairs(&mut self) -> Option<Vec<Pair>> {
        let pairs = list(self.word()?, pair)?;
        pairs
            .iter()
            .all(|pair| self.is_key(pair.key))
            .then_some(pairs)
    }

    fn route(&mut self) -> Option<Step> {
        let txn = self.txn()?;
        let want = match self.word()? {
            b"txn" => Want::Txn(self.keys()?),
            b"place" => Want::Place(self.part()?),
            b"restart" => Want::Restart,
            _ => return None,
        };
        self.fixed(b"min")?;
        let min = self.vector()?;
        self.fixed(b"to")?;
        let site = self.site()?;
        let choice = match self.word()? {
            b"master" => Choice::Master,
            b"best" => Choice::Best,
            b"reader" => Choice::Reader,
            b"hand" => Choice::Hand,
            _ => return None,
        };
        Some(Step::Route {
            txn,
            want,
            min,
            site,
            choice,
        })
    }

    fn reply(&mut self) -> Option<Step> {
        let session = self.number()?;
        Some(Step::Reply {
            session: self.session(session)?,
            number: self.number()?,
            said: self.said()?,
        })
    }

    fn said(&mut self) -> Option<Said> {
        Some(match self.word()? {
            b"committed" => Said::Committed {
                site: self.site()?,
                seq: self.number()?,
            },
            b"read" => Said::Read { site: self.site()? },
            b"doubt" => Said::InDoubt { site: self.site()? },
            b"placed" => Said::Placed {
                part: self.part()?,
                site: self.site()?,
                epoch: self.number()?,
            },
            b"restarted" => Said::Restarted { site: self.site()? },
            b"refused" => Said::Refused(self.refusal()?),
            _ => return None,
        })
    }

    fn refusal(&mut self) -> Option<Cause> {
        Some(match self.word()? {
            b"undeclared" => {
                let key = self.number()?;
                if !self.is_key(key) {
                    return None;
                }
                Cause::Undeclared { key }
            }
            b"log" => Cause::Log { site: self.site()? },
            b"damage" => {
                let site = self.site()?;
                self.damage(site)?
            }
            b"memory" => Cause::Memory,
            _ => return None,
        })
    }

    fn damage(&mut self, site: u8) -> Option<Cause> {
        Some(Cause::Damage {
            site,
            place: self.number()?,
            read: byte(self.word()?)?,
            written: byte(self.word()?)?,
        })
    }

    fn ask(&mut self) -> Option<Step> {
        Some(Step::Ask {
            part: self.part()?,
            epoch: self.number()?,
            to: self.site()?,
            txn: self.txn()?,
        })
    }

    fn end(&mut self) -> Option<Step> {
        let (site, txn) = (self.site()?, self.txn()?);
        self.fixed(b"ops")?;
        let ops = self.ops()?;
        self.fixed(b"reads")?;
        let reads = self.pairs()?;
        Some(Step::End {
            site,
            txn,
            ops,
            reads,
        })
    }

    fn fail(&mut self) -> Option<Step> {
        let (site, txn) = (self.site()?, self.txn()?);
        let cause = match self.word()? {
            b"log" => Cause::Log { site },
            b"damage" => self.damage(site)?,
            b"memory" => Cause::Memory,
            _ => return None,
        };
        Some(Step::Fail { site, txn, cause })
    }

    fn restart(&mut self) -> Option<Step> {
        Some(Step::Restart {
            site: self.site()?,
            vector: self.vector()?,
            found: match self.word()? {
                b"clean" => Found::Clean,
                b"kept" => Found::Kept,
                b"lost" => Found::Lost,
                _ => return None,
            },
        })
    }

    fn commit(&mut self, origin: u8) -> Option<Pending> {
        let (txn, seq, begin) = (self.txn()?, self.number()?, self.vector()?);
        self.fixed(b"ops")?;
        let ops = self.ops()?;
        self.fixed(b"reads")?;
        let reads = self.pairs()?;
        self.fixed(b"writes")?;
        let writes = self.pairs()?;
        Some(Pending::Commit(Entry {
            txn,
            origin,
            seq,
            begin,
            ops,
            reads,
            writes,
        }))
    }

    fn release(&mut self) -> Option<Pending> {
        let (part, epoch) = (self.part()?, self.number()?);
        self.fixed(b"to")?;
        Some(Pending::Release {
            part,
            epoch,
            to: self.site()?,
            vector: self.vector()?,
        })
    }

    fn grant(&mut self) -> Option<Pending> {
        Some(Pending::Grant {
            part: self.part()?,
            epoch: self.number()?,
            vector: self.vector()?,
        })
    }

    /// What a site does, and may be in doubt about.
    fn act(&mut self, kind: &[u8]) -> Option<(u8, Pending)> {
        let site = self.site()?;
        let pending = match kind {
            b"commit" => self.commit(site)?,
            b"release" => self.release()?,
            b"grant" => self.grant()?,
            _ => return None,
        };
        Some((site, pending))
    }

    /// The step that the whole line says.
    fn step(mut self) -> Option<Step> {
        let step = match self.word()? {
            b"route" => self.route()?,
            b"reply" => self.reply()?,
            b"ask" => self.ask()?,
            b"settle" => Step::Settle {
                part: self.part()?,
                epoch: self.number()?,
            },
            b"begin" => Step::Begin {
                site: self.site()?,
                txn: self.txn()?,
                begin: self.vector()?,
            },
            b"moved" => Step::Moved {
                site: self.site()?,
                txn: self.txn()?,
            },
            b"end" => self.end()?,
            b"fail" => self.fail()?,
            b"refresh" => Step::Refresh {
                site: self.site()?,
                origin: self.site()?,
            },
            b"restart" => self.restart()?,
            b"doubt" => {
                let kind = self.word()?;
                let (site, pending) = self.act(kind)?;
                Step::Doubt { site, pending }
            }
            kind => {
                let (site, pending) = self.act(kind)?;
                Step::Done { site, pending }
            }
        };
        self.rest.is_none().then_some(step)
    }
}
