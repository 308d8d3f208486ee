//! Reading: the trailer, then each record in turn.

use super::links::Table;
use crate::calls::{refuse, Answer, Refusal};
use crate::trace::*;

#[derive(Clone, Copy, PartialEq, Eq)]
enum Situation {
    Between,
    AfterJoin,
    Inside,
}

#[derive(Clone, Copy, PartialEq, Eq)]
enum Status {
    Unknown,
    Begun,
    Ended,
}

/// A trace that no refusal of 1 to 10 and no 31 concerns.
pub struct Checked<'a> {
    pub start: usize,
    pub events: usize,
    /// where there are sends
    pub table: Option<Table>,
    body: &'a [u8],
}

impl<'a> Checked<'a> {
    pub fn len(&self) -> usize {
        self.body.len() / RECORD
    }

    #[inline]
    pub fn records(&self) -> impl Iterator<Item = Record> + 'a {
        self.body.chunks_exact(RECORD).map(Record::decode)
    }

    /// Record by number, from 1.
    pub fn record(&self, number: u16) -> Option<Record> {
        let at = (number as usize).checked_sub(1)? * RECORD;
        self.body.get(at..at + RECORD).map(Record::decode)
    }
}

struct Reader {
    situation: Situation,
    owner: u16,
    status: [Status; NAMES + 1],
    begins: usize,
    sends: bool,
}

fn is_name(x: u16) -> bool {
    (1..=NAMES as u16).contains(&x)
}

impl Reader {
    fn new() -> Self {
        Reader { situation: Situation::Between, owner: 0, status: [Status::Unknown; NAMES + 1], begins: 0, sends: false }
    }

    /// Takes one record, or says which refusal of 4 to 8 applies.
    #[inline]
    fn take(&mut self, r: Record) -> Result<(), u16> {
        let well_formed = match r.kind {
            BEGIN | END => r.second == 0,
            FORK | JOIN | READ | WRITE => is_name(r.second),
            kind if is_send(kind) => is_name(r.second),
            _ => return Err(4),
        };
        if !well_formed || !is_name(r.first) {
            return Err(5);
        }
        let opens = matches!(r.kind, BEGIN | JOIN);
        let in_place = match self.situation {
            Situation::Between => opens,
            Situation::AfterJoin => opens && r.first == self.owner,
            Situation::Inside => !opens && r.first == self.owner,
        };
        if !in_place {
            return Err(6);
        }
        let (first, second) = (r.first as usize, r.second as usize);
        if opens && self.status[first] != Status::Unknown || starts(r.kind) && self.status[second] != Status::Unknown {
            return Err(7);
        }
        if r.kind == JOIN && self.status[second] != Status::Ended {
            return Err(8);
        }
        self.situation = match r.kind {
            BEGIN => {
                self.status[first] = Status::Begun;
                self.begins += 1;
                Situation::Inside
            }
            END => {
                self.status[first] = Status::Ended;
                Situation::Between
            }
            JOIN => Situation::AfterJoin,
            _ => {
                self.sends |= is_send(r.kind);
                Situation::Inside
            }
        };
        self.owner = r.first;
        Ok(())
    }
}

pub fn read(bytes: &[u8]) -> Answer<Checked<'_>> {
    let Some((front, &[d0, d1, d2, d3, b0, b1, edition, mark])) = bytes.split_last_chunk::<TRAILER>() else {
        return refuse(1);
    };
    if mark != MARK {
        return refuse(1);
    }
    if edition != 1 {
        return refuse(2);
    }
    let distance = u32::from_le_bytes([d0, d1, d2, d3]) as usize;
    if distance % RECORD != 0 || distance > MAX_RECORDS * RECORD || distance > front.len() {
        return refuse(3);
    }
    let start = front.len() - distance;
    let mut reader = Reader::new();
    let body = &front[start..];
    let (passed, found) = scan(&mut reader, body, u16::from_le_bytes([b0, b1]) as usize);
    let table = if reader.sends { Some(fill(&body[..passed * RECORD])?) } else { None };
    found?;
    Ok(Checked { start, events: reader.begins, table, body })
}

/// How many records pass 4 to 8, and the first refusal of 4 to 10.
fn scan(reader: &mut Reader, body: &[u8], begins: usize) -> (usize, Answer<()>) {
    let mut passed = 0;
    for r in body.chunks_exact(RECORD).map(Record::decode) {
        if let Err(number) = reader.take(r) {
            return (passed, Err(Refusal { number, place: passed as u16 + 1 }));
        }
        passed += 1;
    }
    if reader.situation != Situation::Between {
        return (passed, Err(Refusal { number: 9, place: passed as u16 }));
    }
    (passed, if reader.begins == begins { Ok(()) } else { refuse(10) })
}

/// The table over these records, or 31.
fn fill(body: &[u8]) -> Answer<Table> {
    let mut table = Table::new();
    for (i, r) in body.chunks_exact(RECORD).map(Record::decode).enumerate() {
        if !table.take(r) {
            return Err(Refusal { number: 31, place: i as u16 + 1 });
        }
    }
    Ok(table)
}
