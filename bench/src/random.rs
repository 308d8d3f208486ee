//! A seeded generator of numbers and of traces.

use crate::calls::{Calls, Refusal};
use crate::plain::Plain;
use crate::trace::*;

/// SplitMix64.
pub struct Chance(u64);

impl Chance {
    pub fn new(seed: u64) -> Self {
        Chance(seed)
    }

    pub fn next(&mut self) -> u64 {
        self.0 = self.0.wrapping_add(0x9E37_79B9_7F4A_7C15);
        let mut z = self.0;
        z = (z ^ z >> 30).wrapping_mul(0xBF58_476D_1CE4_E5B9);
        z = (z ^ z >> 27).wrapping_mul(0x94D0_49BB_1331_11EB);
        z ^ z >> 31
    }

    /// A number below n (n at least 1).
    pub fn below(&mut self, n: usize) -> usize {
        (self.next() % n as u64) as usize
    }

    /// Yes in `percent` of a hundred.
    pub fn percent(&mut self, percent: usize) -> bool {
        self.below(100) < percent
    }

    pub fn pick<T: Copy>(&mut self, from: &[T]) -> T {
        from[self.below(from.len())]
    }
}

/// What a random trace is like.
#[derive(Clone, Copy, Debug)]
pub struct Style {
    pub records: usize,
    pub events: usize,
    pub cells: usize,
    pub accesses: usize,
    pub reads: usize,
    pub forks: usize,
    pub joins: usize,
    /// of a hundred forks, how many are sends
    pub sends: usize,
}

/// A style: short or long, few or many of each thing.
pub fn style(chance: &mut Chance, longest: usize) -> Style {
    let records = chance.below(longest) + 1;
    Style {
        records,
        events: chance.pick(&[2, 3, 5, 9, 20, 60, 200, 1024]),
        cells: chance.pick(&[1, 1, 2, 3, 8, 30, 1024]),
        accesses: chance.pick(&[0, 1, 2, 3, 3, 6, 15, 40]),
        reads: chance.pick(&[0, 20, 50, 50, 80, 100]),
        forks: chance.pick(&[0, 0, 5, 20, 50, 90]),
        joins: chance.pick(&[0, 0, 5, 20, 50, 90]),
        sends: chance.pick(&[0, 0, 30, 70, 100]),
    }
}

/// Records of an accepted trace of that style, its event numbers in random order.
pub fn records(chance: &mut Chance, style: &Style) -> Vec<Record> {
    let mut names: Vec<u16> = (1..=NAMES as u16).collect();
    for i in 0..style.events.min(NAMES) {
        let j = i + chance.below(NAMES - i);
        names.swap(i, j);
    }
    let mut out: Vec<Record> = Vec::new();
    for (k, &event) in names.iter().enumerate().take(style.events) {
        let mut part = Vec::new();
        while k > 0 && chance.percent(style.joins) && part.len() < 4 {
            // mostly a recent one
            let back = if chance.percent(70) { chance.below(k.min(4)) } else { chance.below(k) };
            part.push(Record::new(JOIN, event, names[k - 1 - back]));
        }
        part.push(Record::new(BEGIN, event, 0));
        let accesses = if style.accesses == 0 { 0 } else { chance.below(style.accesses + 1) };
        for _ in 0..accesses {
            let kind = if chance.percent(style.reads) { READ } else { WRITE };
            part.push(Record::new(kind, event, chance.below(style.cells) as u16 + 1));
            if chance.percent(style.forks / 4) {
                part.push(fork(chance, &names, k, event, style.sends));
            }
        }
        while chance.percent(style.forks) && part.len() < 60 {
            part.push(fork(chance, &names, k, event, style.sends));
            if style.sends == 0 {
                break;
            }
        }
        part.push(Record::new(END, event, 0));
        if out.len() + part.len() > style.records.min(MAX_RECORDS) {
            break;
        }
        out.extend(part);
    }
    out
}

/// A fork of a later event or a send to one, mostly a near one; it may never begin.
fn fork(chance: &mut Chance, names: &[u16], k: usize, event: u16, sends: usize) -> Record {
    let left = names.len() - 1 - k;
    let ahead = if chance.percent(80) { chance.below(left.clamp(1, 4)) } else { chance.below(left.max(1)) };
    match names.get(k + 1 + ahead) {
        Some(&started) if chance.percent(sends) => Record::new(SEND + chance.pick(&[0, 0, 1, 2, 3]), event, started),
        Some(&started) => Record::new(FORK, event, started),
        None => Record::new(READ, event, 1),
    }
}

/// Where a link puts a begin behind an event that comes later or never, sends to that event become forks; `left` of a hundred traces stay as they are.
pub fn unblock(chance: &mut Chance, records: &mut [Record], left: usize) {
    if chance.percent(left) {
        return;
    }
    while let Err(Refusal { number: 31, place }) = Plain.read(&job_file(&[], records)) {
        let blocked = records[place as usize - 1].first;
        records.iter_mut().filter(|r| is_send(r.kind) && r.second == blocked).for_each(|r| r.kind = FORK);
    }
}

/// Turns some accesses of an accepted trace into others: reads into writes and back, cells into others.
pub fn mix(chance: &mut Chance, records: &mut [Record]) {
    let share = chance.pick(&[0, 1, 10, 40]);
    for r in records.iter_mut().filter(|r| matches!(r.kind, READ | WRITE)) {
        if chance.percent(share) {
            r.kind = chance.pick(&[READ, WRITE]);
        }
        if chance.percent(share) {
            r.second = 1 + chance.below(12) as u16;
        }
    }
}

/// Damages a job file somewhere: a bit, a byte, a field, a length, the trailer, or the order of records.
pub fn damage(chance: &mut Chance, bytes: &mut Vec<u8>) {
    let records = bytes.len().saturating_sub(TRAILER) / RECORD;
    match chance.below(9) {
        0 if !bytes.is_empty() => {
            let i = chance.below(bytes.len());
            bytes[i] ^= 1 << chance.below(8);
        }
        1 => bytes.truncate(chance.below(bytes.len() + 1)),
        2 => {
            let from = bytes.len().saturating_sub(TRAILER);
            if from < bytes.len() {
                let i = from + chance.below(bytes.len() - from);
                bytes[i] = chance.next() as u8;
            }
        }
        3 if records > 0 => {
            let at = chance.below(records) * RECORD;
            bytes[at] = chance.pick(&[0, 1, 2, 3, 4, 5, 6, 7, 8, 15, 16, 17, 19, 20]);
        }
        4 if records > 0 => {
            let at = chance.below(records) * RECORD + chance.pick(&[1, 3]);
            let value = chance.pick(&[0u16, 1, 2, 3, 1024, 1025, 65535]);
            bytes[at..at + 2].copy_from_slice(&value.to_le_bytes());
        }
        5 if records > 1 => {
            let (i, j) = (chance.below(records) * RECORD, chance.below(records) * RECORD);
            (0..RECORD).for_each(|k| bytes.swap(i + k, j + k));
        }
        6 if records > 0 => {
            // one record fewer than the trailer says, or than the begins
            let at = chance.below(records) * RECORD;
            bytes.drain(at..at + RECORD);
            if chance.percent(70) {
                fit_distance(bytes);
            }
        }
        7 if records > 0 => {
            let at = chance.below(records) * RECORD;
            let copy: Vec<u8> = bytes[at..at + RECORD].to_vec();
            bytes.splice(at..at, copy);
            fit_distance(bytes);
        }
        _ => {
            let at = bytes.len().saturating_sub(TRAILER);
            bytes.insert(at, chance.next() as u8);
        }
    }
}

fn fit_distance(bytes: &mut [u8]) {
    let Some(at) = bytes.len().checked_sub(TRAILER) else { return };
    let distance = (at / RECORD * RECORD) as u32;
    bytes[at..at + 4].copy_from_slice(&distance.to_le_bytes());
}
