//! Both sides on the same random traces, call by call: answers and all lent memory compared.

mod altered;
mod cover;
mod lists;
mod orders;
mod recording;
mod slim;
mod tally;

use crate::calls::*;
use crate::plain::Plain;
use crate::random::{damage, mix, records, style, unblock, Chance};
use crate::shapes::{self, SHAPES};
use crate::trace::{job_file, Record, MAX_RECORDS};
use std::fmt::Debug;
pub use tally::Tally;

/// A difference, in words.
pub type Agreed = Result<(), String>;

/// What is compared: the other side, and a trace.
struct Case<'a> {
    other: &'a dyn Calls,
    bytes: &'a [u8],
}

fn same<T: PartialEq + Debug>(what: &str, plain: &T, other: &T) -> Agreed {
    if plain == other {
        return Ok(());
    }
    Err(format!("{what}: plain {plain:?}, other {other:?}"))
}

/// Equal memory, or where it first differs.
fn same_memory<T: PartialEq + Debug>(what: &str, plain: &[T], other: &[T]) -> Agreed {
    match plain.iter().zip(other).position(|(x, y)| x != y) {
        None => same(what, &plain.len(), &other.len()),
        Some(i) => Err(format!("{what} at {i}: plain {:?}, other {:?}", plain[i], other[i])),
    }
}

fn junk16(chance: &mut Chance, len: usize) -> Vec<u16> {
    let salt = chance.next();
    (0..len as u64).map(|i| (salt.wrapping_mul(i + 1) >> 40) as u16).collect()
}

fn junk8(chance: &mut Chance, len: usize) -> Vec<u8> {
    let salt = chance.next();
    (0..len as u64).map(|i| (salt.wrapping_mul(i + 1) >> 40) as u8).collect()
}

/// A length: mostly what is needed or a little more, now and then too little.
fn length(chance: &mut Chance, needed: usize) -> usize {
    match chance.below(10) {
        0 => needed.saturating_sub(1 + chance.below(3)),
        1 => chance.below(needed + 1),
        2..=5 => needed,
        _ => needed + chance.below(9),
    }
}

/// A width: mostly one that suffices.
fn width(chance: &mut Chance, chains: usize) -> usize {
    match chance.below(20) {
        0 => chance.pick(&[0, 1025, usize::MAX]),
        1 | 2 => 1 + chance.below(chains.max(1)),
        3..=8 => chains.max(1),
        9..=12 => chains.next_multiple_of(32).max(32),
        13 => 1024,
        _ => (chains + 1 + chance.below(4)).min(1024),
    }
}

/// One trace through every call.
fn compare_trace(other: &dyn Calls, bytes: &[u8], chance: &mut Chance, tally: &mut Tally) -> Agreed {
    let case = Case { other, bytes };
    let read = Plain.read(bytes);
    same("reading", &read, &other.read(bytes))?;
    tally.reading(&read);
    let events = read.map_or(3, |r| r.events);
    let mut clocks = vec![0; events * 1024];
    let chains = Plain.fill(bytes, 1024, &mut clocks).unwrap_or(1);
    let width = width(chance, chains);
    orders::compare(&case, width, events, chance, tally)?;
    lists::compare(&case, width, events, chance, tally)?;
    slim::compare(&case, chance, tally)
}

/// Records: of a random style, or of a measured shape with some of its accesses changed. Most are few, some as many as can be.
fn some_records(chance: &mut Chance) -> Vec<Record> {
    let longest = chance.pick(&[12, 30, 30, 60, 60, 60, 200, 200, 700, 4096]);
    if chance.percent(70) {
        let style = style(chance, longest);
        let mut records = records(chance, &style);
        unblock(chance, &mut records, 15);
        return records;
    }
    let (shape, _) = chance.pick(&SHAPES);
    let n = if chance.percent(3) { MAX_RECORDS } else { 8 + chance.below(longest.min(700)) };
    let mut records = shapes::records(shape, n).unwrap();
    mix(chance, &mut records);
    records
}

/// Random job files, a quarter of them damaged.
fn job(chance: &mut Chance) -> Vec<u8> {
    let front_len = chance.below(12);
    let front = junk8(chance, front_len);
    let mut bytes = job_file(&front, &some_records(chance));
    if chance.percent(25) {
        for _ in 0..=chance.below(2) {
            damage(chance, &mut bytes);
        }
    }
    bytes
}

/// Compares `traces` random traces; the first difference ends it.
pub fn run(other: &dyn Calls, traces: usize, seed: u64) -> Result<Tally, String> {
    let mut tally = Tally::default();
    for k in 0..traces {
        let mut chance = Chance::new(seed.wrapping_add(k as u64));
        let bytes = job(&mut chance);
        let found = compare_trace(other, &bytes, &mut chance, &mut tally)
            .and_then(|()| recording::compare(other, &mut chance, &mut tally));
        found.map_err(|difference| format!("seed {}: {difference}", seed.wrapping_add(k as u64)))?;
    }
    tally.traces = traces;
    Ok(tally)
}

/// Each altered answer must be reported.
pub fn self_test(other: &dyn Calls) -> bool {
    altered::ALTERATIONS.iter().all(|&alteration| {
        let altered = altered::Altered { inner: other, alteration };
        let found = run(&altered, 300, 1);
        match &found {
            Err(difference) => println!("{alteration:?}: reported, {difference}"),
            Ok(_) => println!("{alteration:?}: NOT REPORTED"),
        }
        found.is_err()
    })
}
