//! Counts of what was compared.

use crate::calls::*;
use std::collections::BTreeMap;
use std::fmt;

#[derive(Default)]
pub struct Tally {
    pub traces: usize,
    accepted: usize,
    records: usize,
    longest: usize,
    calls: BTreeMap<&'static str, usize>,
    refusals: BTreeMap<u16, usize>,
    marks: [usize; 2],
    pairs: [usize; 2],
    pub kept: usize,
    pub cover_races: usize,
    pub longest_cover: usize,
    pub dropped: usize,
}

impl Tally {
    pub fn reading(&mut self, answer: &Answer<ReadAnswer>) {
        self.call("read", answer);
        if let Ok(r) = answer {
            self.accepted += 1;
            self.records += r.records;
            self.longest = self.longest.max(r.records);
        }
    }

    pub fn call<T>(&mut self, name: &'static str, answer: &Answer<T>) {
        *self.calls.entry(name).or_default() += 1;
        if let Err(refusal) = answer {
            *self.refusals.entry(refusal.number).or_default() += 1;
        }
    }

    pub fn entries(&mut self, list: &[u16]) {
        for entry in list.chunks_exact(5) {
            self.marks[entry[4] as usize] += 1;
        }
    }

    pub fn pair(&mut self, answer: &PairAnswer) {
        self.pairs[answer.covered as usize] += 1;
    }
}

impl fmt::Display for Tally {
    fn fmt(&self, f: &mut fmt::Formatter) -> fmt::Result {
        writeln!(
            f,
            "traces {}, accepted {}, their records {}, longest {}",
            self.traces, self.accepted, self.records, self.longest
        )?;
        write!(f, "calls:")?;
        for (name, n) in &self.calls {
            write!(f, " {name} {n}")?;
        }
        write!(f, "\nrefusals (number: times):")?;
        for (number, n) in &self.refusals {
            write!(f, " {number}: {n}")?;
        }
        writeln!(f, "\nlist entries: open {}, covered {}", self.marks[1], self.marks[0])?;
        write!(f, "pairs: open {} ({} entries kept), covered {} ", self.pairs[0], self.kept, self.pairs[1])?;
        writeln!(f, "({} races in covers, longest {})", self.cover_races, self.longest_cover)?;
        write!(f, "records dropped {}", self.dropped)
    }
}
