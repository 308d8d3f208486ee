//! A trace to measure, with lent memory for every call, the same for both sides.

use crate::calls::*;
use crate::plain::Plain;
use crate::shapes::records;
use crate::trace::job_file;

/// What is measured. `open` and `covered` are the pair question, about the last short-list entry of that mark.
pub const CALLS: [&str; 7] = ["read", "fill", "short", "all", "open", "covered", "compact"];

pub struct Bed {
    bytes: Vec<u8>,
    clocks: Vec<u16>,
    work: Vec<u8>,
    list: Vec<u16>,
    out: Vec<u8>,
    open: Option<(u16, u16)>,
    covered: Option<(u16, u16)>,
    pub events: usize,
    pub records: usize,
    pub width: usize,
}

/// How many entries the lists have.
pub struct Counts {
    pub short: usize,
    pub open: usize,
    pub all: usize,
}

impl Bed {
    pub fn new(shape: &str, n: usize) -> Option<Bed> {
        let bytes = job_file(&[], &records(shape, n)?);
        let read = Plain.read(&bytes).ok()?;
        let mut clocks = vec![0; read.events * 1024];
        let chains = Plain.fill(&bytes, 1024, &mut clocks).ok()?;
        // the smallest multiple of 32 that suffices
        let width = chains.next_multiple_of(32).max(32);
        clocks.truncate(read.events * width);
        Some(Bed {
            out: vec![0; bytes.len()],
            bytes,
            clocks,
            work: vec![0; read.events],
            list: vec![0; 5 * (read.records * read.records / 2 + 1)],
            open: None,
            covered: None,
            events: read.events,
            records: read.records,
            width,
        })
    }

    /// Finds the pairs to ask about. Gives the short list's entries and how many of them are open.
    pub fn find_pairs(&mut self) -> (usize, usize) {
        let short = self.call(&Plain, "short").unwrap();
        let entries = || self.list[..5 * short].chunks_exact(5);
        let last = |mark: u16| entries().rfind(|e| e[4] == mark).map(|e| (e[0], e[1]));
        let (pairs, open) = ((last(1), last(0)), entries().filter(|e| e[4] == 1).count());
        (self.open, self.covered) = pairs;
        (short, open)
    }

    pub fn counts(&mut self) -> Counts {
        let (short, open) = self.find_pairs();
        Counts { short, open, all: self.call(&Plain, "all").unwrap() }
    }

    /// Is there such a pair to ask about?
    pub fn applies(&self, call: &str) -> bool {
        match call {
            "open" => self.open.is_some(),
            "covered" => self.covered.is_some(),
            _ => true,
        }
    }

    /// One call of one side; a number that it gives, nothing where it is refused or does not apply.
    #[inline]
    pub fn call(&mut self, side: &dyn Calls, call: &str) -> Option<usize> {
        let lent = Lent { clocks: &mut self.clocks, work: &mut self.work, list: &mut self.list };
        let (bytes, width) = (&self.bytes, self.width);
        match call {
            "none" => Some(0),
            "read" => side.read(bytes).ok().map(|a| a.events),
            "fill" => side.fill(bytes, width, lent.clocks).ok(),
            "order" => side.order(bytes, width, lent.clocks, 1, 2).ok().map(|r| r as usize),
            "short" => side.short_list(bytes, width, lent).ok().map(|a| a.count),
            "all" => side.all_races(bytes, width, lent).ok().map(|a| a.count),
            "open" => self.open.and_then(|(a, b)| side.ask_pair(bytes, width, lent, a, b).ok()).map(|a| a.count),
            "covered" => self.covered.and_then(|(a, b)| side.ask_pair(bytes, width, lent, a, b).ok()).map(|a| a.count),
            "compact" => side.compact(bytes, &mut self.out).ok().map(|a| a.dropped),
            _ => None,
        }
    }
}

/// One call alone: instructions are counted from here until it returns, and the trace is built before.
#[inline(never)]
#[no_mangle]
pub fn counted(bed: &mut Bed, side: &dyn Calls, call: &str) -> Option<usize> {
    bed.call(side, call)
}
