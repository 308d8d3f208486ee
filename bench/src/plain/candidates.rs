//! Races: the reduced starting set (UncoveredCandidates, section 4.2, as corrected), found in one pass, so in order of the second access.

use super::clocks::Order;
use super::reading::Checked;
use crate::trace::*;

/// A read or a write: its record number and the row of its event action.
#[derive(Clone, Copy)]
pub struct Access {
    pub record: u16,
    pub row: u16,
    pub write: bool,
}

#[derive(Clone, Copy)]
pub struct Race {
    pub first: Access,
    pub second: Access,
    pub cell: u16,
}

impl Race {
    /// 1 write then write, 2 write then read, 3 read then write.
    pub fn shape(&self) -> u16 {
        match (self.first.write, self.second.write) {
            (true, true) => 1,
            (true, false) => 2,
            _ => 3,
        }
    }
}

/// Record d comes before record b by order: in one event action by trace, else as those are ordered.
#[inline]
pub fn precedes(order: &Order, d: Access, b: Access) -> bool {
    if d.row == b.row {
        d.record < b.record
    } else {
        order.before(d.row, b.row)
    }
}

/// The reads and writes of a trace with their cells, in trace order.
pub fn accesses<'a>(trace: &Checked<'a>) -> impl Iterator<Item = (Access, u16)> + 'a {
    let mut begun = 0u16;
    trace.records().zip(1u16..).filter_map(move |(r, record)| {
        match r.kind {
            BEGIN => begun += 1,
            READ | WRITE => return Some((Access { record, row: begun - 1, write: r.kind == WRITE }, r.second)),
            _ => {}
        }
        None
    })
}

/// Neighbouring accesses of each cell that race, those with a second access before record `end`.
pub fn candidates(trace: &Checked, order: &Order, end: u16) -> Vec<Race> {
    let mut last_write: Vec<Option<Access>> = vec![None; NAMES + 1];
    let mut reads_since: Vec<Vec<Access>> = vec![Vec::new(); NAMES + 1];
    let mut races = Vec::new();
    for (second, cell) in accesses(trace).take_while(|(x, _)| x.record < end) {
        let mut check = |first: Access| {
            if !order.before(first.row, second.row) {
                races.push(Race { first, second, cell });
            }
        };
        let c = cell as usize;
        if let Some(w) = last_write[c] {
            check(w);
        }
        if second.write {
            reads_since[c].drain(..).for_each(check);
            last_write[c] = Some(second);
        } else {
            reads_since[c].push(second);
        }
    }
    races
}
