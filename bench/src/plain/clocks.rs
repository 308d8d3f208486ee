//! Chain decomposition and vector clocks (section 4.1.4 of the paper), greedy: the first chain whose last member happens before.

use super::reading::Checked;
use crate::calls::{refuse, Answer, Refusal};
use crate::trace::*;

/// The chain of a row, and its own entry there.
#[derive(Clone, Copy)]
pub struct Spot {
    pub chain: u16,
    pub tick: u16,
}

/// What filling finds beside the clocks.
pub struct Chains {
    pub spots: Vec<Spot>,
    pub used: usize,
}

pub fn check_space(width: usize, events: usize, space: usize) -> Answer<()> {
    if !(1..=NAMES).contains(&width) || space < events * width {
        return refuse(21);
    }
    Ok(())
}

/// Predecessors of the events that have not begun yet: per event a linked list of rows.
struct Waiting {
    head: [u32; NAMES + 1],
    links: Vec<(u16, u32)>,
}

impl Waiting {
    fn new() -> Self {
        Waiting { head: [0; NAMES + 1], links: Vec::new() }
    }

    fn add(&mut self, event: u16, row: u16) {
        let head = &mut self.head[event as usize];
        self.links.push((row, *head));
        *head = self.links.len() as u32;
    }

    fn rows(&self, event: u16) -> impl Iterator<Item = usize> + '_ {
        let mut at = self.head[event as usize];
        std::iter::from_fn(move || {
            let (row, next) = self.links[(at as usize).checked_sub(1)?];
            at = next;
            Some(row as usize)
        })
    }
}

/// Raises entries to those of another row.
fn raise(row: &mut [u16], other: &[u16]) {
    for (x, y) in row.iter_mut().zip(other) {
        *x = (*x).max(*y);
    }
}

/// Fills one clock row per event action, in begin order.
pub fn fill(trace: &Checked, width: usize, clocks: &mut [u16]) -> Answer<Chains> {
    check_space(width, trace.events, clocks.len())?;
    let clocks = &mut clocks[..trace.events * width];
    let mut row_of = [0u16; NAMES + 1];
    let mut event_of: Vec<u16> = Vec::with_capacity(trace.events);
    let mut waiting = Waiting::new();
    let mut chains = Chains { spots: Vec::with_capacity(trace.events), used: 0 };
    let mut members = vec![0u16; width];
    for (i, r) in trace.records().enumerate() {
        match r.kind {
            FORK if trace.table.is_none() => waiting.add(r.second, row_of[r.first as usize]),
            JOIN if trace.table.is_none() => waiting.add(r.first, row_of[r.second as usize]),
            BEGIN => {
                let row = chains.spots.len();
                row_of[r.first as usize] = row as u16;
                let (before, rest) = clocks.split_at_mut(row * width);
                let new = &mut rest[..width];
                new.fill(0);
                for p in waiting.rows(r.first) {
                    raise(new, &before[p * width..][..chains.used]);
                }
                if let Some(table) = &trace.table {
                    // each row before leaves its own entry at its chain, the last one the largest
                    for (spot, _) in chains.spots.iter().zip(&event_of).filter(|(_, &t)| table.before(t, r.first)) {
                        new[spot.chain as usize] = spot.tick;
                    }
                }
                event_of.push(r.first);
                // The last member of chain c happens before the new one when all its members are counted.
                let counted = new[..chains.used].iter().zip(&members[..chains.used]);
                let free = counted.into_iter().position(|(x, y)| x == y);
                let c = free.unwrap_or(chains.used);
                if c == width {
                    clocks.fill(0);
                    return Err(Refusal { number: 23, place: i as u16 + 1 });
                }
                chains.used = chains.used.max(c + 1);
                members[c] += 1;
                new[c] = members[c];
                chains.spots.push(Spot { chain: c as u16, tick: members[c] });
            }
            _ => {}
        }
    }
    Ok(chains)
}

/// Filled clocks: the order question in constant time.
pub struct Order<'a> {
    pub clocks: &'a [u16],
    pub width: usize,
    pub chains: Chains,
}

impl Order<'_> {
    /// Row t happens before row u, or is the same.
    #[inline]
    pub fn before(&self, t: u16, u: u16) -> bool {
        let Spot { chain, tick } = self.chains.spots[t as usize];
        tick <= self.clocks[u as usize * self.width + chain as usize]
    }

    /// The largest of the rows that are marked, entry by entry.
    pub fn joined(&self, marked: &[bool]) -> Vec<u16> {
        let mut all = vec![0; self.chains.used];
        for (row, _) in self.clocks.chunks_exact(self.width).zip(marked).filter(|(_, marked)| **marked) {
            raise(&mut all, row);
        }
        all
    }

    /// Row t happens before one of the joined rows, or is one.
    #[inline]
    pub fn before_joined(&self, t: u16, joined: &[u16]) -> bool {
        let Spot { chain, tick } = self.chains.spots[t as usize];
        tick <= joined[chain as usize]
    }
}
