//! The pair question: the arrangement of an open race, or a cover.

use super::candidates::{candidates, precedes, Access, Race};
use super::clocks::Order;
use super::lists::prepare;
use super::reading::{read, Checked};
use crate::calls::{refuse, Answer, Lent, PairAnswer};
use crate::trace::*;
use std::collections::VecDeque;

/// The two records asked about, as a race, first then second.
fn race_of(trace: &Checked, order: &Order, a: u16, b: u16) -> Option<Race> {
    let (ra, rb) = (trace.record(a)?, trace.record(b)?);
    let is_access = |r: Record| matches!(r.kind, READ | WRITE);
    let conflict = is_access(ra) && is_access(rb) && ra.second == rb.second && (ra.kind == WRITE || rb.kind == WRITE);
    if a >= b || !conflict {
        return None;
    }
    let begins = trace.records().take(b as usize).enumerate().filter(|(_, r)| r.kind == BEGIN);
    let (mut row_a, mut row_b) = (0, 0);
    for (row, (i, _)) in begins.enumerate() {
        row_b = row as u16;
        if i < a as usize {
            row_a = row as u16;
        }
    }
    let first = Access { record: a, row: row_a, write: ra.kind == WRITE };
    let second = Access { record: b, row: row_b, write: rb.kind == WRITE };
    (!order.before(row_a, row_b)).then_some(Race { first, second, cell: ra.second })
}

/// Candidates from which paths of candidates lead to b, found backwards; for each the next one of its path, or itself where it ends there.
/// Stops early at one that starts after row `from`, and gives it.
struct Search {
    next: Vec<Option<usize>>,
    hit: Option<usize>,
}

fn search(order: &Order, nodes: &[Race], from: u16, b: Access) -> Search {
    let mut s = Search { next: vec![None; nodes.len()], hit: None };
    let mut unseen: Vec<usize> = Vec::with_capacity(nodes.len());
    let mut queue = VecDeque::new();
    for (i, r) in nodes.iter().enumerate() {
        if precedes(order, r.second, b) {
            s.next[i] = Some(i);
            queue.push_back(i);
        } else {
            unseen.push(i);
        }
    }
    let mut done = vec![false; order.chains.spots.len()];
    while let Some(j) = queue.pop_front() {
        let row = nodes[j].first.row;
        if std::mem::replace(&mut done[row as usize], true) {
            continue;
        }
        if order.before(from, row) {
            s.hit = Some(j);
            return s;
        }
        unseen.retain(|&i| {
            let leads = order.before(nodes[i].second.row, row);
            if leads {
                s.next[i] = Some(j);
                queue.push_back(i);
            }
            !leads
        });
    }
    s
}

/// Entries (event, last record kept) in trace order: the event actions before b's, and before the joined rows from which races lead to it.
fn kept(trace: &Checked, order: &Order, sources: &[u16], b: Access) -> Vec<(u16, u16)> {
    let mut entries = Vec::new();
    let mut row = 0;
    for (r, record) in trace.records().zip(1u16..) {
        if record == b.record {
            entries.push((r.first, b.record));
            break;
        }
        if r.kind == END {
            if order.before(row, b.row) || order.before_joined(row, sources) {
                entries.push((r.first, record));
            }
            row += 1;
        }
    }
    entries
}

pub fn ask_pair(bytes: &[u8], width: usize, lent: Lent, a: u16, b: u16) -> Answer<PairAnswer> {
    let trace = read(bytes)?;
    if trace.record(a).is_none() || trace.record(b).is_none() {
        return refuse(11);
    }
    let order = prepare(&trace, width, lent.clocks, lent.work)?;
    let Some(race) = race_of(&trace, &order, a, b) else { return refuse(12) };
    if lent.list.len() / 2 < trace.events {
        return refuse(24);
    }
    let nodes = candidates(&trace, &order, b);
    let found = search(&order, &nodes, race.first.row, race.second);
    let mut entries = Vec::new();
    if let Some(mut i) = found.hit {
        loop {
            entries.push((nodes[i].first.record, nodes[i].second.record));
            match found.next[i] {
                Some(j) if j != i => i = j,
                _ => break,
            }
        }
    } else {
        let mut starts = vec![false; trace.events];
        for (r, _) in nodes.iter().zip(&found.next).filter(|(_, next)| next.is_some()) {
            starts[r.first.row as usize] = true;
        }
        entries = kept(&trace, &order, &order.joined(&starts), race.second);
    }
    for (entry, &(x, y)) in lent.list.chunks_exact_mut(2).zip(&entries) {
        entry.copy_from_slice(&[x, y]);
    }
    Ok(PairAnswer { covered: found.hit.is_some(), count: entries.len() })
}
