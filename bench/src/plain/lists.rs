//! The short list and the list of all races, with marks.

use super::candidates::{accesses, candidates, Access, Race};
use super::clocks::{check_space, fill, Order};
use super::reading::{read, Checked};
use super::removal::{open_marks, Graph};
use crate::calls::{refuse, Answer, Lent, ListAnswer};
use crate::trace::NAMES;

/// Reads and fills for a list or a pair question; refusals 1 to 10 and 21 to 23. The plain side needs no work space, but leaves it as agreed.
pub fn prepare<'a>(trace: &Checked, width: usize, clocks: &'a mut [u16], work: &mut [u8]) -> Answer<Order<'a>> {
    check_space(width, trace.events, clocks.len())?;
    let Some(work) = work.get_mut(..trace.events) else { return refuse(22) };
    work.fill(0);
    let chains = fill(trace, width, clocks)?;
    Ok(Order { clocks, width, chains })
}

fn write_entry(entry: &mut [u16], r: &Race, open: bool) {
    entry.copy_from_slice(&[r.first.record, r.second.record, r.cell, r.shape(), open as u16]);
}

fn answer(trace: &Checked, order: &Order, count: usize) -> ListAnswer {
    ListAnswer { events: trace.events, records: trace.len(), chains: order.chains.used, count }
}

pub fn short_list(bytes: &[u8], width: usize, lent: Lent) -> Answer<ListAnswer> {
    let trace = read(bytes)?;
    let order = prepare(&trace, width, lent.clocks, lent.work)?;
    let races = candidates(&trace, &order, u16::MAX);
    if lent.list.len() / 5 < races.len() {
        return refuse(24);
    }
    let open = open_marks(&order, &races);
    for ((entry, r), open) in lent.list.chunks_exact_mut(5).zip(&races).zip(open) {
        write_entry(entry, r, open);
    }
    Ok(answer(&trace, &order, races.len()))
}

/// Every race, ordered by second record, then first.
fn races(trace: &Checked, order: &Order) -> Vec<Race> {
    let mut all: Vec<Vec<Access>> = vec![Vec::new(); NAMES + 1];
    let mut writes: Vec<Vec<Access>> = vec![Vec::new(); NAMES + 1];
    let mut races = Vec::new();
    for (second, cell) in accesses(trace) {
        let (all, writes) = (&mut all[cell as usize], &mut writes[cell as usize]);
        let earlier = if second.write { &*all } else { &*writes };
        let unordered = earlier.iter().filter(|a| !order.before(a.row, second.row));
        races.extend(unordered.map(|&first| Race { first, second, cell }));
        all.push(second);
        if second.write {
            writes.push(second);
        }
    }
    races
}

pub fn all_races(bytes: &[u8], width: usize, lent: Lent) -> Answer<ListAnswer> {
    let trace = read(bytes)?;
    let order = prepare(&trace, width, lent.clocks, lent.work)?;
    let races = races(&trace, &order);
    if lent.list.len() / 5 < races.len() {
        return refuse(24);
    }
    let (graph, _) = Graph::new(&order, &candidates(&trace, &order, u16::MAX));
    let mut entries = lent.list.chunks_exact_mut(5);
    for group in races.chunk_by(|r, s| r.second.record == s.second.record) {
        let sources = graph.sources(group[0].second);
        for (r, entry) in group.iter().zip(&mut entries) {
            write_entry(entry, r, !order.before_joined(r.first.row, &sources));
        }
    }
    Ok(answer(&trace, &order, races.len()))
}
