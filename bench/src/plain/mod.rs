//! The published algorithm, plainly: chain clocks (4.1.4), candidates (4.2) and the removal of covered ones in two steps (4.3).

mod candidates;
mod clocks;
mod compactor;
mod links;
mod lists;
mod pair;
mod reading;
mod recorder;
mod removal;

use crate::calls::*;
use crate::trace::{Record, BEGIN};

pub struct Plain;

impl Calls for Plain {
    fn read(&self, bytes: &[u8]) -> Answer<ReadAnswer> {
        let trace = reading::read(bytes)?;
        Ok(ReadAnswer { start: trace.start, records: trace.len(), events: trace.events })
    }

    fn fill(&self, bytes: &[u8], width: usize, clocks: &mut [u16]) -> Answer<usize> {
        let trace = reading::read(bytes)?;
        Ok(clocks::fill(&trace, width, clocks)?.used)
    }

    /// Chains are taken from the trace, and the lent clocks compared whatever they hold.
    fn order(&self, bytes: &[u8], width: usize, clocks: &[u16], t: u16, u: u16) -> Answer<Relation> {
        let trace = reading::read(bytes)?;
        let row = |event: u16| trace.records().filter(|r| r.kind == BEGIN).position(|r| r.first == event);
        let (Some(t), Some(u)) = (row(t), row(u)) else { return refuse(11) };
        clocks::check_space(width, trace.events, clocks.len())?;
        let spots = clocks::fill(&trace, width, &mut vec![0; trace.events * width])?.spots;
        let before = |t: usize, u: usize| {
            let chain = spots[t].chain as usize;
            clocks[t * width + chain] <= clocks[u * width + chain]
        };
        Ok(match () {
            _ if t == u => Relation::Same,
            _ if before(t, u) => Relation::Before,
            _ if before(u, t) => Relation::After,
            _ => Relation::Unordered,
        })
    }

    fn all_races(&self, bytes: &[u8], width: usize, lent: Lent) -> Answer<ListAnswer> {
        lists::all_races(bytes, width, lent)
    }

    fn short_list(&self, bytes: &[u8], width: usize, lent: Lent) -> Answer<ListAnswer> {
        lists::short_list(bytes, width, lent)
    }

    fn ask_pair(&self, bytes: &[u8], width: usize, lent: Lent, a: u16, b: u16) -> Answer<PairAnswer> {
        pair::ask_pair(bytes, width, lent, a, b)
    }

    fn compact(&self, bytes: &[u8], out: &mut [u8]) -> Answer<SlimAnswer> {
        compactor::compact(bytes, out)
    }

    fn recorder_open(&self, space: &[u8]) -> (Recorder, Answer<()>) {
        recorder::open(space)
    }

    fn recorder_step(&self, space: &mut [u8], recorder: &mut Recorder, record: Record) -> Answer<()> {
        recorder::step(space, recorder, record)
    }

    fn recorder_close(&self, space: &mut [u8], recorder: &mut Recorder) -> Answer<usize> {
        recorder::close(space, recorder)
    }
}
