//! The recorder, from what its state and the lent bytes say, whoever wrote them.

use super::links::Table;
use crate::calls::{refuse, Answer, Recorder, Refusal};
use crate::trace::*;

pub fn open(space: &[u8]) -> (Recorder, Answer<()>) {
    let short = space.len() < TRAILER;
    let recorder = Recorder { closed: short, ..Recorder::default() };
    (recorder, if short { refuse(25) } else { Ok(()) })
}

fn stored<'a>(space: &'a [u8], n: usize) -> impl Iterator<Item = Record> + 'a {
    space.chunks_exact(RECORD).take(n).map(Record::decode)
}

/// 31, were e to begin after the records stored.
fn blocked(space: &[u8], n: usize, e: u16) -> bool {
    let mut table = Table::new();
    for s in stored(space, n) {
        table.take(s);
    }
    table.begin_blocked(e)
}

/// Situations: 0 between event actions, 1 after a join, more inside one. Gives the next one.
fn judge(space: &[u8], n: usize, recorder: &Recorder, r: Record) -> Result<u8, u16> {
    let name = |x: u16| (1..=NAMES as u16).contains(&x);
    let seen = |kind: u8, event: u16| stored(space, n).any(|s| s.kind == kind && s.first == event);
    if !(BEGIN..=WRITE).contains(&r.kind) && !is_send(r.kind) {
        return Err(4);
    }
    let second_good = if r.kind <= END { r.second == 0 } else { name(r.second) };
    if !name(r.first) || !second_good {
        return Err(5);
    }
    let opens = r.kind == BEGIN || r.kind == JOIN;
    if opens == (recorder.situation > 1) || recorder.situation > 0 && r.first != recorder.owner {
        return Err(6);
    }
    if opens && seen(BEGIN, r.first) || starts(r.kind) && seen(BEGIN, r.second) {
        return Err(7);
    }
    if r.kind == BEGIN && stored(space, n).any(|s| is_send(s.kind) && s.second == r.first) && blocked(space, n, r.first) {
        return Err(31);
    }
    if r.kind == JOIN && !seen(END, r.second) {
        return Err(8);
    }
    Ok(match r.kind {
        END => 0,
        JOIN => 1,
        _ => 2,
    })
}

pub fn step(space: &mut [u8], recorder: &mut Recorder, r: Record) -> Answer<()> {
    if recorder.closed {
        return refuse(26);
    }
    let n = (recorder.count as usize).min(MAX_RECORDS);
    let situation = judge(space, n, recorder, r).map_err(|number| Refusal { number, place: n as u16 + 1 })?;
    let at = n * RECORD;
    if n == MAX_RECORDS || space.len() < at + RECORD + TRAILER {
        return refuse(25);
    }
    space[at..at + RECORD].copy_from_slice(&r.encode());
    *recorder = Recorder { count: n as u16 + 1, situation, owner: r.first, closed: false };
    Ok(())
}

pub fn close(space: &mut [u8], recorder: &mut Recorder) -> Answer<usize> {
    if recorder.closed {
        return refuse(26);
    }
    let n = (recorder.count as usize).min(MAX_RECORDS);
    if recorder.situation != 0 {
        return Err(Refusal { number: 9, place: n as u16 });
    }
    let at = n * RECORD;
    if space.len() < at + TRAILER {
        return refuse(25);
    }
    let begins = stored(space, n).filter(|r| r.kind == BEGIN).count();
    space[at..at + TRAILER].copy_from_slice(&trailer(n, begins as u16));
    recorder.closed = true;
    Ok(at + TRAILER)
}
