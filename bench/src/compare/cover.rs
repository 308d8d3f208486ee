//! Is a given sequence of entries a cover? By the definition, with happens-before found by a search over forks, sends and joins, without clocks; the
//! link rule is applied until it gives nothing more.

use crate::trace::*;

struct Steps {
    records: Vec<Record>,
    /// before[t][u]: event t happens before event u, or is the same
    before: Vec<Vec<bool>>,
}

fn steps(bytes: &[u8]) -> Steps {
    let end = bytes.len() - TRAILER;
    let distance = u32::from_le_bytes(bytes[end..end + 4].try_into().unwrap()) as usize;
    let records: Vec<Record> = bytes[end - distance..end].chunks_exact(RECORD).map(Record::decode).collect();
    let mut next: Vec<Vec<usize>> = vec![Vec::new(); NAMES + 1];
    for r in &records {
        match r.kind {
            JOIN => next[r.second as usize].push(r.first as usize),
            kind if starts(kind) => next[r.first as usize].push(r.second as usize),
            _ => {}
        }
    }
    let mut before = closed(&records, &next);
    while link_rule(&records, &before, &mut next) {
        before = closed(&records, &next);
    }
    Steps { records, before }
}

/// Where one send is before another on the same link, the first's target is before the second's; false where that says nothing new.
fn link_rule(records: &[Record], before: &[Vec<bool>], next: &mut [Vec<usize>]) -> bool {
    let begins = |e: u16| !before[e as usize].is_empty();
    let sends: Vec<&Record> = records.iter().filter(|r| is_send(r.kind) && begins(r.second)).collect();
    let mut more = false;
    for (j, s) in sends.iter().enumerate() {
        for r in &sends[..j] {
            let (t, u) = (r.second as usize, s.second as usize);
            if r.kind == s.kind && before[r.first as usize][s.first as usize] && !before[t][u] {
                next[t].push(u);
                more = true;
            }
        }
    }
    more
}

/// What each event that begins happens before.
fn closed(records: &[Record], next: &[Vec<usize>]) -> Vec<Vec<bool>> {
    let mut before = vec![Vec::new(); NAMES + 1];
    for r in records.iter().filter(|r| r.kind == BEGIN) {
        let start = r.first as usize;
        let mut reached = vec![false; NAMES + 1];
        let mut stack = vec![start];
        while let Some(t) = stack.pop() {
            if !std::mem::replace(&mut reached[t], true) {
                stack.extend(&next[t]);
            }
        }
        before[start] = reached;
    }
    before
}

impl Steps {
    fn at(&self, number: u16) -> Option<Record> {
        self.records.get((number as usize).checked_sub(1)?).copied()
    }

    fn events_ordered(&self, t: u16, u: u16) -> bool {
        self.before[t as usize][u as usize]
    }

    fn is_race(&self, a: u16, b: u16) -> bool {
        let (Some(x), Some(y)) = (self.at(a), self.at(b)) else { return false };
        let accesses = [x, y].iter().all(|r| r.kind == READ || r.kind == WRITE);
        let conflict = accesses && x.second == y.second && (x.kind == WRITE || y.kind == WRITE);
        a < b && conflict && !self.events_ordered(x.first, y.first)
    }

    fn event(&self, number: u16) -> u16 {
        self.at(number).unwrap().first
    }
}

/// Do the entries (first, second) cover the race (a, b)?
pub fn check(bytes: &[u8], a: u16, b: u16, entries: &[u16]) -> Result<(), String> {
    let s = steps(bytes);
    if entries.is_empty() {
        return Err("no entry".into());
    }
    let mut from = s.event(a);
    let mut last = 0;
    for entry in entries.chunks_exact(2) {
        let (c, d) = (entry[0], entry[1]);
        if !s.is_race(c, d) {
            return Err(format!("{c} {d} is no race"));
        }
        if !s.events_ordered(from, s.event(c)) {
            return Err(format!("event {from} is not before that of {c}"));
        }
        from = s.event(d);
        last = d;
    }
    let end = s.event(b);
    let before_b = if from == end { last < b } else { s.events_ordered(from, end) };
    if before_b {
        Ok(())
    } else {
        Err(format!("{last} is not before {b}"))
    }
}
