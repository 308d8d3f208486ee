//! Happens-before where there are sends, as a table: for each event a row of bits, the events that happen before it. Rows of events not yet begun
//! gather what forks, sends and joins bring them; at its begin an event takes itself, and the rows of the targets that its links put it behind.

use crate::trace::*;

const WORDS: usize = (NAMES + 64) / 64;

#[derive(Clone, Copy)]
struct Send {
    sender: u16,
    target: u16,
    link: usize,
}

#[derive(Clone)]
pub struct Table {
    rows: Vec<[u64; WORDS]>,
    begun: [u64; WORDS],
    sends: Vec<Send>,
    /// one more than the place in `sends` of the last send to each event, 0 where there is none
    last: Vec<usize>,
}

fn has(set: &[u64; WORDS], x: u16) -> bool {
    set[x as usize / 64] >> (x % 64) & 1 == 1
}

fn put(set: &mut [u64; WORDS], x: u16) {
    set[x as usize / 64] |= 1 << (x % 64);
}

fn join(set: &mut [u64; WORDS], other: &[u64; WORDS]) {
    for (x, y) in set.iter_mut().zip(other) {
        *x |= y;
    }
}

impl Table {
    pub fn new() -> Self {
        Table { rows: vec![[0; WORDS]; NAMES + 1], begun: [0; WORDS], sends: Vec::new(), last: vec![0; NAMES + 1] }
    }

    fn link(&mut self, from: u16, to: u16) {
        let row = self.rows[from as usize];
        join(&mut self.rows[to as usize], &row);
    }

    /// The row of e at its begin, or nothing where a link puts it behind another target that has not begun (31).
    fn row_at_begin(&self, e: u16) -> Option<[u64; WORDS]> {
        let mut row = self.rows[e as usize];
        put(&mut row, e);
        let mut reached = [[0; WORDS]; 4];
        for s in self.sends[..self.last[e as usize]].iter().rev() {
            if s.target == e {
                join(&mut reached[s.link], &self.rows[s.sender as usize]);
            } else if has(&reached[s.link], s.sender) {
                if !has(&self.begun, s.target) {
                    return None;
                }
                if !has(&row, s.target) {
                    join(&mut row, &self.rows[s.target as usize]);
                }
            }
        }
        Some(row)
    }

    pub fn begin_blocked(&self, e: u16) -> bool {
        self.row_at_begin(e).is_none()
    }

    /// Takes a record that passes 4 to 8; false where 31 refuses it. Altered bytes of a recorder may name no event: such a record links nothing.
    pub fn take(&mut self, r: Record) -> bool {
        if self.rows.len() <= r.first.max(r.second) as usize {
            return true;
        }
        match r.kind {
            BEGIN => {
                let Some(row) = self.row_at_begin(r.first) else { return false };
                self.rows[r.first as usize] = row;
                put(&mut self.begun, r.first);
            }
            JOIN => self.link(r.second, r.first),
            kind if starts(kind) => {
                self.link(r.first, r.second);
                if is_send(kind) {
                    self.sends.push(Send { sender: r.first, target: r.second, link: (kind - SEND) as usize });
                    self.last[r.second as usize] = self.sends.len();
                }
            }
            _ => {}
        }
        true
    }

    /// Event t happens before event u, or is the same.
    pub fn before(&self, t: u16, u: u16) -> bool {
        has(&self.rows[u as usize], t)
    }
}
