//! Traces to measure, of any number of records.

use crate::random::Chance;
use crate::trace::*;

pub const SHAPES: [(&str, &str); 18] = [
    ("sparse", "forked chains, many cells, few races"),
    ("dense", "forked chains, four cells, many races"),
    ("unordered", "all event actions unordered, each writes one cell twice"),
    ("reads", "one write, reads in unordered event actions, one write"),
    ("relay", "each event action takes over from the one before by a race: covers as long as the trace"),
    ("mesh", "each event action reads what all before it wrote: covers of every length"),
    ("ordered", "one chain of forks, no race"),
    ("star", "one event action starts all others, each writes one cell twice"),
    ("comb", "a chain of forks, each member starts a side event action that races with the others"),
    ("rounds", "rounds of sixteen event actions, each waits for two of the round before, four cells"),
    ("tree", "a binary tree of forks, each writes a cell of eight"),
    ("grid", "readers of many cells, then a writer of each cell"),
    ("gather", "many roots, one waits for them all, the rest wait for that one"),
    ("fan", "one event action sends to all others on link 0, then again on link 1"),
    ("ladder", "each event action sends to the next two on one link"),
    ("hub", "unordered senders, one that waits for them all and starts others, which send on: every target behind every other"),
    ("late", "unordered senders first, four sends each on four links, all targets later"),
    ("layers", "three layers, the first two send to the next, on two links and on one, order handed up by forks"),
];

/// The shapes with sends.
pub fn has_sends(shape: &str) -> bool {
    matches!(shape, "fan" | "ladder" | "hub" | "late" | "layers")
}

/// Builds the records of one event action after another.
struct Draft {
    records: Vec<Record>,
    event: u16,
    limit: usize,
}

impl Draft {
    fn new(limit: usize) -> Self {
        Draft { records: Vec::with_capacity(limit), event: 0, limit }
    }

    /// The next event action if it fits, with these steps (kind, second).
    fn act(&mut self, joins: &[u16], steps: &[(u8, u16)]) -> bool {
        if self.event as usize == NAMES || self.records.len() + joins.len() + steps.len() + 2 > self.limit {
            return false;
        }
        self.event += 1;
        let event = self.event;
        self.records.extend(joins.iter().map(|&j| Record::new(JOIN, event, j)));
        self.records.push(Record::new(BEGIN, event, 0));
        self.records.extend(steps.iter().map(|&(kind, second)| Record::new(kind, event, second)));
        self.records.push(Record::new(END, event, 0));
        true
    }
}

/// The records of a shape, n of them or a few less.
pub fn records(shape: &str, n: usize) -> Option<Vec<Record>> {
    let mut d = Draft::new(n);
    match shape {
        "sparse" => forked(&mut d, n, Cells::Own),
        "dense" => forked(&mut d, n, Cells::Few(4)),
        "unordered" => while d.act(&[], &[(WRITE, 1), (WRITE, 1)]) {},
        "reads" => {
            d.act(&[], &[(WRITE, 1)]);
            d.limit -= 4;
            while (d.event as usize) < NAMES - 1 && d.act(&[], &[(READ, 1), (READ, 1)]) {}
            d.limit += 4;
            d.act(&[], &[(WRITE, 1)]);
        }
        "relay" => {
            // cell 1 is what is handed over with; cells from 2 on are the flags, used in turn
            let flag = |event: u16| 2 + event % 1000;
            d.act(&[], &[(WRITE, 1), (WRITE, flag(1))]);
            while d.act(&[], &[(READ, flag(d.event)), (READ, 1), (WRITE, flag(d.event + 1))]) {}
        }
        "mesh" => loop {
            let mut steps: Vec<(u8, u16)> = (1..=d.event).rev().map(|before| (READ, before)).collect();
            steps.push((WRITE, d.event + 1));
            if !d.act(&[], &steps) {
                break;
            }
        },
        "ordered" => while d.act(&[], &[(WRITE, 1), (READ, 2), (WRITE, 3), (FORK, d.event + 2)]) {},
        "star" => {
            let m = ((n - 3) / 5).min(NAMES - 1) as u16;
            let steps: Vec<(u8, u16)> = (2..m + 2).map(|v| (FORK, v)).collect();
            d.act(&[], &steps);
            while d.act(&[], &[(WRITE, 1), (WRITE, 1)]) {}
        }
        "comb" => {
            while {
                let e = d.event + 1;
                d.act(&[], &[(FORK, e + 1), (FORK, e + 2), (READ, 3)])
                    && d.act(&[], &[(WRITE, 1 + e % 7), (READ, 1 + (e / 2) % 5)])
            } {}
        }
        "rounds" => {
            let mut chance = Chance::new(7);
            loop {
                let e = d.event;
                let joins: Vec<u16> =
                    if e < 16 { vec![] } else { (0..2).map(|_| (e / 16 * 16 - 15) + chance.below(16) as u16).collect() };
                let steps: Vec<(u8, u16)> =
                    (0..3).map(|_| (if chance.percent(60) { READ } else { WRITE }, 1 + chance.below(4) as u16)).collect();
                if !d.act(&joins, &steps) {
                    break;
                }
            }
        }
        "tree" => {
            while {
                let e = d.event + 1;
                let mut steps = vec![(WRITE, 1 + e % 8)];
                if 2 * e < NAMES as u16 {
                    steps.extend([(FORK, 2 * e), (FORK, 2 * e + 1)]);
                }
                d.act(&[], &steps)
            } {}
        }
        "grid" => {
            let cells = (n / 100).max(1) as u16;
            let steps: Vec<(u8, u16)> = (1..=cells).map(|x| (READ, x)).collect();
            d.limit -= 3 * cells as usize;
            while d.act(&[], &steps) {}
            d.limit += 3 * cells as usize;
            for x in 1..=cells {
                d.act(&[], &[(WRITE, x)]);
            }
        }
        "gather" => {
            let roots = (n / 12) as u16;
            for _ in 0..roots {
                d.act(&[], &[(WRITE, 1)]);
            }
            let joins: Vec<u16> = (1..=roots).collect();
            d.act(&joins, &[(WRITE, 2)]);
            let hub = d.event;
            while d.act(&[hub], &[(WRITE, 2)]) {}
        }
        "fan" => {
            let m = (n / 4).clamp(2, NAMES) as u16;
            let steps: Vec<(u8, u16)> = (2..=m).map(|t| (SEND, t)).chain((2..=m).map(|t| (SEND + 1, t))).collect();
            d.act(&[], &steps);
            while d.act(&[], &[]) {}
        }
        "ladder" => {
            while {
                let e = d.event + 1;
                let steps: Vec<(u8, u16)> =
                    [e + 1, e + 2].into_iter().filter(|&t| t <= NAMES as u16).map(|t| (SEND, t)).collect();
                d.act(&[], &steps)
            } {}
        }
        "hub" => hub(&mut d, (n / 15).clamp(1, NAMES / 4 - 1) as u16),
        "late" => {
            let m = (n / 8) as u16;
            for i in 0..m {
                let steps: Vec<(u8, u16)> = (0..4).map(|l| (SEND + l as u8, 2 * m - (i + 97 * l) % m)).collect();
                d.act(&[], &steps);
            }
            for _ in 0..m {
                d.act(&[], &[]);
            }
        }
        "layers" => {
            let w = (n / 12) as u16;
            for i in 0..w {
                let mut steps = vec![(SEND, w + 1 + i), (SEND + 1, w + 1 + i)];
                if i % 3 != 0 && i + 1 < w {
                    steps.push((FORK, i + 2));
                }
                d.act(&[], &steps);
            }
            for i in 0..w {
                d.act(&[], &[(SEND, 2 * w + 1 + i), (WRITE, 1 + i % 4)]);
            }
            for i in 0..w {
                d.act(&[], &[(READ, 1 + i % 4)]);
            }
        }
        _ => return None,
    }
    Some(d.records)
}

/// m senders, one that waits for them, and m more that it starts; every sender has a target of its own.
fn hub(d: &mut Draft, m: u16) {
    for i in 0..m {
        let target = m + 2 + (m - 1 - i);
        d.act(&[], &[(SEND, target), (SEND, target), (SEND + 1, target)]);
    }
    let joins: Vec<u16> = (1..=m).collect();
    let steps: Vec<(u8, u16)> = (0..m).map(|j| (FORK, 2 * m + 2 + j)).collect();
    d.act(&joins, &steps);
    for _ in 0..m {
        d.act(&[], &[]);
    }
    for j in 0..m {
        d.act(&[], &[(SEND, 3 * m + 2 + j), (SEND + 1, 3 * m + 2 + j)]);
    }
    for _ in 0..m {
        d.act(&[], &[]);
    }
}

enum Cells {
    /// each chain has its own cells, and a few are shared
    Own,
    Few(usize),
}

/// Event actions of 16 records in eight chains of forks, now and then with a join across.
fn forked(d: &mut Draft, n: usize, cells: Cells) {
    const LINES: usize = 8;
    let mut chance = Chance::new(n as u64);
    loop {
        let event = d.event as usize + 1;
        let line = event % LINES;
        let mut joins = Vec::new();
        if event > LINES + 1 && event % 5 == 0 {
            joins.push((event - 1 - chance.below(LINES)) as u16);
        }
        let mut steps = Vec::new();
        for _ in 0..12 {
            let cell = match cells {
                Cells::Own if chance.percent(2) => 1 + chance.below(8),
                Cells::Own => 9 + line * 120 + chance.below(120),
                Cells::Few(k) => 1 + chance.below(k),
            };
            steps.push((if chance.percent(60) { READ } else { WRITE }, cell as u16));
        }
        if event + LINES <= NAMES {
            steps.push((FORK, (event + LINES) as u16));
        }
        if !d.act(&joins, &steps) {
            break;
        }
    }
}
