//! Both lists and the pair question: answers, clocks, work space, list space.

use super::*;
use crate::trace::MAX_RECORDS;

/// Lent memory of one side.
#[derive(Clone)]
struct Memory {
    clocks: Vec<u16>,
    work: Vec<u8>,
    list: Vec<u16>,
}

impl Memory {
    fn new(chance: &mut Chance, width: usize, events: usize, list: usize) -> Self {
        let clocks = if chance.percent(90) { events * width.min(1030) } else { length(chance, events * width.min(1030)) };
        let work = if chance.percent(90) { events + chance.below(3) } else { length(chance, events) };
        Memory { clocks: junk16(chance, clocks), work: junk8(chance, work), list: junk16(chance, list) }
    }

    fn lend(&mut self) -> Lent<'_> {
        Lent { clocks: &mut self.clocks, work: &mut self.work, list: &mut self.list }
    }
}

type ListCall = fn(&dyn Calls, &[u8], usize, Lent) -> Answer<ListAnswer>;

fn all_races(side: &dyn Calls, bytes: &[u8], width: usize, lent: Lent) -> Answer<ListAnswer> {
    side.all_races(bytes, width, lent)
}

fn short_list(side: &dyn Calls, bytes: &[u8], width: usize, lent: Lent) -> Answer<ListAnswer> {
    side.short_list(bytes, width, lent)
}

/// The list with all the space that it can need; nothing where the trace is refused.
fn whole(call: ListCall, bytes: &[u8]) -> Vec<u16> {
    let Ok(read) = Plain.read(bytes) else { return Vec::new() };
    let most = read.records * read.records / 2 + 1;
    let mut m = Memory { clocks: vec![0; read.events * 1024], work: vec![0; read.events], list: vec![0; 5 * most] };
    let count = call(&Plain, bytes, 1024, m.lend()).map_or(0, |a| a.count);
    m.list.truncate(5 * count);
    m.list
}

/// A list: the space that it needs is known from the list with all space.
fn compare_list(
    name: &'static str,
    call: ListCall,
    case: &Case,
    width: usize,
    events: usize,
    entries: usize,
    chance: &mut Chance,
    tally: &mut Tally,
) -> Agreed {
    let space = length(chance, 5 * entries);
    let mut plain = Memory::new(chance, width, events, space);
    let mut other = plain.clone();
    let answer = call(&Plain, case.bytes, width, plain.lend());
    tally.call(name, &answer);
    same(name, &answer, &call(case.other, case.bytes, width, other.lend()))?;
    same_memory(&format!("{name}, list space"), &plain.list, &other.list)?;
    same_memory(&format!("{name}, clocks"), &plain.clocks, &other.clocks)?;
    same_memory(&format!("{name}, work space"), &plain.work, &other.work)?;
    if let Ok(answer) = answer {
        tally.entries(&plain.list[..5 * answer.count]);
    }
    Ok(())
}

/// Records to ask about: mostly a race, else any.
fn some_pair(all: &[u16], records: usize, chance: &mut Chance) -> (u16, u16) {
    let races = all.len() / 5;
    if races > 0 && chance.percent(85) {
        let at = 5 * chance.below(races);
        return (all[at], all[at + 1]);
    }
    let any = |chance: &mut Chance| match chance.below(12) {
        0 => chance.pick(&[0, 65535, records as u16 + 1, MAX_RECORDS as u16 + 1]),
        _ => chance.below(records.max(1)) as u16 + 1,
    };
    (any(chance), any(chance))
}

fn compare_pair(case: &Case, width: usize, events: usize, (a, b): (u16, u16), chance: &mut Chance, tally: &mut Tally) -> Agreed {
    let space = if chance.percent(85) { 2 * events + chance.below(5) } else { length(chance, 2 * events) };
    let mut plain = Memory::new(chance, width, events, space);
    let mut other = plain.clone();
    let before = plain.list.clone();
    let answer = Plain.ask_pair(case.bytes, width, plain.lend(), a, b);
    tally.call("pair", &answer);
    let given = case.other.ask_pair(case.bytes, width, other.lend(), a, b);
    let what = |x: &str| format!("pair {a} {b}{x}");
    same_memory(&what(", clocks"), &plain.clocks, &other.clocks)?;
    same_memory(&what(", work space"), &plain.work, &other.work)?;
    match (answer, given) {
        (Ok(p), Ok(o)) if p.covered && o.covered => {
            // the one free part: each side's entries must be a cover
            for (side, answer, list) in [("plain", p, &plain.list), ("other", o, &other.list)] {
                if 2 * answer.count > list.len() {
                    return Err(what(&format!(": {side} counts {} entries", answer.count)));
                }
                let (entries, rest) = list.split_at(2 * answer.count);
                cover::check(case.bytes, a, b, entries).map_err(|e| what(&format!(": no cover by {side}: {e}")))?;
                same_memory(&what(", list space past the cover"), &before[2 * answer.count..], rest)?;
            }
            tally.cover_races += o.count;
            tally.longest_cover = tally.longest_cover.max(o.count);
        }
        (p, o) => {
            same(&what(""), &p, &o)?;
            same_memory(&what(", list space"), &plain.list, &other.list)?;
            tally.kept += p.map_or(0, |p| p.count);
        }
    }
    if let Ok(answer) = answer {
        tally.pair(&answer);
    }
    Ok(())
}

pub fn compare(case: &Case, width: usize, events: usize, chance: &mut Chance, tally: &mut Tally) -> Agreed {
    let all = whole(all_races, case.bytes);
    let short = whole(short_list, case.bytes);
    compare_list("all races", all_races, case, width, events, all.len() / 5, chance, tally)?;
    compare_list("short list", short_list, case, width, events, short.len() / 5, chance, tally)?;
    let read = Plain.read(case.bytes);
    let (records, questions) = read.map_or((3, 1), |r| (r.records, 6));
    for _ in 0..questions {
        compare_pair(case, width, events, some_pair(&all, records, chance), chance, tally)?;
    }
    Ok(())
}
