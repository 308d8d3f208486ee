//! Filling and the order question.

use super::*;
use crate::trace::{Record, BEGIN, RECORD, TRAILER};

/// Event numbers to ask about: those that begin, as far as the bytes tell, and a few others.
fn some_event(case: &Case, chance: &mut Chance) -> u16 {
    if chance.percent(3) {
        return chance.pick(&[0, 1, 1024, 1025, 65535]);
    }
    let end = case.bytes.len().saturating_sub(TRAILER);
    let records = end / RECORD;
    let skip = end - records * RECORD;
    let from = if records == 0 { 0 } else { chance.below(records) };
    let later = (from..records).map(|i| Record::decode(&case.bytes[skip + i * RECORD..]));
    later.into_iter().find(|r| r.kind == BEGIN).map_or(1, |r| r.first)
}

pub fn compare(case: &Case, width: usize, events: usize, chance: &mut Chance, tally: &mut Tally) -> Agreed {
    let space = length(chance, events.saturating_mul(width.min(1030)));
    let mut plain = junk16(chance, space);
    let mut other = plain.clone();
    let foreign = plain.clone();
    let answer = Plain.fill(case.bytes, width, &mut plain);
    tally.call("fill", &answer);
    same("filling", &answer, &case.other.fill(case.bytes, width, &mut other))?;
    same_memory("clocks after filling", &plain, &other)?;
    for k in 0..8 {
        let (t, u) = (some_event(case, chance), some_event(case, chance));
        let clocks = if k % 4 == 3 { &foreign } else { &plain };
        let answer = Plain.order(case.bytes, width, clocks, t, u);
        tally.call("order", &answer);
        let given = case.other.order(case.bytes, width, clocks, t, u);
        same(&format!("order of {t} and {u}"), &answer, &given)?;
        if answer.is_err() {
            break;
        }
    }
    Ok(())
}
