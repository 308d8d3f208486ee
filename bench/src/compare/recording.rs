//! The recorder: random steps, most of them in place, some over altered bytes or from an altered state.

use super::*;
use crate::trace::*;

/// One side's recorder and its bytes.
#[derive(Clone, Debug, PartialEq)]
struct Side {
    recorder: Recorder,
    space: Vec<u8>,
}

fn some_record(chance: &mut Chance, like: Record, sends: bool) -> Record {
    let mut r = like;
    match chance.below(4) {
        0 if sends => r.kind = chance.pick(&[15, 16, 17, 18, 19, 20]),
        0 => r.kind = chance.below(9) as u8,
        1 => r.first = chance.pick(&[0, 1, 2, 3, 1024, 1025, 65535]),
        2 => r.second = chance.pick(&[0, 1, 2, 3, 1024, 1025, 65535]),
        _ => r = Record::new(chance.below(7) as u8, chance.below(4) as u16, chance.below(4) as u16),
    }
    r
}

/// Somebody else alters the bytes, or the state; the same on both sides.
fn alter(chance: &mut Chance, side: &mut Side) {
    if chance.percent(50) && !side.space.is_empty() {
        let i = chance.below(side.space.len());
        side.space[i] = chance.below(8) as u8;
        return;
    }
    match chance.below(3) {
        0 => side.recorder.count = chance.pick(&[0, 1, 5, 4095, 4096, 4097, 65535]),
        1 => side.recorder.situation = chance.pick(&[0, 1, 2, 3, 255]),
        _ => side.recorder.owner = chance.pick(&[0, 1, 2, 1024, 1025]),
    }
}

fn agree(what: &str, plain: &Side, other: &Side) -> Agreed {
    same(&format!("{what}, state"), &plain.recorder, &other.recorder)?;
    same_memory(&format!("{what}, bytes"), &plain.space, &other.space)
}

fn close(other: &dyn Calls, plain: &mut Side, side: &mut Side, tally: &mut Tally) -> Result<Answer<usize>, String> {
    let answer = Plain.recorder_close(&mut plain.space, &mut plain.recorder);
    tally.call("close", &answer);
    same("closing", &answer, &other.recorder_close(&mut side.space, &mut side.recorder))?;
    agree("closing", plain, side)?;
    Ok(answer)
}

pub fn compare(other: &dyn Calls, chance: &mut Chance, tally: &mut Tally) -> Agreed {
    let longest = chance.pick(&[10, 30, 60, 60, 200, 4096]);
    let style = style(chance, longest);
    let mut wanted = records(chance, &style);
    unblock(chance, &mut wanted, 50);
    let needed = wanted.len() * RECORD + TRAILER;
    let space = if chance.percent(5) { chance.below(20) } else { length(chance, needed) };
    let space = junk8(chance, space);
    let (recorder, answer) = Plain.recorder_open(&space);
    tally.call("open", &answer);
    same("opening", &(recorder, answer), &other.recorder_open(&space))?;
    let mut plain = Side { recorder, space };
    let mut side = plain.clone();
    let mut honest = true;
    // over altered bytes 31 is what the product's own definition says of them: compared only where there is no send
    let altering = style.sends == 0 && chance.percent(40);
    let wrong = chance.pick(&[0, 0, 3, 20]);
    for r in wanted {
        while chance.percent(wrong) {
            let r = some_record(chance, r, !altering);
            step(other, &mut plain, &mut side, r, tally)?;
        }
        if altering && chance.percent(5) {
            alter(chance, &mut plain);
            side = plain.clone();
            honest = false;
        }
        if chance.below(4000) == 0 {
            let _refused_inside = close(other, &mut plain, &mut side, tally)?;
        }
        step(other, &mut plain, &mut side, r, tally)?;
    }
    let closed = close(other, &mut plain, &mut side, tally)?;
    let _closed_already = close(other, &mut plain, &mut side, tally)?;
    if let (Ok(length), true) = (closed, honest) {
        let read = other.read(&side.space[..length]);
        same("a closed trace, read", &Plain.read(&plain.space[..length]), &read)?;
        same("records of a closed trace", &Ok(side.recorder.count as usize), &read.map(|r| r.records))?;
    }
    Ok(())
}

fn step(other: &dyn Calls, plain: &mut Side, side: &mut Side, r: Record, tally: &mut Tally) -> Agreed {
    let answer = Plain.recorder_step(&mut plain.space, &mut plain.recorder, r);
    tally.call("step", &answer);
    same("a step", &answer, &other.recorder_step(&mut side.space, &mut side.recorder, r))?;
    // all bytes are compared at closing; here those about the record
    let at = (plain.recorder.count as usize).saturating_sub(1) * RECORD;
    let about = at.min(plain.space.len())..(at + 2 * RECORD).min(plain.space.len());
    same("a step, state", &plain.recorder, &side.recorder)?;
    same_memory("a step, bytes", &plain.space[about.clone()], &side.space[about])
}
