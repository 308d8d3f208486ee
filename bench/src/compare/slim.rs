//! The compactor: answers and output space, and the slim trace compacted again.

use super::*;

pub fn compare(case: &Case, chance: &mut Chance, tally: &mut Tally) -> Agreed {
    let mut whole = vec![0; case.bytes.len()];
    let needed = Plain.compact(case.bytes, &mut whole).map_or(8, |s| s.length);
    let space = length(chance, needed);
    let mut plain = junk8(chance, space);
    let mut other = plain.clone();
    let answer = Plain.compact(case.bytes, &mut plain);
    tally.call("compact", &answer);
    same("compacting", &answer, &case.other.compact(case.bytes, &mut other))?;
    same_memory("output space after compacting", &plain, &other)?;
    let Ok(slim) = answer else { return Ok(()) };
    tally.dropped += slim.dropped;
    let mut again = vec![0; slim.length];
    let answer = case.other.compact(&other[..slim.length], &mut again);
    same("compacting again", &Ok(SlimAnswer { dropped: 0, ..slim }), &answer)?;
    same_memory("compacted again", &other[..slim.length], &again)
}
