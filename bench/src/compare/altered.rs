//! Answers altered on purpose, one thing at a time: comparing must report each.

use crate::calls::*;
use crate::trace::Record;

#[derive(Clone, Copy, Debug, PartialEq)]
pub enum Alteration {
    MarkOfShortList,
    MarkOfAllRaces,
    EntryDropped,
    EntriesExchanged,
    ClockChanged,
    PastTheList,
    WorkSpaceLeft,
    PlaceOfRefusal,
    OrderReversed,
    CoverCutShort,
    KeptEntryDropped,
    OpenForCovered,
    StepNotStored,
    LengthOfTrace,
    DroppedOneMore,
    PastTheSlimTrace,
    SlimTraceChanged,
}

use Alteration::*;

pub const ALTERATIONS: [Alteration; 17] = [
    MarkOfShortList,
    MarkOfAllRaces,
    EntryDropped,
    EntriesExchanged,
    ClockChanged,
    PastTheList,
    WorkSpaceLeft,
    PlaceOfRefusal,
    OrderReversed,
    CoverCutShort,
    KeptEntryDropped,
    OpenForCovered,
    StepNotStored,
    LengthOfTrace,
    DroppedOneMore,
    PastTheSlimTrace,
    SlimTraceChanged,
];

pub struct Altered<'a> {
    pub inner: &'a dyn Calls,
    pub alteration: Alteration,
}

impl Altered<'_> {
    fn is(&self, alteration: Alteration) -> bool {
        self.alteration == alteration
    }

    fn refusal<T>(&self, answer: Answer<T>) -> Answer<T> {
        answer.map_err(|r| if self.is(PlaceOfRefusal) { Refusal { place: r.place + 1, ..r } } else { r })
    }

    fn list(&self, mark: Alteration, answer: Answer<ListAnswer>, work: &mut [u8], list: &mut [u16]) -> Answer<ListAnswer> {
        let Ok(mut given) = answer else { return answer };
        let end = 5 * given.count;
        if given.count > 0 && self.is(mark) {
            list[end - 1] ^= 1;
        }
        if given.count > 0 && self.is(EntryDropped) {
            given.count -= 1;
        }
        if given.count > 1 && self.is(EntriesExchanged) {
            (0..5).for_each(|k| list.swap(end - 10 + k, end - 5 + k));
        }
        if end < list.len() && self.is(PastTheList) {
            list[end] ^= 1;
        }
        if given.events > 0 && self.is(WorkSpaceLeft) {
            work[given.events - 1] = 1;
        }
        Ok(given)
    }
}

impl Calls for Altered<'_> {
    fn read(&self, bytes: &[u8]) -> Answer<ReadAnswer> {
        self.refusal(self.inner.read(bytes))
    }

    fn fill(&self, bytes: &[u8], width: usize, clocks: &mut [u16]) -> Answer<usize> {
        let answer = self.inner.fill(bytes, width, clocks);
        if let (Ok(_), true, Some(last)) = (answer, self.is(ClockChanged), clocks.last_mut()) {
            *last ^= 1;
        }
        answer
    }

    fn order(&self, bytes: &[u8], width: usize, clocks: &[u16], t: u16, u: u16) -> Answer<Relation> {
        let (t, u) = if self.is(OrderReversed) { (u, t) } else { (t, u) };
        self.inner.order(bytes, width, clocks, t, u)
    }

    fn all_races(&self, bytes: &[u8], width: usize, lent: Lent) -> Answer<ListAnswer> {
        let Lent { clocks, work, list } = lent;
        let answer = self.inner.all_races(bytes, width, Lent { clocks, work, list });
        self.list(MarkOfAllRaces, answer, work, list)
    }

    fn short_list(&self, bytes: &[u8], width: usize, lent: Lent) -> Answer<ListAnswer> {
        let Lent { clocks, work, list } = lent;
        let answer = self.inner.short_list(bytes, width, Lent { clocks, work, list });
        self.list(MarkOfShortList, answer, work, list)
    }

    fn ask_pair(&self, bytes: &[u8], width: usize, lent: Lent, a: u16, b: u16) -> Answer<PairAnswer> {
        let mut answer = self.inner.ask_pair(bytes, width, lent, a, b)?;
        answer.count -= (answer.covered && self.is(CoverCutShort)) as usize;
        answer.count -= (!answer.covered && self.is(KeptEntryDropped)) as usize;
        answer.covered &= !self.is(OpenForCovered);
        Ok(answer)
    }

    fn compact(&self, bytes: &[u8], out: &mut [u8]) -> Answer<SlimAnswer> {
        let mut answer = self.inner.compact(bytes, out)?;
        answer.dropped += self.is(DroppedOneMore) as usize;
        if let (true, Some(past)) = (self.is(PastTheSlimTrace), out.get_mut(answer.length)) {
            *past ^= 1;
        }
        if self.is(SlimTraceChanged) {
            out[answer.length / 2] ^= 1;
        }
        Ok(answer)
    }

    fn recorder_open(&self, space: &[u8]) -> (Recorder, Answer<()>) {
        self.inner.recorder_open(space)
    }

    fn recorder_step(&self, space: &mut [u8], recorder: &mut Recorder, record: Record) -> Answer<()> {
        let at = 5 * recorder.count as usize;
        let answer = self.inner.recorder_step(space, recorder, record);
        if answer.is_ok() && self.is(StepNotStored) {
            space[at] ^= 1;
        }
        answer
    }

    fn recorder_close(&self, space: &mut [u8], recorder: &mut Recorder) -> Answer<usize> {
        let answer = self.inner.recorder_close(space, recorder)?;
        Ok(answer + self.is(LengthOfTrace) as usize)
    }
}
