//! The calls that both sides answer, with the same lent memory and the same answers.

#[derive(Clone, Copy, Debug, PartialEq, Eq)]
pub struct Refusal {
    pub number: u16,
    pub place: u16,
}

pub type Answer<T> = Result<T, Refusal>;

/// A refusal that concerns no record.
pub fn refuse<T>(number: u16) -> Answer<T> {
    Err(Refusal { number, place: 0 })
}

#[derive(Clone, Copy, Debug, PartialEq, Eq)]
pub struct ReadAnswer {
    pub start: usize,
    pub records: usize,
    pub events: usize,
}

#[derive(Clone, Copy, Debug, PartialEq, Eq)]
pub struct ListAnswer {
    pub events: usize,
    pub records: usize,
    pub chains: usize,
    pub count: usize,
}

#[derive(Clone, Copy, Debug, PartialEq, Eq)]
pub struct PairAnswer {
    pub covered: bool,
    pub count: usize,
}

/// The slim trace: its length in bytes, and how many records it leaves out.
#[derive(Clone, Copy, Debug, PartialEq, Eq)]
pub struct SlimAnswer {
    pub length: usize,
    pub dropped: usize,
}

/// The recorder's state, as the caller keeps it.
#[derive(Clone, Copy, Debug, PartialEq, Eq, Default)]
pub struct Recorder {
    pub count: u16,
    pub situation: u8,
    pub owner: u16,
    pub closed: bool,
}

/// Which way round two event actions stand, by the numbers of the calls from C.
#[derive(Clone, Copy, Debug, PartialEq, Eq)]
pub enum Relation {
    Same = 1,
    Before = 2,
    After = 3,
    Unordered = 4,
}

/// Memory lent to a list or a pair question.
pub struct Lent<'a> {
    pub clocks: &'a mut [u16],
    pub work: &'a mut [u8],
    pub list: &'a mut [u16],
}

pub trait Calls {
    fn read(&self, bytes: &[u8]) -> Answer<ReadAnswer>;
    fn fill(&self, bytes: &[u8], width: usize, clocks: &mut [u16]) -> Answer<usize>;
    fn order(&self, bytes: &[u8], width: usize, clocks: &[u16], t: u16, u: u16) -> Answer<Relation>;
    fn all_races(&self, bytes: &[u8], width: usize, lent: Lent) -> Answer<ListAnswer>;
    fn short_list(&self, bytes: &[u8], width: usize, lent: Lent) -> Answer<ListAnswer>;
    fn ask_pair(&self, bytes: &[u8], width: usize, lent: Lent, a: u16, b: u16) -> Answer<PairAnswer>;
    fn compact(&self, bytes: &[u8], out: &mut [u8]) -> Answer<SlimAnswer>;
    fn recorder_open(&self, space: &[u8]) -> (Recorder, Answer<()>);
    fn recorder_step(&self, space: &mut [u8], recorder: &mut Recorder, record: crate::trace::Record) -> Answer<()>;
    fn recorder_close(&self, space: &mut [u8], recorder: &mut Recorder) -> Answer<usize>;
}
