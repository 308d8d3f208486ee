//! Trace bytes: records of five bytes, then a trailer of eight that points back to record 1.

pub const BEGIN: u8 = 1;
pub const END: u8 = 2;
pub const FORK: u8 = 3;
pub const JOIN: u8 = 4;
pub const READ: u8 = 5;
pub const WRITE: u8 = 6;
/// Sends on links 0 to 3 are kinds 16 to 19.
pub const SEND: u8 = 16;
pub const LINKS: u8 = 4;

/// Event and cell numbers run from 1 to this.
pub const NAMES: usize = 1024;
pub const MAX_RECORDS: usize = 4096;
pub const RECORD: usize = 5;
pub const TRAILER: usize = 8;
pub const MARK: u8 = 0xA7;

pub fn is_send(kind: u8) -> bool {
    (SEND..SEND + LINKS).contains(&kind)
}

/// A fork or a send.
pub fn starts(kind: u8) -> bool {
    kind == FORK || is_send(kind)
}

#[derive(Clone, Copy, Debug, PartialEq, Eq)]
pub struct Record {
    pub kind: u8,
    pub first: u16,
    pub second: u16,
}

impl Record {
    pub fn new(kind: u8, first: u16, second: u16) -> Self {
        Record { kind, first, second }
    }

    #[inline]
    pub fn decode(bytes: &[u8]) -> Self {
        Record {
            kind: bytes[0],
            first: u16::from_le_bytes([bytes[1], bytes[2]]),
            second: u16::from_le_bytes([bytes[3], bytes[4]]),
        }
    }

    pub fn encode(self) -> [u8; RECORD] {
        let [f0, f1] = self.first.to_le_bytes();
        let [s0, s1] = self.second.to_le_bytes();
        [self.kind, f0, f1, s0, s1]
    }
}

pub fn trailer(records: usize, begins: u16) -> [u8; TRAILER] {
    let [d0, d1, d2, d3] = ((records * RECORD) as u32).to_le_bytes();
    let [b0, b1] = begins.to_le_bytes();
    [d0, d1, d2, d3, b0, b1, 1, MARK]
}

/// A job file: some bytes of its own, the records, and the trailer that fits them.
pub fn job_file(front: &[u8], records: &[Record]) -> Vec<u8> {
    let begins = records.iter().filter(|r| r.kind == BEGIN).count() as u16;
    let mut bytes = front.to_vec();
    for r in records {
        bytes.extend_from_slice(&r.encode());
    }
    bytes.extend_from_slice(&trailer(records.len(), begins));
    bytes
}
