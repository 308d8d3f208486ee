//! The compactor, plainly: of the reads of a cell by one event action, and of the writes, the first alone, and every other record.

use super::reading;
use crate::calls::{refuse, Answer, SlimAnswer};
use crate::trace::*;

pub fn compact(bytes: &[u8], out: &mut [u8]) -> Answer<SlimAnswer> {
    let trace = reading::read(bytes)?;
    // the event that last read each cell, and the one that last wrote it
    let mut last = [[0; NAMES + 1]; 2];
    let mut slim = Vec::with_capacity(bytes.len());
    for r in trace.records() {
        if r.kind == READ || r.kind == WRITE {
            let by = &mut last[(r.kind - READ) as usize][r.second as usize];
            if std::mem::replace(by, r.first) == r.first {
                continue;
            }
        }
        slim.extend_from_slice(&r.encode());
    }
    let kept = slim.len() / RECORD;
    slim.extend_from_slice(&trailer(kept, trace.events as u16));
    let length = slim.len();
    if out.len() < length {
        return refuse(24);
    }
    out[..length].copy_from_slice(&slim);
    Ok(SlimAnswer { length, dropped: trace.len() - kept })
}
