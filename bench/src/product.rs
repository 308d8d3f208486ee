//! The product: bindings to libjob_order.a. A slice is passed as pointer and length.

use crate::calls::Calls;

/// The product's calls, if the library was there when this program was built.
pub fn product() -> Option<&'static dyn Calls> {
    #[cfg(product)]
    return Some(&linked::Product);
    #[cfg(not(product))]
    None
}

#[cfg(product)]
mod linked {
    use crate::calls::*;
    use crate::trace::Record;

    extern "C" {
        fn jco_read(
            bytes: *const u8,
            bytes_len: usize,
            place: &mut u16,
            start: &mut usize,
            records: &mut usize,
            events: &mut usize,
        ) -> u16;
        fn jco_fill(
            bytes: *const u8,
            bytes_len: usize,
            width: usize,
            clocks: *mut u16,
            clocks_len: usize,
            place: &mut u16,
            chains: &mut usize,
        ) -> u16;
        fn jco_order(
            bytes: *const u8,
            bytes_len: usize,
            width: usize,
            clocks: *const u16,
            clocks_len: usize,
            t: u16,
            u: u16,
            place: &mut u16,
            relation: &mut u8,
        ) -> u16;
        fn jco_all_races(
            bytes: *const u8,
            bytes_len: usize,
            width: usize,
            clocks: *mut u16,
            clocks_len: usize,
            work: *mut u8,
            work_len: usize,
            list: *mut u16,
            list_len: usize,
            place: &mut u16,
            events: &mut usize,
            records: &mut usize,
            chains: &mut usize,
            count: &mut usize,
        ) -> u16;
        fn jco_short_list(
            bytes: *const u8,
            bytes_len: usize,
            width: usize,
            clocks: *mut u16,
            clocks_len: usize,
            work: *mut u8,
            work_len: usize,
            list: *mut u16,
            list_len: usize,
            place: &mut u16,
            events: &mut usize,
            records: &mut usize,
            chains: &mut usize,
            count: &mut usize,
        ) -> u16;
        fn jco_ask_pair(
            bytes: *const u8,
            bytes_len: usize,
            width: usize,
            clocks: *mut u16,
            clocks_len: usize,
            work: *mut u8,
            work_len: usize,
            list: *mut u16,
            list_len: usize,
            a: u16,
            b: u16,
            place: &mut u16,
            covered: &mut u8,
            count: &mut usize,
        ) -> u16;
        fn jco_compact(
            bytes: *const u8,
            bytes_len: usize,
            out: *mut u8,
            out_len: usize,
            place: &mut u16,
            length: &mut usize,
            dropped: &mut usize,
        ) -> u16;
        fn jco_recorder_open(
            space: *const u8,
            space_len: usize,
            count: &mut u16,
            situation: &mut u8,
            owner: &mut u16,
            closed: &mut u8,
        ) -> u16;
        fn jco_recorder_step(
            space: *mut u8,
            space_len: usize,
            count: &mut u16,
            situation: &mut u8,
            owner: &mut u16,
            closed: &mut u8,
            kind: u8,
            first: u16,
            second: u16,
            place: &mut u16,
        ) -> u16;
        fn jco_recorder_close(
            space: *mut u8,
            space_len: usize,
            count: &mut u16,
            situation: &mut u8,
            owner: &mut u16,
            closed: &mut u8,
            place: &mut u16,
            length: &mut usize,
        ) -> u16;
    }

    pub struct Product;

    // What the out numbers hold before a call, so that one that is not written shows.
    const JUNK: usize = 0xABCD_ABCD;
    const JUNK16: u16 = 0xABCD;
    const JUNK8: u8 = 0xAB;

    /// Out numbers are written in every case: all but the place are 0 where refused, and the place is 0 where not.
    fn answer<T>(number: u16, place: u16, others: &[usize], given: T) -> Answer<T> {
        if number == 0 {
            assert!(place == 0, "a place, {place}, with no refusal");
            return Ok(given);
        }
        assert!(others.iter().all(|&x| x == 0), "out numbers {others:?} beside refusal {number}");
        Err(Refusal { number, place })
    }

    fn flag(x: u8) -> bool {
        assert!(x < 2, "a flag of {x}");
        x == 1
    }

    fn way_round(number: u16, x: u8) -> Relation {
        match x {
            1 => Relation::Same,
            2 => Relation::Before,
            3 => Relation::After,
            4 => Relation::Unordered,
            _ => {
                assert!(number != 0, "a relation of {x}");
                Relation::Unordered
            }
        }
    }

    type ListCall = unsafe extern "C" fn(
        *const u8,
        usize,
        usize,
        *mut u16,
        usize,
        *mut u8,
        usize,
        *mut u16,
        usize,
        &mut u16,
        &mut usize,
        &mut usize,
        &mut usize,
        &mut usize,
    ) -> u16;

    fn list(call: ListCall, bytes: &[u8], width: usize, lent: Lent) -> Answer<ListAnswer> {
        let Lent { clocks, work, list } = lent;
        let (mut place, mut events, mut records, mut chains, mut count) = (JUNK16, JUNK, JUNK, JUNK, JUNK);
        let number = unsafe {
            call(
                bytes.as_ptr(),
                bytes.len(),
                width,
                clocks.as_mut_ptr(),
                clocks.len(),
                work.as_mut_ptr(),
                work.len(),
                list.as_mut_ptr(),
                list.len(),
                &mut place,
                &mut events,
                &mut records,
                &mut chains,
                &mut count,
            )
        };
        answer(number, place, &[events, records, chains, count], ListAnswer { events, records, chains, count })
    }

    impl Calls for Product {
        fn read(&self, bytes: &[u8]) -> Answer<ReadAnswer> {
            let (mut place, mut start, mut records, mut events) = (JUNK16, JUNK, JUNK, JUNK);
            let number = unsafe { jco_read(bytes.as_ptr(), bytes.len(), &mut place, &mut start, &mut records, &mut events) };
            answer(number, place, &[start, records, events], ReadAnswer { start, records, events })
        }

        fn fill(&self, bytes: &[u8], width: usize, clocks: &mut [u16]) -> Answer<usize> {
            let (mut place, mut chains) = (JUNK16, JUNK);
            let number = unsafe {
                jco_fill(bytes.as_ptr(), bytes.len(), width, clocks.as_mut_ptr(), clocks.len(), &mut place, &mut chains)
            };
            answer(number, place, &[chains], chains)
        }

        fn order(&self, bytes: &[u8], width: usize, clocks: &[u16], t: u16, u: u16) -> Answer<Relation> {
            let (mut place, mut relation) = (JUNK16, JUNK8);
            let number = unsafe {
                jco_order(bytes.as_ptr(), bytes.len(), width, clocks.as_ptr(), clocks.len(), t, u, &mut place, &mut relation)
            };
            answer(number, place, &[relation as usize], way_round(number, relation))
        }

        fn all_races(&self, bytes: &[u8], width: usize, lent: Lent) -> Answer<ListAnswer> {
            list(jco_all_races, bytes, width, lent)
        }

        fn short_list(&self, bytes: &[u8], width: usize, lent: Lent) -> Answer<ListAnswer> {
            list(jco_short_list, bytes, width, lent)
        }

        fn ask_pair(&self, bytes: &[u8], width: usize, lent: Lent, a: u16, b: u16) -> Answer<PairAnswer> {
            let Lent { clocks, work, list } = lent;
            let (mut place, mut covered, mut count) = (JUNK16, JUNK8, JUNK);
            let number = unsafe {
                jco_ask_pair(
                    bytes.as_ptr(),
                    bytes.len(),
                    width,
                    clocks.as_mut_ptr(),
                    clocks.len(),
                    work.as_mut_ptr(),
                    work.len(),
                    list.as_mut_ptr(),
                    list.len(),
                    a,
                    b,
                    &mut place,
                    &mut covered,
                    &mut count,
                )
            };
            answer(number, place, &[covered as usize, count], PairAnswer { covered: flag(covered), count })
        }

        fn compact(&self, bytes: &[u8], out: &mut [u8]) -> Answer<SlimAnswer> {
            let (mut place, mut length, mut dropped) = (JUNK16, JUNK, JUNK);
            let number = unsafe {
                jco_compact(bytes.as_ptr(), bytes.len(), out.as_mut_ptr(), out.len(), &mut place, &mut length, &mut dropped)
            };
            answer(number, place, &[length, dropped], SlimAnswer { length, dropped })
        }

        fn recorder_open(&self, space: &[u8]) -> (Recorder, Answer<()>) {
            let (mut count, mut situation, mut owner, mut closed) = (JUNK16, JUNK8, JUNK16, JUNK8);
            let number =
                unsafe { jco_recorder_open(space.as_ptr(), space.len(), &mut count, &mut situation, &mut owner, &mut closed) };
            (Recorder { count, situation, owner, closed: flag(closed) }, answer(number, 0, &[], ()))
        }

        fn recorder_step(&self, space: &mut [u8], recorder: &mut Recorder, record: Record) -> Answer<()> {
            let Recorder { count, situation, owner, closed } = recorder;
            let (mut place, mut closed_byte) = (JUNK16, *closed as u8);
            let number = unsafe {
                jco_recorder_step(
                    space.as_mut_ptr(),
                    space.len(),
                    count,
                    situation,
                    owner,
                    &mut closed_byte,
                    record.kind,
                    record.first,
                    record.second,
                    &mut place,
                )
            };
            *closed = flag(closed_byte);
            answer(number, place, &[], ())
        }

        fn recorder_close(&self, space: &mut [u8], recorder: &mut Recorder) -> Answer<usize> {
            let Recorder { count, situation, owner, closed } = recorder;
            let (mut place, mut length, mut closed_byte) = (JUNK16, JUNK, *closed as u8);
            let number = unsafe {
                jco_recorder_close(
                    space.as_mut_ptr(),
                    space.len(),
                    count,
                    situation,
                    owner,
                    &mut closed_byte,
                    &mut place,
                    &mut length,
                )
            };
            *closed = flag(closed_byte);
            answer(number, place, &[length], length)
        }
    }
}
