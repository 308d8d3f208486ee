//! How deep the stack goes in each call of the product: the stack below is painted, the call made, and what is no longer painted measured.

use crate::bed::{Bed, CALLS};
use crate::calls::Calls;
use crate::shapes::{has_sends, SHAPES};
use std::hint::black_box;

const AREA: usize = 128 * 1024;
const PAINT: u8 = 0xA5;

/// Has the system map that much of the stack.
#[inline(never)]
fn map() {
    black_box(&mut [0u8; 2 * AREA]);
}

/// The bytes from here down to the deepest one that the call wrote. Painting and looking need no stack of their own: both are inside this frame.
#[inline(never)]
fn deepest(bed: &mut Bed, side: &dyn Calls, call: &str) -> usize {
    let mut here = 0u8;
    let low = (black_box(&raw mut here) as usize - AREA) as *mut u8;
    map();
    for i in 0..AREA - 1024 {
        unsafe { low.add(i).write_volatile(PAINT) };
    }
    black_box(bed.call(side, call));
    let mut left = 0;
    while left < AREA - 1024 && unsafe { low.add(left).read_volatile() } == PAINT {
        left += 1;
    }
    AREA - left
}

/// The deepest stack of one call over the shapes with sends, or over those without.
fn most(side: &dyn Calls, call: &str, sends: bool) -> usize {
    let mut most = 0;
    for (shape, _) in SHAPES.iter().filter(|(shape, _)| has_sends(shape) == sends) {
        let mut bed = Bed::new(shape, 4096).unwrap();
        bed.find_pairs();
        if bed.applies(call) {
            most = most.max(deepest(&mut bed, side, call));
        }
    }
    most
}

/// The deepest stack of each call over all shapes at 4,096 records.
pub fn run(side: &dyn Calls) {
    println!("| call | deepest stack, bytes | with sends |\n|---|---:|---:|");
    for call in CALLS.iter().chain(&["order"]) {
        println!("| {call} | {} | {} |", most(side, call, false), most(side, call, true));
    }
}
