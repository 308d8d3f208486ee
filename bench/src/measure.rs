//! Time of both sides in one run, on the same traces: a table for each call, with the ratio and the growth.

use crate::bed::{Bed, CALLS};
use crate::calls::Calls;
use crate::plain::Plain;
use crate::shapes::SHAPES;
use std::time::Duration;

const SIZES: [usize; 3] = [64, 512, 4096];

fn title(call: &str) -> &str {
    match call {
        "read" => "reading",
        "fill" => "filling (reading included)",
        "short" => "the short list (reading and filling included)",
        "all" => "the list of all races (reading and filling included)",
        "open" => "the pair question, the last open pair of the short list",
        "compact" => "compacting (reading included)",
        _ => "the pair question, the last covered pair of the short list",
    }
}

/// Processor time of this thread so far, so that other work on the machine counts little (Linux).
fn now() -> Duration {
    #[repr(C)]
    struct Timespec {
        seconds: i64,
        nanoseconds: i64,
    }
    extern "C" {
        fn clock_gettime(clock: i32, time: &mut Timespec) -> i32;
    }
    const THREAD_CPU: i32 = 3;
    let mut time = Timespec { seconds: 0, nanoseconds: 0 };
    let failed = unsafe { clock_gettime(THREAD_CPU, &mut time) };
    assert!(failed == 0, "no clock of processor time");
    Duration::new(time.seconds as u64, time.nanoseconds as u32)
}

/// The time of so many calls.
fn time(bed: &mut Bed, side: &dyn Calls, call: &str, times: u32) -> Duration {
    let start = now();
    for _ in 0..times {
        std::hint::black_box(bed.call(side, call));
    }
    now() - start
}

/// Microseconds of one call of each side, the least of several rounds taken in turn.
fn both(bed: &mut Bed, sides: [&dyn Calls; 2], call: &str) -> Option<[f64; 2]> {
    if !bed.applies(call) {
        return None;
    }
    let enough = Duration::from_micros(200);
    let times = sides.map(|side| 1 + (enough.as_nanos() / time(bed, side, call, 1).as_nanos().max(1)) as u32);
    let mut least = [f64::MAX; 2];
    let start = now();
    let mut rounds = 0;
    while rounds < 7 || now() - start < Duration::from_millis(200) && rounds < 50 {
        for (k, side) in sides.into_iter().enumerate() {
            let each = time(bed, side, call, times[k]).as_secs_f64() * 1e6 / times[k] as f64;
            least[k] = least[k].min(each);
        }
        rounds += 1;
    }
    Some(least)
}

fn traces(beds: &mut [(&str, Vec<Bed>)]) {
    println!("| shape | records | event actions | width | short list | of them open | all races |");
    println!("|---|---:|---:|---:|---:|---:|---:|");
    for (shape, beds) in beds {
        for b in beds {
            let found = b.counts();
            print!("| {shape} | {} | {} | {} |", b.records, b.events, b.width);
            println!(" {} | {} | {} |", found.short, found.open, found.all);
        }
    }
}

fn row(shape: &str, found: &[Option<[f64; 2]>]) {
    print!("| {shape} |");
    for size in found {
        match size {
            Some([product, plain]) => print!(" {product:.1} | {plain:.1} | {:.2} |", product / plain),
            None => print!(" - | - | - |"),
        }
    }
    match found {
        [.., Some(from), Some(to)] => println!(" {:.1} | {:.1} |", to[0] / from[0], to[1] / from[1]),
        _ => println!(" - | - |"),
    }
}

pub fn run(product: &dyn Calls) {
    let make = |shape| SIZES.iter().map(|&n| Bed::new(shape, n).unwrap()).collect();
    let mut beds: Vec<(&str, Vec<Bed>)> = SHAPES.iter().map(|&(shape, _)| (shape, make(shape))).collect();
    for (shape, what) in SHAPES {
        println!("{shape}: {what}");
    }
    println!("Width: the smallest multiple of 32 that suffices, the same for both.\n");
    traces(&mut beds);
    for call in CALLS {
        println!("\n{}: microseconds, and product ÷ plain", title(call));
        println!("| shape | 64: product | plain | ratio | 512: product | plain | ratio | 4096: product | plain | ratio | ×8 in n: product × | plain × |");
        println!("|---|{}", "---:|".repeat(11));
        for (shape, beds) in &mut beds {
            let found: Vec<_> = beds.iter_mut().map(|bed| both(bed, [product, &Plain], call)).collect();
            row(shape, &found);
        }
    }
}
