//! The job-close order check beside a plain implementation of the published algorithm.

mod bed;
mod calls;
mod compare;
mod measure;
mod plain;
mod product;
mod random;
mod shapes;
mod stack;
mod trace;

use calls::Calls;
use std::process::ExitCode;

const USAGE: &str = "\
bench compare [TRACES [SEED]]      both sides on random traces (default 5000, seed 1)
bench selftest                     altered answers, each of which comparing must report
bench measure                      times of both sides, ratio and growth
bench stack                        how deep the stack goes in each call of the product
bench count CALL SHAPE N WHO       one call alone, for counting instructions
    CALL none read fill order short all open covered compact; SHAPE as `bench shapes` says; WHO product or plain
bench shapes                       the traces that are measured";

fn linked() -> Result<&'static dyn Calls, String> {
    product::product().ok_or("built without libjob_order.a: see bench/README.md".into())
}

fn number<T: std::str::FromStr>(word: &str) -> Result<T, String> {
    word.parse().map_err(|_| format!("{word}: not a number"))
}

fn compare(traces: usize, seed: u64) -> Result<(), String> {
    let tally = compare::run(linked()?, traces, seed).map_err(|d| format!("DIFFERENCE, {d}"))?;
    println!("{tally}\nall agree");
    Ok(())
}

fn count(call: &str, shape: &str, n: usize, who: &str) -> Result<(), String> {
    let side = if who == "plain" { &plain::Plain } else { linked()? };
    let mut bed = bed::Bed::new(shape, n).ok_or(format!("no shape {shape}"))?;
    if ["open", "covered"].contains(&call) {
        bed.find_pairs();
    }
    match bed::counted(&mut bed, side, call) {
        Some(answer) => println!("answer {answer}"),
        None => println!("does not apply"),
    }
    Ok(())
}

fn run(words: &[&str]) -> Result<(), String> {
    match *words {
        ["compare"] => compare(5000, 1),
        ["compare", traces] => compare(number(traces)?, 1),
        ["compare", traces, seed] => compare(number(traces)?, number(seed)?),
        ["selftest"] if compare::self_test(product::product().unwrap_or(&plain::Plain)) => {
            println!("every alteration is reported");
            Ok(())
        }
        ["selftest"] => Err("an alteration was not reported".into()),
        ["measure"] => {
            measure::run(linked()?);
            Ok(())
        }
        ["stack"] => {
            stack::run(linked()?);
            Ok(())
        }
        ["count", call, shape, n, who] => count(call, shape, number(n)?, who),
        ["shapes"] => {
            shapes::SHAPES.iter().for_each(|(shape, what)| println!("{shape}: {what}"));
            Ok(())
        }
        _ => Err(USAGE.into()),
    }
}

fn main() -> ExitCode {
    let words: Vec<String> = std::env::args().skip(1).collect();
    let words: Vec<&str> = words.iter().map(String::as_str).collect();
    match run(&words) {
        Ok(()) => ExitCode::SUCCESS,
        Err(what) => {
            println!("{what}");
            ExitCode::FAILURE
        }
    }
}
