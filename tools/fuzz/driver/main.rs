//! Arbitrary words and arguments to every call of the C face, each compared with what document 01 says (README.md has how).
//!
//!     run MEMORY CALLS SEED..    CALLS calls for each seed; where one fails, the smallest case found; MEMORY: exact or guarded
//!     repeat MEMORY              carries out the case on standard input
//!     shrink MEMORY              makes the failing case on standard input smaller
//! and, for `run` alone:
//!     try MEMORY CALLS PLACE SEED..   does the calls, writing at PLACE which case it is at
//!     lines MEMORY SEED CASE          carries out a case and prints each line first

mod answer;
mod arguments;
mod call;
mod case;
mod generate;
mod generate_calls;
mod generate_names;
mod generate_words;
mod image;
mod judge;
mod lent;
mod make;
mod model;
mod model_names;
mod play;
mod random;
mod refusal;
mod rules;
mod shapes;
mod shrink;
mod tally;

use case::Line;
use judge::Judge;
use lent::Memory;
use play::Play;
use random::Random;
use std::fs::File;
use std::io::Write;
use std::os::unix::fs::FileExt;
use std::process::exit;
use std::time::Instant;

/// Status of a run that met no fault, and not all that it should meet.
const NOT_ALL_MET: i32 = 3;

fn main() {
    let args: Vec<String> = std::env::args().skip(1).collect();
    let args: Vec<&str> = args.iter().map(String::as_str).collect();
    let done = match args.as_slice() {
        ["run", memory, calls, seeds @ ..] if !seeds.is_empty() => run(memory, calls, seeds),
        ["try", memory, calls, place, seeds @ ..] => try_seeds(memory, calls, place, seeds),
        ["lines", memory, seed, case] => lines(memory, seed, case),
        ["repeat", memory] => repeat(memory),
        ["shrink", memory] => shrink::from_input(memory),
        _ => None,
    };
    if done.is_none() {
        eprintln!("usage: run MEMORY CALLS SEED.. | repeat MEMORY <CASE | shrink MEMORY <CASE     MEMORY: exact or guarded");
        exit(2);
    }
}

fn memory_of(word: &str) -> Option<Memory> {
    match word {
        "exact" => Some(Memory::Exact),
        "guarded" => Some(Memory::Guarded),
        _ => None,
    }
}

/// Has the calls done by a program of its own, since a fault may end it.
fn run(memory: &str, calls: &str, seeds: &[&str]) -> Option<()> {
    memory_of(memory)?;
    calls.parse::<u64>().ok()?;
    seeds.iter().try_for_each(|seed| seed.parse::<u64>().ok().map(drop))?;
    let place = std::env::temp_dir().join(format!("sheafwinch-fuzz-{}", std::process::id()));
    let name = place.to_str()?;
    let start = Instant::now();
    let mut child = shrink::own_program(&[&["try", memory, calls, name], seeds].concat()).spawn().expect("the driver again");
    let status = shrink::ended(&mut child, || std::fs::read(&place).unwrap_or_default());
    let at = std::fs::read(&place).unwrap_or_default();
    std::fs::remove_file(&place).ok();
    if status.success() {
        return Some(());
    }
    if status.code() == Some(NOT_ALL_MET) {
        exit(1);
    }
    let [seed, case, calls] = *at.chunks_exact(8).map(|word| u64::from_le_bytes(word.try_into().unwrap())).collect::<Vec<_>>()
    else {
        exit(1);
    };
    let seconds = start.elapsed().as_secs_f64();
    println!("FAULT in seed {seed}, case {case}: the case began after {calls} calls, found in {seconds:.1} s");
    shrink::case_of(memory, &seed.to_string(), &case.to_string());
    exit(1);
}

fn try_seeds(memory: &str, calls: &str, place: &str, seeds: &[&str]) -> Option<()> {
    let (memory, calls) = (memory_of(memory)?, calls.parse::<u64>().ok()?);
    let place = File::create(place).ok()?;
    let mut judge = Judge::new(memory);
    let start = Instant::now();
    let mut told = 0;
    for seed in seeds {
        let (seed, end) = (seed.parse::<u64>().ok()?, judge.tally.calls + calls);
        let mut case = 0;
        while judge.tally.calls < end {
            let at = [seed, case, judge.tally.calls].map(u64::to_le_bytes);
            place.write_all_at(at.as_flattened(), 0).ok()?;
            if let Err(fault) = play(&mut judge, seed, case, &mut |_| ()) {
                eprintln!("{fault}");
                exit(1);
            }
            case += 1;
            judge.tally.cases += 1;
            let seconds = start.elapsed().as_secs();
            if seconds >= told + 10 {
                told = seconds;
                eprintln!("seed {seed}: {} calls, {} a second", judge.tally.calls, judge.tally.calls / seconds);
            }
        }
    }
    let whole = judge.tally.print();
    println!("seeds {}, {:.0} s", seeds.join(" "), start.elapsed().as_secs_f64());
    println!("failures 0{}", if whole { "" } else { ", but not all was met" });
    if !whole {
        exit(NOT_ALL_MET);
    }
    Some(())
}

fn play(judge: &mut Judge, seed: u64, case: u64, seen: &mut dyn FnMut(&Line)) -> Result<(), judge::Fault> {
    judge.clear();
    Play { judge, random: Random::of(seed, case), seen }.case()
}

fn lines(memory: &str, seed: &str, case: &str) -> Option<()> {
    let mut judge = Judge::new(memory_of(memory)?);
    let mut print = |line: &Line| {
        println!("{line}");
        std::io::stdout().flush().ok();
    };
    if let Err(fault) = play(&mut judge, seed.parse().ok()?, case.parse().ok()?, &mut print) {
        eprintln!("{fault}");
        exit(1);
    }
    Some(())
}

fn repeat(memory: &str) -> Option<()> {
    let mut judge = Judge::new(memory_of(memory)?);
    for line in std::io::stdin().lines() {
        if let Err(fault) = judge.carry_out(&case::parse(&line.ok()?)?) {
            eprintln!("{fault}");
            exit(1);
        }
    }
    println!("no fault");
    Some(())
}
