//! Runs the engine and the Rust of tix on the same generated scripts and compares them after every question. See README.md.

mod compare;
mod family;
mod generate;
mod image;
mod numbers;
mod questions;
mod room;
mod rules;
mod script;
mod session;
mod shrink;
mod sides;
mod tally;

use script::Script;
use shrink::Failing;
use std::fmt;
use std::process::ExitCode;
use std::time::{Duration, Instant};
use tally::Tally;

/// How often progress is told.
const PROGRESS: Duration = Duration::from_secs(5);

/// After so many scripts that differ the run ends.
const ENOUGH: u64 = 20;

fn main() -> ExitCode {
    let words: Option<Vec<u64>> = std::env::args().skip(1).map(|word| word.parse().ok()).collect();
    match words.as_deref() {
        Some([questions, seeds @ ..]) if !seeds.is_empty() => on_large_stack(|| run(*questions, seeds)),
        _ => {
            eprintln!("usage: differential QUESTIONS SEED...");
            ExitCode::from(2)
        }
    }
}

/// The Rust calls itself once for each step.
fn on_large_stack(run: impl FnOnce() -> ExitCode + Send) -> ExitCode {
    std::thread::scope(|scope| {
        let thread = std::thread::Builder::new().stack_size(1 << 30).spawn_scoped(scope, run).expect("a thread");
        thread.join().unwrap_or(ExitCode::FAILURE)
    })
}

fn run(questions: u64, seeds: &[u64]) -> ExitCode {
    let mut tally = Tally::default();
    let mut progress = Progress::new();
    let mut smallest = Smallest::default();
    let share = questions.div_ceil(seeds.len() as u64);
    'seeds: for (n, &seed) in seeds.iter().enumerate() {
        let mut number = 0;
        while tally.questions < share * (n as u64 + 1) {
            let (script, ran) = generate::write(seed, number, &mut tally);
            if ran.is_err() {
                tally.differences += 1;
                smallest.add(seed, number, tally.questions, script);
            }
            if tally.differences >= ENOUGH {
                break 'seeds;
            }
            number += 1;
            progress.tell(&tally);
        }
    }
    progress.end(&tally);
    let seeds: Vec<String> = seeds.iter().map(u64::to_string).collect();
    print!("{smallest}seeds: {}\n{tally}", seeds.join(" "));
    ExitCode::from(u8::from(tally.differences > 0))
}

/// Of the scripts that differ, the shortest one once they are shrunk.
#[derive(Default)]
struct Smallest {
    first: Option<String>,
    found: Option<(String, Failing)>,
}

impl Smallest {
    fn add(&mut self, seed: u64, number: u64, questions: u64, script: Script) {
        let place = format!("seed {seed}, script {number}");
        self.first.get_or_insert_with(|| format!("{place}, by {questions} questions"));
        let Some(failing) = Failing::of(script) else {
            println!("{place}: differs once, and not when it is run again");
            return;
        };
        let failing = failing.shrunk();
        let lines = |failing: &Failing| failing.script.lines.len();
        if self.found.as_ref().is_none_or(|(_, smallest)| lines(&failing) < lines(smallest)) {
            self.found = Some((place, failing));
        }
    }
}

impl fmt::Display for Smallest {
    fn fmt(&self, out: &mut fmt::Formatter<'_>) -> fmt::Result {
        if let Some(first) = &self.first {
            writeln!(out, "DIFFERENCE, the first at {first}")?;
        }
        if let Some((place, Failing { script, difference, .. })) = &self.found {
            writeln!(out, "the smallest script that differs, from {place}, {} lines:\n\n{script}", script.lines.len())?;
            writeln!(out, "what differs after its last line: {}", difference.what)?;
            writeln!(out, "  ours:     {}\n  the Rust: {}\n", difference.ours, difference.oracles)?;
        }
        Ok(())
    }
}

/// Tells now and then how far the run is, on standard error.
struct Progress {
    start: Instant,
    last: Instant,
}

impl Progress {
    fn new() -> Progress {
        Progress { start: Instant::now(), last: Instant::now() }
    }

    fn tell(&mut self, tally: &Tally) {
        if self.last.elapsed() >= PROGRESS {
            self.last = Instant::now();
            self.end(tally);
        }
    }

    fn end(&self, tally: &Tally) {
        let seconds = self.start.elapsed().as_secs_f64();
        let rate = tally.questions as f64 / seconds;
        eprintln!("{} questions in {seconds:.0} s, {rate:.0} a second; differences: {}", tally.questions, tally.differences);
    }
}
