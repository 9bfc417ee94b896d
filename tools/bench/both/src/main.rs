//! Times our engine and the Rust of tix from one driver, in one run, on the same inputs; a difference between them ends the run.
//! usage: both OUT                  writes OUT/cases.md, OUT/openings.md and OUT/performance.svg
//!        both openings OUT         writes OUT/openings.md alone: questions opened and worked in one call, and in two
//!        both repeat CASE TIMES    asks the questions of one case of ours so many times: for a profiler
mod cases;
mod engine;
mod openings;
mod plot;
mod tables;
mod timing;

use cases::{Case, First};
use plot::Line;
use std::io::Write;
use std::path::Path;
use std::{env, fs, io, process, thread};
use timing::Seen;

/// Chains of n variables with n + 1 bounds: n times n + 1 pairs with a bound, and n - 1 links.
const GROWTH: [usize; 7] = [31, 44, 63, 89, 122, 173, 244];
/// tix recurses; its own stack grows as need be.
const STACK: usize = 1 << 30;

fn growth(first: First) -> Vec<Case> {
    GROWTH.iter().map(|&n| cases::chain(n, n + 1, first)).collect()
}

fn others() -> Vec<Case> {
    vec![
        cases::chain(4000, 14, First::Bounds),
        cases::chain(4000, 14, First::Links),
        cases::separate(240, 250),
        cases::attrsets(64),
        cases::attrsets(1000),
        cases::attrsets(4000),
        cases::union_under(512),
        cases::under_union(512),
        cases::lists(2000),
        cases::lambdas(2000),
    ]
}

/// Each case, with a line when it is done.
fn see(cases: &[Case]) -> Vec<Seen> {
    let see = |case| {
        let seen = timing::see(case);
        let (ours, rust) = (seen.ours.all * 1e3, seen.rust.all * 1e3);
        println!("{}: agreed; ours {ours:.3} ms, Rust {rust:.3} ms, ratio {:.2}", seen.name, ours / rust);
        io::stdout().flush().expect("standard output");
        seen
    };
    cases.iter().map(see).collect()
}

fn line(name: &'static str, class: &'static str, seen: &[Seen], time: fn(&Seen) -> f64) -> Line {
    Line { name, class, points: seen.iter().map(|s| (s.visited as f64, time(s))).collect() }
}

fn all(out: &Path) -> io::Result<()> {
    let (first, last) = (see(&growth(First::Bounds)), see(&growth(First::Links)));
    let others = see(&others());
    let ours = |s: &Seen| s.ours.all;
    let rust = |s: &Seen| s.rust.all;
    let lines = [
        line("ours, bounds first", "ours", &first, ours),
        line("ours, bounds last", "ours last", &last, ours),
        line("Rust of tix, bounds first", "rust", &first, rust),
        line("Rust of tix, bounds last", "rust last", &last, rust),
    ];
    fs::write(out.join("performance.svg"), plot::plot(&lines))?;
    let growth = tables::growth("first", &first) + &tables::growth("last", &last);
    let seen: Vec<Seen> = [first, last].into_iter().filter_map(|mut seen| seen.pop()).chain(others).collect();
    fs::write(
        out.join("cases.md"),
        tables::cases(&seen) + &growth + &tables::last_questions(&seen) + &tables::making(&seen) + &tables::images(&seen),
    )?;
    openings(out)
}

fn openings(out: &Path) -> io::Result<()> {
    fs::write(out.join("openings.md"), tables::openings(&openings::all()))
}

fn repeat(name: &str, times: usize) -> Result<(), String> {
    let known: Vec<Case> = [growth(First::Bounds), growth(First::Links), others()].into_iter().flatten().collect();
    let Some(case) = known.iter().find(|case| case.name == name) else {
        let names: Vec<&str> = known.iter().map(|case| case.name.as_str()).collect();
        return Err(format!("no such case; there are: {}", names.join("; ")));
    };
    println!("{name}: {:.3} ms", timing::repeat(case, times) * 1e3);
    Ok(())
}

fn work(arguments: &[String]) -> Result<(), String> {
    match arguments.iter().map(String::as_str).collect::<Vec<_>>()[..] {
        [out] => all(Path::new(out)).map_err(|why| format!("{out}: {why}")),
        ["openings", out] => openings(Path::new(out)).map_err(|why| format!("{out}: {why}")),
        ["repeat", case, times] => repeat(case, times.parse().ok().filter(|&times| times > 0).ok_or("TIMES is from 1 on")?),
        _ => {
            eprintln!("usage: both OUT | both openings OUT | both repeat CASE TIMES");
            process::exit(2)
        }
    }
}

fn main() {
    let arguments: Vec<String> = env::args().skip(1).collect();
    let done = thread::Builder::new().stack_size(STACK).spawn(move || work(&arguments)).expect("a thread").join();
    if let Ok(Err(why)) = &done {
        eprintln!("{why}");
    }
    process::exit(i32::from(!matches!(done, Ok(Ok(())))));
}
