//! What was seen, as tables in Markdown.
use crate::openings::Opened;
use crate::timing::Seen;
use std::fmt::Write;

/// A number of records, steps or words, in groups of three digits.
fn grouped(number: u64) -> String {
    let digits = number.to_string();
    let mut out = String::new();
    for (i, digit) in digits.chars().enumerate() {
        if i > 0 && (digits.len() - i).is_multiple_of(3) {
            out.push(',');
        }
        out.push(digit);
    }
    out
}

/// A time or a ratio to three digits; whole from 100 on.
fn three(value: f64) -> String {
    match value {
        v if v >= 99.95 => grouped(v.round() as u64),
        v if v >= 9.995 => format!("{v:.1}"),
        v if v >= 0.9995 => format!("{v:.2}"),
        v => format!("{v:.3}"),
    }
}

fn milli(seconds: f64) -> String {
    three(seconds * 1e3)
}

fn micro(seconds: f64) -> String {
    three(seconds * 1e6)
}

fn row(out: &mut String, cells: &[String]) {
    writeln!(out, "| {} |", cells.join(" | ")).expect("a String takes it");
}

/// A heading, the names of the columns (the first to the left, the others to the right), then rows.
fn table(heading: &str, columns: &[&str], rows: impl Iterator<Item = Vec<String>>) -> String {
    let mut out = format!("### {heading}\n\n");
    row(&mut out, &columns.iter().map(ToString::to_string).collect::<Vec<_>>());
    out += "|---";
    out += &"|---:".repeat(columns.len() - 1);
    out += "|\n";
    for cells in rows {
        row(&mut out, &cells);
    }
    out + "\n"
}

pub fn cases(seen: &[Seen]) -> String {
    let columns = [
        "case",
        "questions",
        "steps",
        "visited",
        "bounds",
        "ours, ms",
        "Rust, ms",
        "ratio",
        "ours at the largest capacities, ms",
        "ratio",
        "rounds",
    ];
    let cells = |s: &Seen| {
        vec![
            s.name.clone(),
            grouped(s.questions as u64),
            grouped(s.steps),
            grouped(s.visited as u64),
            grouped(s.bounds as u64),
            milli(s.ours.all),
            milli(s.rust.all),
            three(s.ours.all / s.rust.all),
            milli(s.largest.all),
            three(s.largest.all / s.rust.all),
            s.rounds.to_string(),
        ]
    };
    table("All questions of a case", &columns, seen.iter().map(cells))
}

pub fn last_questions(seen: &[Seen]) -> String {
    let columns =
        ["case", "steps", "visited after it", "ours, ms", "ours, µs a step", "Rust, ms", "ours at the largest capacities, ms"];
    let cells = |s: &Seen| {
        vec![
            s.name.clone(),
            grouped(s.last_steps.into()),
            grouped(s.visited as u64),
            milli(s.ours.last),
            micro(s.ours.last / f64::from(s.last_steps)),
            milli(s.rust.last),
            milli(s.largest.last),
        ]
    };
    table("The last question of each case", &columns, seen.iter().map(cells))
}

pub fn images(seen: &[Seen]) -> String {
    let columns =
        ["case", "entries", "fields", "bounds", "visited", "pending", "words", "check, µs", "check at the largest capacities, µs"];
    let cells = |s: &Seen| {
        let capacities = s.capacities[..5].iter().map(|&capacity| grouped(capacity.into()));
        let rest = [grouped(s.words as u64), micro(s.checks[0]), micro(s.checks[1])];
        [s.name.clone()].into_iter().chain(capacities).chain(rest).collect()
    };
    table("Capacities that are just enough, and the check of the image after the questions", &columns, seen.iter().map(cells))
}

pub fn making(seen: &[Seen]) -> String {
    let columns = ["case", "entries", "ours, ms", "Rust, ms", "ratio", "ours at the largest capacities, ms", "ratio"];
    let cells = |s: &Seen| {
        let [ours, largest, rust] = s.makes;
        let figures = [milli(ours), milli(rust), three(ours / rust), milli(largest), three(largest / rust)];
        [s.name.clone(), grouped(s.capacities[0].into())].into_iter().chain(figures).collect()
    };
    table("Making the shapes, before any question", &columns, seen.iter().map(cells))
}

pub fn openings(seen: &[Opened]) -> String {
    let columns = [
        "room",
        "words",
        "steps a question",
        "two calls, µs a question",
        "one call, µs a question",
        "ratio",
        "saved, µs",
        "check alone, µs",
        "rounds",
    ];
    let cells = |s: &Opened| {
        vec![
            s.name.clone(),
            grouped(s.words as u64),
            s.steps.to_string(),
            micro(s.two),
            micro(s.one),
            three(s.one / s.two),
            micro(s.two - s.one),
            micro(s.check),
            s.rounds.to_string(),
        ]
    };
    table("10,000 questions, opened and worked in two calls and in one", &columns, seen.iter().map(cells))
}

/// The power of the pairs that a time grows with, from the first to the last.
fn power(seen: &[Seen], time: fn(&Seen) -> f64) -> f64 {
    let (a, b) = (&seen[0], &seen[seen.len() - 1]);
    (time(b) / time(a)).ln() / (b.visited as f64 / a.visited as f64).ln()
}

pub fn growth(when: &str, seen: &[Seen]) -> String {
    let columns = ["variables, bounds", "visited", "ours, ms", "Rust, ms", "ratio", "ours, µs a step", "Rust, µs a step"];
    let cells = |s: &Seen| {
        vec![
            s.name.trim_start_matches("chain of ").trim_end_matches(|c: char| !c.is_ascii_digit()).replace(" bounds", ""),
            grouped(s.visited as u64),
            milli(s.ours.all),
            milli(s.rust.all),
            three(s.ours.all / s.rust.all),
            micro(s.ours.all / s.steps as f64),
            micro(s.rust.all / s.steps as f64),
        ]
    };
    let mut out = table(&format!("Growth, bounds {when}"), &columns, seen.iter().map(cells));
    let (ours, rust) = (power(seen, |s| s.ours.all), power(seen, |s| s.rust.all));
    writeln!(out, "From the first row to the last, ours grows with the power {ours:.2} of the pairs, the Rust with {rust:.2}.\n")
        .expect("a String takes it");
    out
}
