//! Times the proved check against the same test in Rust, from one driver and in one run. First they must agree (agree.rs); a
//! disagreement ends the run with status 1.
mod agree;
mod images;

use images::filled;
use shared::formed::well_formed;
use shared::image::laid;
use shared::layout::{MOST, NAMES_MOST};
use shared::random::XorShift;
use shared::raw::sheafwinch_check;
use std::hint::black_box;
use std::time::Instant;

const SEED: u64 = 20_261_115;
const DAMAGED: usize = 600;
const ROUNDS: usize = 1001;
const GOAL: f64 = 0.6;

/// The proved check: it reads the lent words, and nothing else.
#[inline(never)]
fn proved(image: &[u32]) -> bool {
    unsafe { sheafwinch_check(image.as_ptr(), image.len()) }
}

#[inline(never)]
fn ordinary(image: &[u32]) -> bool {
    well_formed(image)
}

/// Microseconds of one call. One alone is too short for other work to come between often, so a median leaves that out.
fn micros(test: fn(&[u32]) -> bool, image: &[u32]) -> f64 {
    let start = Instant::now();
    black_box(black_box(test)(black_box(image)));
    start.elapsed().as_secs_f64() * 1e6
}

fn median(times: &mut [f64]) -> f64 {
    times.sort_by(f64::total_cmp);
    times[times.len() / 2]
}

/// Times the two in turn, each round beginning with another; prints a row of medians and ratios.
fn time(name: &str, image: &[u32]) {
    let tests: [fn(&[u32]) -> bool; 2] = [proved, ordinary];
    let mut times = [const { Vec::new() }; 2];
    for round in 0..ROUNDS {
        for k in 0..2 {
            let k = (round + k) % 2;
            times[k].push(micros(tests[k], image));
        }
    }
    let [p, o] = times.each_mut().map(|times| median(times));
    println!("| {name} | {p:.1} | {o:.1} | {:.2} |", p / o);
}

fn main() {
    let mut random = XorShift(SEED);
    agree::on_limits();
    let (all, kept) = agree::on_edges(&mut random);
    println!("small images: agreed on {all}, each with one word at an edge, {kept} of them well formed (seed {SEED})");
    let mut images = [("counts 0", laid(MOST, NAMES_MOST, 1)), ("every region full", filled(MOST, MOST, NAMES_MOST, &mut random))];
    for (name, image) in &mut images {
        agree::on_faults(name, image);
        let kept = (0..DAMAGED).filter(|_| agree::on_damage(name, image, &mut random)).count();
        agree::agreed(image, Some(true), name);
        println!("{name}: agreed on the image, its faults and {DAMAGED} damaged ones, {kept} of them well formed");
    }
    println!(
        "{} words; medians of {ROUNDS} calls, in turn; the goal is a ratio of at most {GOAL} to the ordinary Rust",
        images[0].1.len()
    );
    println!();
    println!("| image | proved check, µs | Rust, ordinary, µs | ratio |");
    println!("|---|---:|---:|---:|");
    for (name, image) in &images {
        time(name, image);
    }
}
