//! That the two tests agree: on whole images, on faults at every region's ends, on small images with each word changed to each
//! value at an edge, and on large ones changed at random.
use crate::images::{deep, filled, start_of};
use crate::{ordinary, proved};
use shared::image::laid;
use shared::layout::*;
use shared::random::XorShift;

/// What both say; ends the run where they differ, or where the answer is not the one that is due.
pub fn agreed(image: &[u32], due: Option<bool>, what: &str) -> bool {
    let (p, o) = (proved(image), ordinary(image));
    if p != o || due.is_some_and(|due| due != p) {
        eprintln!("DISAGREEMENT on {what}: proved {p}, Rust {o}, due {due:?}");
        std::process::exit(1);
    }
    p
}

/// An image of the largest capacities is well formed, and no longer so with a fault in the first or last word of any region.
pub fn on_faults(name: &str, image: &mut [u32]) {
    agreed(image, Some(true), name);
    for region in ENTRIES..=EQUALS {
        for at in [start_of(MOST, region), start_of(MOST, region + 1) - 1] {
            let word = image[at];
            image[at] = u32::MAX;
            agreed(image, Some(false), &format!("{name}, fault at word {at}"));
            image[at] = word;
        }
    }
    for words in [0, 1, HEADER_WORDS - 1, HEADER_WORDS, image.len() - 1] {
        agreed(&image[..words], Some(false), &format!("{name}, first {words} words"));
    }
}

/// Capacities and spreads at their maxima and past them, and words past the last region.
pub fn on_limits() {
    for region in ENTRIES..=EQUALS {
        let mut capacities = MOST;
        capacities[region - 1] += 1;
        agreed(&laid(capacities, 1, 1), Some(false), &format!("region {region}, a capacity too large"));
    }
    let none = [0; REGIONS];
    agreed(&laid(none, 0, 1), Some(false), "no names, and a functor");
    agreed(&laid(none, 1, 1), Some(true), "capacities 0");
    agreed(&[laid(none, 1, 1), vec![0]].concat(), Some(false), "a word too many");
    agreed(&deep(1), Some(true), "spread 1024");
    agreed(&deep(2), Some(false), "spread 1025");
}

/// Changes each word of small images to each value at an edge; answers how many images, and how many of them are well formed.
pub fn on_edges(random: &mut XorShift) -> (usize, usize) {
    let (mut all, mut kept) = (0, 0);
    for full in [true, false] {
        let counts = [60, 40, 12, 6, 6, 6];
        let capacities = if full { counts } else { counts.map(|n| n + 2) };
        let mut image = filled(capacities, counts, 40, random);
        agreed(&image, Some(true), "a small image");
        for at in 0..image.len() {
            let word = image[at];
            let region = (ENTRIES..=EQUALS).find(|&region| at >= HEADER_WORDS && at < start_of(capacities, region + 1));
            let (number, before) = match region {
                Some(region) => {
                    let width = WIDTHS[region - 1];
                    ((at - start_of(capacities, region)) / width, image[at - width])
                }
                None => (0, 0),
            };
            let near = |n: u32| [n.wrapping_sub(1), n, n.wrapping_add(1)];
            let (names, entries, fields) = (image[NAMES_AT], image[count_at(ENTRIES)], image[count_at(FIELDS)]);
            let edges = [word, number as u32, names, entries, fields, before, ENTRIES_MOST, SPREAD_MOST, UNION, NAMED, 2, 0];
            for value in edges.into_iter().flat_map(near) {
                image[at] = value;
                all += 1;
                kept += agreed(&image, None, &format!("a small image, word {at} from {word} to {value}")) as usize;
            }
            image[at] = word;
        }
    }
    (all, kept)
}

/// Changes one to three words at random, a third of them in the header; tells what both say, and puts the words back.
pub fn on_damage(name: &str, image: &mut [u32], random: &mut XorShift) -> bool {
    let mut undo = Vec::new();
    for _ in 0..1 + random.below(3) {
        let at = match random.below(9) as usize {
            0..=2 => random.below(HEADER_WORDS) as usize,
            k => {
                let (start, end) = (start_of(MOST, k - 2), start_of(MOST, k - 1));
                start + random.below(end - start) as usize
            }
        };
        let word = image[at];
        undo.push((at, word));
        image[at] = match random.below(6) {
            0 => random.next(),
            1 => random.below(4097),
            2 => random.below(9),
            3 => word ^ (1 << random.below(32)),
            4 => word.wrapping_add(1),
            _ => word.wrapping_sub(1),
        };
    }
    let said = agreed(image, None, &format!("{name}, damaged at {undo:?}"));
    for (at, word) in undo.into_iter().rev() {
        image[at] = word;
    }
    said
}
