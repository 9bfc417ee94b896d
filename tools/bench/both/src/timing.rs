//! Sees that both engines agree on a case, and times them in turn.
use crate::cases::Case;
use crate::engine::{Contents, Engine, Ours, Tix};
use shared::layout::MOST;
use sheafwinch::Table;
use std::hint::black_box;

/// As many rounds as fit into this time, but no fewer and no more than these; an odd number.
const SECONDS: f64 = 10.0;
const ROUNDS: [usize; 2] = [5, 101];
/// Samples of the check, and of making.
const CHECKS: usize = 51;
const MAKES: usize = 3;

/// The processor time of this thread, in seconds: other work on the machine does not count.
pub fn clock() -> f64 {
    #[repr(C)]
    struct Time {
        seconds: i64,
        nanos: i64,
    }
    unsafe extern "C" {
        fn clock_gettime(clock: i32, time: *mut Time) -> i32;
    }
    const THREAD_PROCESSOR_TIME: i32 = 3;
    let mut time = Time { seconds: 0, nanos: 0 };
    let told = unsafe { clock_gettime(THREAD_PROCESSOR_TIME, &mut time) };
    assert_eq!(told, 0, "the clock");
    time.seconds as f64 + time.nanos as f64 * 1e-9
}

/// Seconds: of all questions of a case, and of the last one.
#[derive(Clone, Copy)]
pub struct Seconds {
    pub all: f64,
    pub last: f64,
}

/// Asks every question of a fresh copy, which is made before the clock starts and dropped after it stops.
fn run(engine: &impl Engine, case: &Case) -> Seconds {
    let mut engine = engine.clone();
    let (&last, others) = case.questions.split_last().expect("a question");
    let start = clock();
    let mut yes = others.iter().all(|&(sub, sup)| engine.ask(sub, sup).is_some());
    let before_last = clock();
    yes &= engine.ask(last.0, last.1).is_some();
    let end = clock();
    assert!(yes, "{}: every answer is yes", case.name);
    black_box(&engine);
    Seconds { all: end - start, last: end - before_last }
}

fn median(times: impl Iterator<Item = f64>) -> f64 {
    let mut times: Vec<f64> = times.collect();
    times.sort_by(f64::total_cmp);
    times[times.len() / 2]
}

/// Medians of one side.
fn medians(samples: &[Seconds]) -> Seconds {
    Seconds { all: median(samples.iter().map(|s| s.all)), last: median(samples.iter().map(|s| s.last)) }
}

/// The median time of so many calls.
fn timed<T>(samples: usize, call: impl Fn() -> T) -> f64 {
    let sample = |_| {
        let start = clock();
        let answer = call();
        let end = clock();
        black_box(answer);
        end - start
    };
    median((0..samples).map(sample))
}

/// The median time of the check of a table, done so many times in a row.
pub fn check(table: &Table, times: u32) -> f64 {
    timed(CHECKS, || (0..times).for_each(|_| assert!(sheafwinch::check(black_box(table.words())), "well formed")))
        / f64::from(times)
}

/// Runs the sides in turn, each round beginning with another, as many rounds as there is time for; the samples of each.
fn rounds<T, const SIDES: usize>(sides: [&dyn Fn() -> T; SIDES]) -> ([Vec<T>; SIDES], usize) {
    let mut samples = [const { Vec::new() }; SIDES];
    let start = clock();
    let mut rounds = 0;
    while rounds < ROUNDS[0] || rounds % 2 == 0 || (rounds < ROUNDS[1] && clock() - start < SECONDS) {
        for k in 0..SIDES {
            let k = (rounds + k) % SIDES;
            samples[k].push(sides[k]());
        }
        rounds += 1;
    }
    (samples, rounds)
}

/// The median seconds of each side, run in turn, and the rounds.
pub fn in_turn<const SIDES: usize>(sides: [&dyn Fn() -> f64; SIDES]) -> ([f64; SIDES], usize) {
    let (samples, rounds) = rounds(sides);
    (samples.map(|samples| median(samples.into_iter())), rounds)
}

/// What was seen of a case.
pub struct Seen {
    pub name: String,
    pub questions: usize,
    pub steps: u64,
    pub last_steps: u32,
    pub bounds: usize,
    pub visited: usize,
    /// Just enough for this case, and their words.
    pub capacities: [u32; 6],
    pub words: usize,
    pub rounds: usize,
    pub ours: Seconds,
    /// Ours in an image with the largest capacities.
    pub largest: Seconds,
    pub rust: Seconds,
    /// The check alone, after the questions: just enough, and largest.
    pub checks: [f64; 2],
    /// Making the shapes: ours just enough, ours largest, the Rust.
    pub makes: [f64; 3],
}

/// The capacities that are just enough for a case that leaves such contents.
fn enough(case: &Case, contents: &Contents) -> [u32; 6] {
    let (fields, _) = case.fields_and_names();
    [case.shapes.len(), fields, contents.bounds.len(), contents.visited.len(), case.pending, 0].map(|count| count as u32)
}

/// Sees that the engines agree, or ends the run; then times them.
pub fn see(case: &Case) -> Seen {
    let mut counted = Tix::new(case, true);
    let (steps, contents) = (counted.ask_all(case), counted.contents());
    let capacities = enough(case, &contents);
    let [ours, largest] = [capacities, MOST].map(|capacities| Ours::new(case, capacities));
    let rust = Tix::new(case, false);
    let checks = [&ours, &largest].map(|ours| {
        let mut ours = ours.clone();
        assert!(ours.ask_all(case) == steps, "{}: steps differ", case.name);
        assert!(ours.contents() == contents, "{}: tables differ", case.name);
        check(&ours.0, 1)
    });

    let (samples, rounds) = rounds([&|| run(&ours, case), &|| run(&largest, case), &|| run(&rust, case)]);
    let [ours_time, largest_time, rust_time] = samples.map(|samples| medians(&samples));
    Seen {
        name: case.name.clone(),
        questions: case.questions.len(),
        steps: steps.iter().map(|&steps| u64::from(steps)).sum(),
        last_steps: *steps.last().expect("a question"),
        bounds: contents.bounds.len(),
        visited: contents.visited.len(),
        capacities,
        words: ours.0.words().len(),
        rounds,
        ours: ours_time,
        largest: largest_time,
        rust: rust_time,
        checks,
        makes: [
            timed(MAKES, || Ours::new(case, capacities)),
            timed(MAKES, || Ours::new(case, MOST)),
            timed(MAKES, || Tix::new(case, false)),
        ],
    }
}

/// Asks a case's questions of ours so many times, each time in an image that is just large enough: for a profiler.
pub fn repeat(case: &Case, times: usize) -> f64 {
    let mut rust = Tix::new(case, false);
    rust.ask_all(case);
    let ours = Ours::new(case, enough(case, &rust.contents()));
    median((0..times).map(|_| run(&ours, case).all))
}
