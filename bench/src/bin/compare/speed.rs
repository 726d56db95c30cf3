//! The time that both take for the same calls.

use crate::answers::chain_of;
use crate::proved;
use reference::calls::{self, MOST_BYTES};
use reference::closest as search;
use reference::coding::Kind;
use reference::inputs::{self, Shape};
use reference::measure::MeasureName;
use reference::outline::{MOST_POINTS, Outline, Point};
use reference::random::Random;
use reference::records;
use reference::search::PRICED_ROW;
use std::hint::black_box;

const POINTS: [usize; 3] = [16, 64, MOST_POINTS];
const TOLERANCES: [(u64, u64); 3] = [(1, 2), (2, 1), (8, 1)];
const OUTLINES: usize = 4;

/// What a batch of calls takes at least, so that the clock's own time does not count.
const LEAST_NANOSECONDS: u64 = 2_000_000;

/// In place of a number of rounds: every call is made once by both, for tools that count instructions.
pub const ONCE: u64 = 0;

#[repr(C)]
struct Timespec {
    seconds: i64,
    nanoseconds: i64,
}

unsafe extern "C" {
    fn clock_gettime(clock: i32, time: *mut Timespec) -> i32;
}

/// The processor's time that this thread has taken, which other processes do not add to.
fn thread_nanoseconds() -> u64 {
    const THREAD_CPUTIME: i32 = 3;
    let mut time = Timespec {
        seconds: 0,
        nanoseconds: 0,
    };
    // The struct is laid out as in C.
    let status = unsafe { clock_gettime(THREAD_CPUTIME, &mut time) };
    assert_eq!(status, 0, "Linux has this clock");
    (time.seconds * 1_000_000_000 + time.nanoseconds) as u64
}

fn median<T: Copy + PartialOrd>(mut numbers: Vec<T>) -> T {
    numbers.sort_by(|a, b| a.partial_cmp(b).expect("no time is not a number"));
    numbers[numbers.len() / 2]
}

/// Nanoseconds of one call, the median of the rounds.
struct Times {
    proved: f64,
    rust: f64,
}

/// Nanoseconds of one call, by so many runs over all inputs.
fn time<I>(inputs: &[I], runs: u64, mut call: impl FnMut(&I)) -> f64 {
    let start = thread_nanoseconds();
    for _ in 0..runs {
        inputs.iter().for_each(|input| call(black_box(input)));
    }
    let taken = thread_nanoseconds() - start;
    taken as f64 / (runs * inputs.len() as u64) as f64
}

/// Both in turn, round by round, so that what else the machine does meets both.
fn times<I>(
    rounds: u64,
    inputs: &[I],
    mut proved: impl FnMut(&I),
    mut rust: impl FnMut(&I),
) -> Times {
    if rounds == ONCE {
        return Times {
            proved: time(inputs, 1, proved),
            rust: time(inputs, 1, rust),
        };
    }
    let once = time(inputs, 1, &mut rust) * inputs.len() as f64;
    let runs = (LEAST_NANOSECONDS as f64 / once.max(1.0)).ceil() as u64;
    let (proved, rust) = (0..rounds)
        .map(|_| {
            (
                time(inputs, runs, &mut proved),
                time(inputs, runs, &mut rust),
            )
        })
        .unzip();
    Times {
        proved: median(proved),
        rust: median(rust),
    }
}

impl Times {
    fn cells(&self) -> String {
        let Times { proved, rust } = self;
        format!("{proved:.0} | {rust:.0} | {:.2}", proved / rust)
    }
}

/// Outlines that the kind can write.
fn outlines(kind: Kind, points: usize, random: &mut Random) -> Vec<Outline> {
    let shapes = match kind {
        Kind::Axis => [Shape::Stairs; OUTLINES],
        _ => [Shape::Walk, Shape::Circle, Shape::Spiral, Shape::Stairs],
    };
    shapes
        .map(|shape| inputs::outline_of(shape, points, random))
        .to_vec()
}

struct Cheapest {
    chain: Vec<u8>,
    tolerance: (u64, u64),
}

fn cheapest(rounds: u64, kind: Kind, measure: MeasureName, outlines: &[Outline]) -> Times {
    let inputs: Vec<Cheapest> = outlines
        .iter()
        .flat_map(|outline| TOLERANCES.map(|tolerance| (chain_of(outline), tolerance)))
        .map(|(chain, tolerance)| Cheapest { chain, tolerance })
        .collect();
    let kind = kind.number();
    let (mut ours, mut theirs) = ([0; MOST_BYTES], [0; MOST_BYTES]);
    times(
        rounds,
        &inputs,
        |Cheapest { chain, tolerance }| {
            let mut written = proved::Written { bytes: 0, bits: 0 };
            let answer =
                proved::cheapest(chain, kind, measure, *tolerance, &mut ours, &mut written);
            assert_eq!(black_box(answer), 0);
        },
        |Cheapest { chain, tolerance }| {
            let answer = calls::cheapest(chain, kind, measure, *tolerance, &mut theirs);
            assert!(black_box(answer).is_ok());
        },
    )
}

struct Closest {
    chain: Vec<u8>,
    budget: u16,
    /// The searches that the Rust side makes.
    searches: u32,
}

/// Budgets from the least that any polygon takes to what an exact one takes, even on the scale of logarithms.
fn budgets(chain: &[u8], kind: u16, measure: MeasureName) -> [u16; 3] {
    let bits = |tolerance| {
        let written = calls::cheapest(chain, kind, measure, tolerance, &mut [0; MOST_BYTES]);
        f64::from(written.expect("the kind can write the outline").code_bits)
    };
    let (least, exact) = (bits(((1 << 40) - 1, 1)), bits((0, 1)));
    [0.25, 0.5, 0.75].map(|part| (least * (exact / least).powf(part)).ceil() as u16)
}

fn closest_inputs(kind: Kind, measure: MeasureName, outline: &Outline) -> [Closest; 3] {
    let chain = chain_of(outline);
    budgets(&chain, kind.number(), measure).map(|budget| {
        let mut rows = [PRICED_ROW; MOST_POINTS];
        let mut list = [0; MOST_POINTS];
        let (_, effort) = search::closest(outline, kind, measure, budget, &mut rows, &mut list);
        Closest {
            chain: chain.clone(),
            budget,
            searches: effort.searches,
        }
    })
}

/// The times, and the searches that the Rust side makes: the median and the most.
fn closest(
    rounds: u64,
    kind: Kind,
    measure: MeasureName,
    outlines: &[Outline],
) -> (Times, u32, u32) {
    let inputs: Vec<Closest> = outlines
        .iter()
        .flat_map(|outline| closest_inputs(kind, measure, outline))
        .collect();
    let kind = kind.number();
    let (mut ours, mut theirs) = ([0; MOST_BYTES], [0; MOST_BYTES]);
    let times = times(
        rounds,
        &inputs,
        |Closest { chain, budget, .. }| {
            let mut written = proved::Written { bytes: 0, bits: 0 };
            let answer = proved::closest(chain, kind, measure, *budget, &mut ours, &mut written);
            assert_eq!(black_box(answer), 0);
        },
        |Closest { chain, budget, .. }| {
            let answer = calls::closest(chain, kind, measure, *budget, &mut theirs);
            assert!(black_box(answer).is_ok());
        },
    );
    let searches: Vec<u32> = inputs.iter().map(|input| input.searches).collect();
    let most = searches.iter().copied().max().unwrap_or(0);
    (times, median(searches), most)
}

/// Records of all points of the outlines.
fn read(rounds: u64, kind: Kind, outlines: &[Outline]) -> Times {
    let inputs: Vec<Vec<u8>> = outlines
        .iter()
        .map(|outline| {
            let all: Vec<u16> = (0..outline.points().len() as u16).collect();
            let mut bytes = vec![0; MOST_BYTES];
            let written = records::write(outline, kind, &all, &mut bytes);
            bytes.truncate(written.expect("the kind can write every step").bytes);
            bytes
        })
        .collect();
    let mut ours = [proved::Point { col: 0, row: 0 }; MOST_POINTS];
    let mut theirs = [Point::default(); MOST_POINTS];
    times(
        rounds,
        &inputs,
        |bytes| {
            let mut reading = proved::Reading {
                kind: 0,
                bytes: 0,
                vertices: 0,
            };
            let answer = proved::read(bytes, &mut ours, &mut reading);
            assert_eq!(black_box(answer), 0);
        },
        |bytes| assert!(black_box(calls::read(bytes, &mut theirs)).is_ok()),
    )
}

/// Every kind with outlines of 16, 64 and 256 points.
fn cases() -> impl Iterator<Item = (usize, Kind, Vec<Outline>)> {
    let mut random = Random::new(3);
    POINTS
        .into_iter()
        .flat_map(|points| Kind::ALL.map(|kind| (points, kind)))
        .map(move |(points, kind)| (points, kind, outlines(kind, points, &mut random)))
}

/// Prints the table of the cases that the words pick: a call, a number of points, a kind.
pub fn compare(rounds: u64, picked: &[&str]) {
    let picks = |call: &str, points: usize, kind: Kind| {
        let words = [
            call.to_string(),
            points.to_string(),
            kind.number().to_string(),
        ];
        words
            .iter()
            .zip(picked)
            .all(|(word, picked)| word == picked)
    };
    println!(
        "| call | points | kind | line: proved | Rust | ratio | pace: proved | Rust | ratio | searches |"
    );
    println!("|---|---|---|---|---|---|---|---|---|---|");
    for (points, kind, outlines) in cases() {
        if picks("cheapest", points, kind) {
            let [line, pace] =
                MeasureName::ALL.map(|measure| cheapest(rounds, kind, measure, &outlines).cells());
            println!(
                "| cheapest | {points} | {} | {line} | {pace} | |",
                kind.number()
            );
        }
    }
    for (points, kind, outlines) in cases() {
        if picks("closest", points, kind) {
            let [(line, usual, most), (pace, usual_pace, most_pace)] =
                MeasureName::ALL.map(|measure| closest(rounds, kind, measure, &outlines));
            let (line, pace) = (line.cells(), pace.cells());
            let searches = format!("{usual} to {most}, {usual_pace} to {most_pace}");
            println!(
                "| closest | {points} | {} | {line} | {pace} | {searches} |",
                kind.number()
            );
        }
    }
    for (points, kind, outlines) in cases() {
        if picks("read", points, kind) {
            let cells = read(rounds, kind, &outlines).cells();
            println!("| read | {points} | {} | {cells} | | | | |", kind.number());
        }
    }
}
