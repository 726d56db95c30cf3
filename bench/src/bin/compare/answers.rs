//! Random calls of both, with all that they answer and all memory that they are lent compared.

use crate::proved;
use reference::calls::{self, MOST_BYTES};
use reference::coding::Kind;
use reference::inputs::{self, Damage, Shape};
use reference::measure::MeasureName;
use reference::outline::{MOST_POINTS, Outline, Point};
use reference::random::Random;
use reference::records::{self, Reading, Written};
use reference::refusal::Refusal;
use std::collections::BTreeMap;

/// Places before and after what is lent.
const GUARD: usize = 64;

/// The bytes of a point in a list.
const POINT_BYTES: usize = 4;

/// The most differences that are told.
const MOST_TOLD: u64 = 10;

#[derive(Clone, Copy, Debug)]
enum Goal {
    Tolerance(u64, u64),
    Budget(u16),
}

#[derive(Clone, Copy, Debug)]
enum Call {
    Best {
        kind: u16,
        measure: MeasureName,
        goal: Goal,
    },
    Read,
}

impl Call {
    fn name(self) -> &'static str {
        match self {
            Call::Best {
                goal: Goal::Tolerance(..),
                ..
            } => "cheapest",
            Call::Best {
                goal: Goal::Budget(_),
                ..
            } => "closest",
            Call::Read => "read",
        }
    }

    /// The bytes of a place of what is lent.
    fn place_bytes(self) -> usize {
        match self {
            Call::Best { .. } => 1,
            Call::Read => POINT_BYTES,
        }
    }
}

/// A call, the record that it is given, and the places that it is lent.
#[derive(Debug)]
struct Input {
    call: Call,
    bytes: Vec<u8>,
    room: usize,
}

/// What a call answers, tells and leaves.
#[derive(Debug, PartialEq, Eq)]
struct Outcome {
    answer: i32,
    told: [usize; 3],
    memory: Vec<u8>,
}

impl Input {
    /// The bytes of what is lent, with the guards.
    fn lent(&self) -> (usize, usize) {
        let place = self.call.place_bytes();
        (GUARD * place, (GUARD + self.room) * place)
    }

    /// Whether nothing has changed but the places that an accepted call fills.
    fn keeps(&self, before: &[u8], outcome: &Outcome, told_before: [usize; 3]) -> bool {
        let (first, last) = self.lent();
        let filled = match (outcome.answer, self.call) {
            (0, Call::Best { .. }) => outcome.told[0],
            (0, Call::Read) => outcome.told[2] * POINT_BYTES,
            _ => 0,
        };
        first + filled <= last
            && outcome.memory[..first] == before[..first]
            && outcome.memory[first + filled..] == before[first + filled..]
            && (outcome.answer == 0 || outcome.told == told_before)
    }
}

fn to_points<P>(memory: &[u8], point: impl Fn(u16, u16) -> P) -> Vec<P> {
    let (points, _) = memory.as_chunks::<POINT_BYTES>();
    points
        .iter()
        .map(|&[a, b, c, d]| point(u16::from_le_bytes([a, b]), u16::from_le_bytes([c, d])))
        .collect()
}

fn to_bytes(points: impl Iterator<Item = (u16, u16)>) -> Vec<u8> {
    points
        .flat_map(|(col, row)| [col.to_le_bytes(), row.to_le_bytes()])
        .flatten()
        .collect()
}

fn by_proved(input: &Input, before: &[u8], told: [usize; 3]) -> Outcome {
    let mut memory = before.to_vec();
    let bytes = &input.bytes;
    let Call::Best {
        kind,
        measure,
        goal,
    } = input.call
    else {
        let mut list = to_points(before, |col, row| proved::Point { col, row });
        let mut reading = proved::Reading {
            kind: told[0] as u16,
            bytes: told[1],
            vertices: told[2],
        };
        let places = &mut list[GUARD..GUARD + input.room];
        let answer = proved::read(bytes, places, &mut reading);
        return Outcome {
            answer,
            told: [reading.kind.into(), reading.bytes, reading.vertices],
            memory: to_bytes(list.iter().map(|point| (point.col, point.row))),
        };
    };
    let mut written = proved::Written {
        bytes: told[0],
        bits: told[1],
    };
    let buffer = &mut memory[GUARD..GUARD + input.room];
    let answer = match goal {
        Goal::Tolerance(top, bottom) => {
            proved::cheapest(bytes, kind, measure, (top, bottom), buffer, &mut written)
        }
        Goal::Budget(budget) => proved::closest(bytes, kind, measure, budget, buffer, &mut written),
    };
    Outcome {
        answer,
        told: [written.bytes, written.bits, told[2]],
        memory,
    }
}

fn best_by_rust(
    bytes: &[u8],
    kind: u16,
    measure: MeasureName,
    goal: Goal,
    buffer: &mut [u8],
) -> Result<Written, Refusal> {
    match goal {
        Goal::Tolerance(top, bottom) => {
            calls::cheapest(bytes, kind, measure, (top, bottom), buffer)
        }
        Goal::Budget(budget) => {
            calls::closest(bytes, kind, measure, budget, buffer).map(|(written, _)| written)
        }
    }
}

fn by_rust(input: &Input, before: &[u8], told: [usize; 3]) -> Outcome {
    let mut memory = before.to_vec();
    let answered = match input.call {
        Call::Best {
            kind,
            measure,
            goal,
        } => {
            let buffer = &mut memory[GUARD..GUARD + input.room];
            best_by_rust(&input.bytes, kind, measure, goal, buffer)
                .map(|Written { bytes, code_bits }| [bytes, code_bits as usize, told[2]])
        }
        Call::Read => {
            let mut list = to_points(before, Point::new);
            let reading = calls::read(&input.bytes, &mut list[GUARD..GUARD + input.room]);
            memory = to_bytes(list.iter().map(|point| (point.col, point.row)));
            reading.map(
                |Reading {
                     kind,
                     bytes,
                     vertices,
                 }| [kind.into(), bytes, vertices],
            )
        }
    };
    let answer = answered.map_or_else(|refusal| -i32::from(refusal.number()), |_| 0);
    Outcome {
        answer,
        told: answered.unwrap_or(told),
        memory,
    }
}

/// The chain record of all points of an outline.
pub fn chain_of(outline: &Outline) -> Vec<u8> {
    let all: Vec<u16> = (0..outline.points().len() as u16).collect();
    let mut bytes = vec![0; MOST_BYTES];
    let written = records::write(outline, Kind::Chain, &all, &mut bytes)
        .expect("every step of an outline has a chain code");
    bytes.truncate(written.bytes);
    bytes
}

/// Mostly the number of a kind.
fn kind_number(random: &mut Random) -> u16 {
    if random.once_in(12) {
        let others = [0, 6, 7, 8, 255, 256, 257, 261, 0x0400, u16::MAX];
        random.pick(&others)
    } else {
        inputs::kind(random).number()
    }
}

fn outline(kind: u16, random: &mut Random) -> Outline {
    // Few others have codes along columns and rows alone.
    if kind == Kind::Axis.number() && !random.once_in(4) {
        let points = random.between(1, MOST_POINTS);
        return inputs::outline_of(Shape::Stairs, points, random);
    }
    if random.once_in(10) {
        return inputs::outline_of(random.pick(&Shape::ALL), MOST_POINTS, random);
    }
    inputs::outline(random)
}

/// Mostly a good chain record.
fn chain(kind: u16, random: &mut Random) -> Vec<u8> {
    let mut bytes = match random.below(30) {
        0 => inputs::record(inputs::kind(random), random),
        _ => chain_of(&outline(kind, random)),
    };
    if random.once_in(6) {
        let damage = random.pick(&Damage::ALL);
        inputs::damage(&mut bytes, damage, random);
    }
    bytes
}

/// Any budget, or one at which a polygon just fits or just does not.
fn budget(bytes: &[u8], kind: u16, measure: MeasureName, random: &mut Random) -> u16 {
    if random.once_in(3) {
        let tolerance = inputs::tolerance(random);
        let tolerance = (tolerance.top(), u64::from(tolerance.bottom()));
        if let Ok(written) = calls::cheapest(bytes, kind, measure, tolerance, &mut [0; MOST_BYTES])
        {
            let less = random.below(2) as u16;
            return (written.code_bits as u16).saturating_sub(less);
        }
    }
    inputs::budget(usize::from(*bytes.get(8).unwrap_or(&0)) + 1, random)
}

/// Mostly room enough; else about as many places as are needed, or any number below.
fn room(needed: usize, enough: usize, random: &mut Random) -> usize {
    match random.below(8) {
        0 => random.below(needed + 1),
        1 => (needed + random.below(3)).saturating_sub(1),
        _ => enough + random.below(40),
    }
}

fn best(tolerance: bool, random: &mut Random) -> Input {
    let kind = kind_number(random);
    let measure = inputs::measure(random);
    let bytes = chain(kind, random);
    let goal = if tolerance {
        let (top, bottom) = inputs::tolerance_numbers(random);
        Goal::Tolerance(top, bottom)
    } else {
        Goal::Budget(budget(&bytes, kind, measure, random))
    };
    // A call of its own says how much room is needed.
    let needed = match best_by_rust(&bytes, kind, measure, goal, &mut [0; MOST_BYTES]) {
        Ok(written) => written.bytes,
        Err(_) => 20,
    };
    Input {
        call: Call::Best {
            kind,
            measure,
            goal,
        },
        bytes,
        room: room(needed, MOST_BYTES, random),
    }
}

fn read(random: &mut Random) -> Input {
    let kind = inputs::kind(random);
    let mut bytes = if random.once_in(4) {
        chain_of(&inputs::outline(random))
    } else {
        inputs::record(kind, random)
    };
    if !random.once_in(3) {
        let damage = random.pick(&Damage::ALL);
        inputs::damage(&mut bytes, damage, random);
    }
    let needed = usize::from(*bytes.get(8).unwrap_or(&0)) + 1;
    Input {
        call: Call::Read,
        bytes,
        room: room(needed, MOST_POINTS, random),
    }
}

fn input(random: &mut Random) -> Input {
    match random.below(3) {
        0 => best(true, random),
        1 => best(false, random),
        _ => read(random),
    }
}

/// What a difference is about, so that it can be asked again.
fn tell(number: u64, input: &Input, proved: &Outcome, rust: &Outcome) {
    println!("difference at input {number}: {:?}", input.call);
    println!("  room {}, bytes {:02x?}", input.room, input.bytes);
    for (name, outcome) in [("proved", proved), ("Rust", rust)] {
        println!("  {name}: {} {:?}", outcome.answer, outcome.told);
        let (first, last) = input.lent();
        println!("    {:02x?}", &outcome.memory[first..last]);
    }
}

/// Compares so many random calls; true where nothing differs.
pub fn compare(count: u64, seed: u64) -> bool {
    let mut random = Random::new(seed);
    let mut answers: BTreeMap<(&str, i32), u64> = BTreeMap::new();
    let mut differences = 0;
    for number in 0..count {
        let input = input(&mut random);
        let kept = input.bytes.clone();
        let places = 2 * GUARD + input.room;
        let before: Vec<u8> = (0..places * input.call.place_bytes())
            .map(|_| random.word() as u8)
            .collect();
        // A kind is told in 16 bits.
        let told = [
            random.word() as u16 as usize,
            random.word() as usize,
            random.word() as usize,
        ];
        let proved = by_proved(&input, &before, told);
        let rust = by_rust(&input, &before, told);
        *answers
            .entry((input.call.name(), proved.answer))
            .or_default() += 1;
        if proved != rust || !input.keeps(&before, &proved, told) || input.bytes != kept {
            differences += 1;
            if differences <= MOST_TOLD {
                tell(number, &input, &proved, &rust);
            }
        }
    }
    println!("call answer times");
    for ((call, answer), times) in &answers {
        println!("{call} {answer} {times}");
    }
    println!("{count} inputs compared from seed {seed}, {differences} differences");
    differences == 0
}
