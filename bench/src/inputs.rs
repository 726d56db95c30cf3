//! Random inputs, the same for the same seed.

use crate::coding::{Coder, Kind};
use crate::fraction::Fraction;
use crate::measure::MeasureName;
use crate::outline::{MOST_PELS, MOST_POINTS, MOVES, Outline};
use crate::random::Random;
use crate::records;

/// How the points of an outline run.
#[derive(Clone, Copy, Debug, PartialEq, Eq)]
pub enum Shape {
    /// Turns by an eighth now and then.
    Walk,
    /// Turns by a quarter now and then, and keeps to columns and rows.
    Stairs,
    /// Any direction at each step.
    Scatter,
    Circle,
    Spiral,
    Straight,
    /// One way, then the same way back.
    BackAndForth,
}

impl Shape {
    pub const ALL: [Shape; 7] = [
        Shape::Walk,
        Shape::Stairs,
        Shape::Scatter,
        Shape::Circle,
        Shape::Spiral,
        Shape::Straight,
        Shape::BackAndForth,
    ];
}

/// An outline of a shape with so many points in the largest frame.
pub fn outline_of(shape: Shape, points: usize, random: &mut Random) -> Outline {
    let mut outline = opened(MOST_PELS, MOST_PELS, random);
    grow(&mut outline, shape, points, random);
    outline
}

fn opened(width: u16, height: u16, random: &mut Random) -> Outline {
    let mut outline = Outline::new();
    let col = random.below(width.into()) as u16;
    let row = random.below(height.into()) as u16;
    outline
        .open(width, height, col, row)
        .expect("the start lies in the frame");
    outline
}

/// Extends an outline to so many points, or fewer where a frame leaves no step.
fn grow(outline: &mut Outline, shape: Shape, points: usize, random: &mut Random) {
    let points = points.min(MOST_POINTS);
    let mut directions = Directions::new(shape, points, random);
    while outline.points().len() < points {
        let wanted = directions.next(random);
        // Where the frame is in the way, the nearest turn to either side that is not.
        let turns = [0, 1, 7, 2, 6, 3, 5, 4];
        if !turns
            .iter()
            .any(|turn| outline.extend((wanted + turn) % 8).is_ok())
        {
            break;
        }
    }
}

/// The directions of a shape, step by step.
struct Directions {
    shape: Shape,
    direction: u8,
    turn: u8,
    step: usize,
    steps: usize,
    /// Where a round shape is going, in radians, and how this changes.
    angle: f64,
    bend: f64,
    /// What a round shape still has to go, in pels, since steps go by whole ones.
    owed: (f64, f64),
}

impl Directions {
    fn new(shape: Shape, points: usize, random: &mut Random) -> Self {
        let rounds = random.between(1, 4) as f64;
        let direction = random.below(8) as u8;
        Directions {
            shape,
            direction,
            turn: random.pick(&[1, 7]),
            step: 0,
            steps: points.max(2) - 1,
            angle: f64::from(direction),
            bend: std::f64::consts::TAU * rounds / points as f64,
            owed: (0.0, 0.0),
        }
    }

    fn next(&mut self, random: &mut Random) -> u8 {
        let at = self.step;
        self.step += 1;
        match self.shape {
            Shape::Walk => {
                if random.once_in(3) {
                    self.direction = (self.direction + random.pick(&[1, 7])) % 8;
                }
                self.direction
            }
            Shape::Stairs => {
                if random.once_in(3) {
                    self.direction = (self.direction + random.pick(&[2, 6])) % 8;
                }
                self.direction & 6
            }
            Shape::Scatter => random.below(8) as u8,
            Shape::Circle => self.round(self.bend),
            // The bend grows from half to twice a circle's.
            Shape::Spiral => self.round(self.bend * (0.5 + 1.5 * at as f64 / self.steps as f64)),
            Shape::Straight => {
                if random.once_in(40) {
                    (self.direction + self.turn) % 8
                } else {
                    self.direction
                }
            }
            Shape::BackAndForth if at < self.steps / 2 => self.direction,
            Shape::BackAndForth => (self.direction + 4) % 8,
        }
    }

    /// The step that goes nearest to where the curve is.
    fn round(&mut self, bend: f64) -> u8 {
        // Each step goes one pel along one axis at least, and diagonal ones go farther: the bend is
        // for the way gone, whose mean over a round is 1.122.
        let size = self.angle.cos().abs().max(self.angle.sin().abs());
        let bend = bend / (1.122 * size);
        self.angle += if self.turn == 1 { bend } else { -bend };
        self.owed.0 += self.angle.cos() / size;
        self.owed.1 += self.angle.sin() / size;
        let left = |&(cols, rows): &(i16, i16)| {
            let (cols, rows) = (self.owed.0 - f64::from(cols), self.owed.1 - f64::from(rows));
            cols * cols + rows * rows
        };
        let nearest = (0..MOVES.len())
            .min_by(|&a, &b| left(&MOVES[a]).total_cmp(&left(&MOVES[b])))
            .unwrap_or(0);
        let (cols, rows) = MOVES[nearest];
        self.owed.0 -= f64::from(cols);
        self.owed.1 -= f64::from(rows);
        nearest as u8
    }
}

/// Any outline: any shape, 1 to 256 points, frames from tiny to the largest.
pub fn outline(random: &mut Random) -> Outline {
    let most = random.pick(&[3, 12, 40, MOST_POINTS]);
    let points = random.between(1, most);
    outline_up_to(points, random)
}

/// Any outline of so many points, or of fewer where its frame leaves no step.
pub fn outline_up_to(points: usize, random: &mut Random) -> Outline {
    let sizes = [1, 2, 7, 64, 300, MOST_PELS];
    let mut outline = opened(random.pick(&sizes), random.pick(&sizes), random);
    let shape = random.pick(&Shape::ALL);
    grow(&mut outline, shape, points, random);
    outline
}

/// The outline L of `docs/FORMAT.md`, which the worked examples are about.
pub fn outline_l() -> Outline {
    let mut outline = Outline::new();
    outline
        .open(MOST_PELS, MOST_PELS, 5, 5)
        .expect("the start lies in the frame");
    for direction in [0, 0, 6, 6] {
        outline
            .extend(direction)
            .expect("the steps stay in the frame");
    }
    outline
}

/// A call on an outline, good or bad.
#[derive(Clone, Copy, Debug, PartialEq, Eq)]
pub enum Call {
    Open {
        width: u16,
        height: u16,
        col: u16,
        row: u16,
    },
    Extend {
        direction: u8,
    },
    Retract,
}

/// Any call, mostly extends.
pub fn call(random: &mut Random) -> Call {
    let sizes = [0, 1, 2, 3, 9, 300, 1_023, 1_024, 1_025, u16::MAX];
    match random.below(40) {
        0 => {
            let (width, height) = (random.pick(&sizes), random.pick(&sizes));
            let inside =
                |size: u16, random: &mut Random| random.below(usize::from(size) + 1) as u16;
            let (col, row) = (inside(width, random), inside(height, random));
            Call::Open {
                width,
                height,
                col,
                row,
            }
        }
        1..6 => Call::Retract,
        6 => Call::Extend {
            direction: random.word() as u8,
        },
        _ => Call::Extend {
            direction: random.below(8) as u8,
        },
    }
}

pub fn kind(random: &mut Random) -> Kind {
    random.pick(&Kind::ALL)
}

pub fn measure(random: &mut Random) -> MeasureName {
    random.pick(&MeasureName::ALL)
}

/// A tolerance in bounds: mostly of a few pels, sometimes none at all or huge.
pub fn tolerance(random: &mut Random) -> Fraction {
    let (top, bottom) = match random.below(8) {
        0 => (0, 1),
        1 => ((1 << 40) - 1, 1),
        2 => (random.below(1 << 40), random.between(1, 1 << 20)),
        3 => (random.below(100), 1),
        _ => (random.below(400), random.between(1, 64)),
    };
    Fraction::new(top as u64, bottom as u64).expect("in bounds")
}

/// Two numbers for a tolerance, one time in eight out of bounds.
pub fn tolerance_numbers(random: &mut Random) -> (u64, u64) {
    let good = tolerance(random);
    match random.below(32) {
        0 => (1 << 40, u64::from(good.bottom())),
        1 => (good.top(), 0),
        2 => (good.top(), (1 << 20) + 1),
        3 => (random.word(), random.word()),
        _ => (good.top(), u64::from(good.bottom())),
    }
}

/// A budget for an outline of so many points: from nothing to more than enough.
pub fn budget(points: usize, random: &mut Random) -> u16 {
    let most = match random.below(8) {
        0 => usize::from(u16::MAX),
        1 => 30,
        2..5 => 8 * points,
        _ => 24 * points,
    };
    random.between(0, most) as u16
}

/// Any polygon of an outline.
pub fn polygon(outline: &Outline, random: &mut Random) -> Vec<u16> {
    let last = outline.points().len() as u16 - 1;
    let sparse = random.between(1, 20);
    let inner: Vec<u16> = (1..last).filter(|_| random.once_in(sparse)).collect();
    let ends = [0, last];
    let ends = if last == 0 { &ends[..1] } else { &ends[..] };
    [&ends[..1], &inner, &ends[1..]].concat()
}

/// A polygon with a code for each edge, if single steps of the outline have one.
pub fn codable_polygon(outline: &Outline, kind: Kind, random: &mut Random) -> Option<Vec<u16>> {
    let count = outline.points().len();
    let mut list = vec![0];
    let mut at = 0;
    while at + 1 < count {
        let has_code = |&next: &usize| {
            let edge = outline.edge(at, next);
            edge.is_some_and(|edge| kind.price(edge.displacement()).is_some())
        };
        let reach = random.between(1, 20);
        let next = (at + 1..=(at + reach).min(count - 1))
            .rev()
            .find(has_code)?;
        list.push(next as u16);
        at = next;
    }
    Some(list)
}

/// A good record of a kind.
pub fn record(kind: Kind, random: &mut Random) -> Vec<u8> {
    loop {
        let outline = outline(random);
        let Some(list) = codable_polygon(&outline, kind, random) else {
            continue;
        };
        let mut bytes = vec![0; 9 + 4 * MOST_POINTS];
        if let Ok(written) = records::write(&outline, kind, &list, &mut bytes) {
            bytes.truncate(written.bytes);
            return bytes;
        }
    }
}

/// A change to a record.
#[derive(Clone, Copy, Debug, PartialEq, Eq)]
pub enum Damage {
    /// Bits of any bytes.
    Flips,
    /// A byte of the head becomes another.
    Head,
    /// Bytes are cut off and the length stays.
    Cut,
    /// Bytes are cut off and the length says so.
    Shorter,
    /// Bytes follow that the length does not count.
    Longer,
    /// Bytes follow that the length counts.
    Stretched,
    /// Nothing but noise behind a good length and kind.
    Noise,
}

impl Damage {
    pub const ALL: [Damage; 7] = [
        Damage::Flips,
        Damage::Head,
        Damage::Cut,
        Damage::Shorter,
        Damage::Longer,
        Damage::Stretched,
        Damage::Noise,
    ];
}

fn set_length(bytes: &mut [u8]) {
    let length = bytes.len().saturating_sub(2) as u16;
    if let Some(place) = bytes.first_chunk_mut() {
        *place = length.to_le_bytes();
    }
}

/// Damages a good record. The result may still be good, as when later bytes follow it.
pub fn damage(bytes: &mut Vec<u8>, damage: Damage, random: &mut Random) {
    match damage {
        Damage::Flips => {
            for _ in 0..random.between(1, 4) {
                let at = random.below(bytes.len());
                bytes[at] ^= 1 << random.below(8);
            }
        }
        Damage::Head => {
            let at = random.below(bytes.len().min(9));
            bytes[at] = random.pick(&[0, 1, 3, 4, 5, 7, 8, 0x40, 0x80, 0xFF]);
        }
        Damage::Cut => bytes.truncate(random.below(bytes.len())),
        Damage::Shorter => {
            bytes.truncate(random.below(bytes.len()));
            set_length(bytes);
        }
        Damage::Longer | Damage::Stretched => {
            let noise = random.once_in(2);
            for _ in 0..random.between(1, 5) {
                bytes.push(if noise { random.word() as u8 } else { 0 });
            }
            if damage == Damage::Stretched {
                set_length(bytes);
            }
        }
        Damage::Noise => bytes
            .iter_mut()
            .skip(8)
            .for_each(|byte| *byte = random.word() as u8),
    }
}

#[cfg(test)]
mod tests {
    use super::*;
    use crate::outline::Point;

    #[test]
    fn the_same_seed_makes_the_same_inputs() {
        let made = |seed| {
            let mut random = Random::new(seed);
            (
                outline(&mut random),
                record(Kind::RunOrFlat, &mut random),
                call(&mut random),
            )
        };
        assert_eq!(made(7), made(7));
        assert_ne!(made(7), made(8));
    }

    #[test]
    fn every_shape_has_the_points_asked_for() {
        let mut random = Random::new(1);
        for shape in Shape::ALL {
            for points in [1, 2, 3, 100, MOST_POINTS] {
                let outline = outline_of(shape, points, &mut random);
                assert_eq!(outline.points().len(), points, "{shape:?}");
            }
        }
    }

    #[test]
    fn circles_are_round_and_come_back() {
        let mut random = Random::new(4);
        for _ in 0..50 {
            let mut outline = Outline::new();
            outline.open(MOST_PELS, MOST_PELS, 512, 512).unwrap();
            grow(&mut outline, Shape::Circle, MOST_POINTS, &mut random);
            let points = outline.points();
            let (first, last) = (points[0], points[MOST_POINTS - 1]);
            assert!(first.col.abs_diff(last.col) < 8 && first.row.abs_diff(last.row) < 8);
            let spread = |of: fn(&Point) -> u16| {
                let (least, most) = (points.iter().map(of).min(), points.iter().map(of).max());
                most.unwrap() - least.unwrap()
            };
            let (width, height) = (spread(|p| p.col), spread(|p| p.row));
            assert!(width > 20 && width.abs_diff(height) < 8, "{width} {height}");
        }
    }

    #[test]
    fn polygons_are_polygons() {
        let mut random = Random::new(2);
        for _ in 0..500 {
            let outline = outline(&mut random);
            assert!(outline.is_polygon(&polygon(&outline, &mut random)));
            let kind = kind(&mut random);
            if let Some(list) = codable_polygon(&outline, kind, &mut random) {
                assert!(outline.is_polygon(&list));
            }
        }
    }
}
