//! How far points stray from an edge.

use crate::fraction::{Bound, Fraction};
use crate::outline::{Edge, Outline, Point};
use crate::refusal::Refusal;

/// A measure whose fractions over one edge all have the same bottom.
pub trait Measure: Copy {
    fn bottom(self, edge: &Edge) -> u32;

    /// The top for the point `m` steps after the edge's start.
    fn top(self, edge: &Edge, m: usize) -> u64;

    /// The greatest top of the points between, or none if one of them is past the bound.
    fn greatest_top(self, edge: &Edge, bound: Bound) -> Option<u64>;
}

/// Points are looked at by this many, with one test of the bound for all of them: the arithmetic
/// within such a block has no branches and can run on several points at once.
const BLOCK: usize = 16;

/// Distance from the line through the edge's ends.
#[derive(Clone, Copy, Debug)]
pub struct Line;

/// Distance from where the edge would be if it were walked at an even pace.
#[derive(Clone, Copy, Debug)]
pub struct Pace;

#[inline]
fn offset(from: Point, to: Point) -> (i32, i32) {
    (
        i32::from(to.col) - i32::from(from.col),
        i32::from(to.row) - i32::from(from.row),
    )
}

#[inline]
fn squared(number: i32) -> u64 {
    let size = u64::from(number.unsigned_abs());
    size * size
}

/// The length of `(cols, rows)`, squared; both are below 2^10 in size.
#[inline]
fn length_squared((cols, rows): (i32, i32)) -> u32 {
    (cols * cols + rows * rows) as u32
}

#[inline]
fn greatest_of_blocks<M: Measure>(
    measure: M,
    edge: &Edge,
    bound: Bound,
    mut greatest_of: impl FnMut(&[Point]) -> u64,
) -> Option<u64> {
    // Long edges that stray too far mostly do so in the middle.
    if edge.steps() > BLOCK && !bound.admits(measure.top(edge, edge.steps() / 2)) {
        return None;
    }
    edge.between.chunks(BLOCK).try_fold(0, |greatest, block| {
        let top = greatest_of(block);
        bound.admits(top).then_some(greatest.max(top))
    })
}

impl Measure for Line {
    #[inline]
    fn bottom(self, edge: &Edge) -> u32 {
        // Where the ends coincide the length is 0 and the bottom 1.
        length_squared(offset(edge.from, edge.to)).max(1)
    }

    #[inline]
    fn top(self, edge: &Edge, m: usize) -> u64 {
        let along = offset(edge.from, edge.to);
        let p = offset(edge.from, edge.between[m - 1]);
        if along == (0, 0) {
            u64::from(length_squared(p))
        } else {
            squared(along.0 * p.1 - along.1 * p.0)
        }
    }

    #[inline]
    fn greatest_top(self, edge: &Edge, bound: Bound) -> Option<u64> {
        let u = edge.from;
        let (cols, rows) = offset(u, edge.to);
        if (cols, rows) == (0, 0) {
            return greatest_of_blocks(self, edge, bound, |block| {
                let lengths = block.iter().map(|&p| length_squared(offset(u, p)));
                u64::from(lengths.fold(0, u32::max))
            });
        }
        greatest_of_blocks(self, edge, bound, |block| {
            let crossed = block.iter().map(|&p| {
                let p = offset(u, p);
                (cols * p.1 - rows * p.0).abs()
            });
            squared(crossed.fold(0, i32::max))
        })
    }
}

impl Pace {
    #[inline]
    fn stray(n: i32, m: i32, along: (i32, i32), p: (i32, i32)) -> u64 {
        squared(n * p.0 - m * along.0) + squared(n * p.1 - m * along.1)
    }
}

impl Measure for Pace {
    #[inline]
    fn bottom(self, edge: &Edge) -> u32 {
        let n = edge.steps() as u32;
        n * n
    }

    #[inline]
    fn top(self, edge: &Edge, m: usize) -> u64 {
        let along = offset(edge.from, edge.to);
        let p = offset(edge.from, edge.between[m - 1]);
        Pace::stray(edge.steps() as i32, m as i32, along, p)
    }

    #[inline]
    fn greatest_top(self, edge: &Edge, bound: Bound) -> Option<u64> {
        let n = edge.steps() as i32;
        let along = offset(edge.from, edge.to);
        let mut first = 1;
        greatest_of_blocks(self, edge, bound, |block| {
            let tops = (first..)
                .zip(block)
                .map(|(m, &p)| Pace::stray(n, m, along, offset(edge.from, p)));
            let greatest = tops.fold(0, u64::max);
            first += BLOCK as i32;
            greatest
        })
    }
}

/// The edge's deviation if no point between strays past the bound.
#[inline]
pub(crate) fn bounded_deviation<M: Measure>(
    measure: M,
    edge: &Edge,
    bottom: u32,
    bound: Bound,
) -> Option<Fraction> {
    // Over one bottom the greatest fraction is that of the greatest top, and no top of 0 replaces 0/1.
    Some(match measure.greatest_top(edge, bound)? {
        0 => Fraction::ZERO,
        top => Fraction::made(top, bottom),
    })
}

/// How far point k strays from edge i, j.
pub fn stray<M: Measure>(
    measure: M,
    outline: &Outline,
    i: usize,
    k: usize,
    j: usize,
) -> Option<Fraction> {
    let edge = outline.edge(i, j)?;
    (i < k && k < j).then(|| Fraction::made(measure.top(&edge, k - i), measure.bottom(&edge)))
}

/// The deviation of edge i, j.
pub fn deviation<M: Measure>(
    measure: M,
    outline: &Outline,
    i: usize,
    j: usize,
) -> Option<Fraction> {
    let edge = outline.edge(i, j)?;
    bounded_deviation(measure, &edge, measure.bottom(&edge), Bound::NONE)
}

/// The deviation of edge i, j if it is within the tolerance.
pub fn deviation_within<M: Measure>(
    measure: M,
    outline: &Outline,
    i: usize,
    j: usize,
    tolerance: Fraction,
) -> Option<Fraction> {
    let edge = outline.edge(i, j)?;
    let bottom = measure.bottom(&edge);
    bounded_deviation(measure, &edge, bottom, Bound::within(tolerance, bottom))
}

/// The deviation of a polygon.
pub fn polygon_deviation<M: Measure>(
    measure: M,
    outline: &Outline,
    list: &[u16],
) -> Result<Fraction, Refusal> {
    let deviations = outline
        .edges(list)?
        .filter_map(|edge| bounded_deviation(measure, &edge, measure.bottom(&edge), Bound::NONE));
    Ok(deviations.fold(Fraction::ZERO, Fraction::joined))
}

/// The measures by name, for callers that choose one while running.
#[derive(Clone, Copy, Debug, PartialEq, Eq)]
pub enum MeasureName {
    Line,
    Pace,
}

impl MeasureName {
    pub const ALL: [MeasureName; 2] = [MeasureName::Line, MeasureName::Pace];
}

#[cfg(test)]
mod tests {
    use super::*;
    use crate::inputs;
    use crate::random::Random;

    /// The rule, point by point, with fractions throughout.
    fn plain<M: Measure>(measure: M, outline: &Outline, i: usize, j: usize) -> Fraction {
        (i + 1..j)
            .map(|k| stray(measure, outline, i, k, j).unwrap())
            .fold(Fraction::ZERO, Fraction::joined)
    }

    fn agree<M: Measure>(measure: M, outline: &Outline, random: &mut Random) {
        let count = outline.points().len();
        for _ in 0..200 {
            let (i, j) = (random.below(count), random.below(count));
            if i >= j {
                assert_eq!(deviation(measure, outline, i, j), None);
                continue;
            }
            let rule = plain(measure, outline, i, j);
            assert_eq!(deviation(measure, outline, i, j), Some(rule));
            let tolerance = inputs::tolerance(random);
            let within = deviation_within(measure, outline, i, j, tolerance);
            assert_eq!(within, (!rule.is_above(tolerance)).then_some(rule));
        }
    }

    #[test]
    fn blocks_agree_with_the_rule() {
        let mut random = Random::new(3);
        for _ in 0..300 {
            let outline = inputs::outline(&mut random);
            agree(Line, &outline, &mut random);
            agree(Pace, &outline, &mut random);
        }
    }

    #[test]
    fn the_corner_of_the_outline_l() {
        let outline = inputs::outline_l();
        assert_eq!(stray(Line, &outline, 0, 2, 4), Fraction::new(16, 8).ok());
        assert_eq!(deviation(Line, &outline, 0, 4), Fraction::new(16, 8).ok());
        assert_eq!(deviation(Line, &outline, 0, 2), Some(Fraction::ZERO));
        // 4(2, 0) - 2(2, 2) = (4, -4), over 4².
        assert_eq!(stray(Pace, &outline, 0, 2, 4), Fraction::new(32, 16).ok());
        for (i, k, j) in [(0, 0, 4), (0, 4, 4), (2, 1, 4), (4, 2, 0), (0, 2, 5)] {
            assert_eq!(stray(Line, &outline, i, k, j), None);
        }
        assert_eq!(
            polygon_deviation(Line, &outline, &[0, 1, 3, 4]),
            Fraction::new(1, 2)
        );
        assert_eq!(
            polygon_deviation(Line, &outline, &[0, 3]),
            Err(Refusal::NoPolygon)
        );
    }

    #[test]
    fn ends_that_coincide_leave_the_distance_to_them() {
        let mut outline = Outline::new();
        outline.open(9, 9, 4, 4).unwrap();
        for direction in [7, 7, 3, 3] {
            outline.extend(direction).unwrap();
        }
        assert_eq!(stray(Line, &outline, 0, 2, 4), Fraction::new(8, 1).ok());
        assert_eq!(deviation(Line, &outline, 0, 4), Fraction::new(8, 1).ok());
        assert_eq!(deviation(Pace, &outline, 0, 4), Fraction::new(128, 16).ok());
    }
}
