//! The closest polygon within a budget of bits.

use crate::coding::{Coder, Kind, with_coder};
use crate::fraction::{Bound, Fraction};
use crate::measure::{Line, Measure, MeasureName, Pace, bounded_deviation};
use crate::outline::{Edge, Outline};
use crate::random::Random;
use crate::refusal::Refusal;
use crate::search::{
    Cheapest, Found, Priced, PricedCost, PricedRow, check_room, fill_rows, read_back, with_both,
};

/// Of how many candidates the median is tried.
const SAMPLE: usize = 15;

/// What an answer of closest took.
#[derive(Clone, Copy, Debug, Default, PartialEq, Eq)]
pub struct Effort {
    /// Searches at one tolerance: the first, the tries, and the last one for the rows.
    pub searches: u32,
    /// Passes over all edges for candidates.
    pub passes: u32,
}

/// Deviations strictly above what is known not to fit and strictly below what fits.
#[derive(Clone, Copy, Debug)]
struct Gap {
    above: Option<Fraction>,
    below: Fraction,
}

/// Some candidates of a pass, each with the same chance.
struct Reservoir {
    sample: [Fraction; SAMPLE],
    seen: usize,
}

impl Reservoir {
    fn new() -> Self {
        Reservoir {
            sample: [Fraction::ZERO; SAMPLE],
            seen: 0,
        }
    }

    #[inline]
    fn offer(&mut self, candidate: Fraction, random: &mut Random) {
        let place = if self.seen < SAMPLE {
            self.seen
        } else {
            random.below(self.seen + 1)
        };
        if let Some(kept) = self.sample.get_mut(place) {
            *kept = candidate;
        }
        self.seen += 1;
    }

    fn median(mut self) -> Option<Fraction> {
        let kept = &mut self.sample[..self.seen.min(SAMPLE)];
        kept.sort_unstable_by(|a, b| a.by_value(*b));
        kept.get(kept.len() / 2).copied()
    }
}

/// A tolerance worth trying: the deviation of an edge with a code, in the gap.
fn candidate<C: Coder, M: Measure>(
    outline: &Outline,
    coder: C,
    measure: M,
    gap: Gap,
    random: &mut Random,
) -> Option<Fraction> {
    let mut reservoir = Reservoir::new();
    for j in 1..outline.points().len() {
        for i in 0..j {
            let edge = outline.edge_at(i, j);
            if coder.price(edge.displacement()).is_none() {
                continue;
            }
            let bottom = measure.bottom(&edge);
            let bound = Bound::below(gap.below, bottom);
            if let Some(deviation) = bounded_deviation(measure, &edge, bottom, bound)
                && gap.above.is_none_or(|above| deviation.is_above(above))
            {
                reservoir.offer(deviation, random);
            }
        }
    }
    reservoir.median()
}

/// The polygon that fits the budget and deviates least, and of those the cheapest; with the effort
/// that it took.
pub fn closest_with<C: Coder, M: Measure>(
    outline: &Outline,
    coder: C,
    measure: M,
    budget: u16,
    rows: &mut [PricedRow],
    list: &mut [u16],
) -> (Result<Cheapest, Refusal>, Effort) {
    let mut effort = Effort::default();
    let answer = search(outline, coder, measure, budget, rows, list, &mut effort);
    (answer, effort)
}

fn search<C: Coder, M: Measure>(
    outline: &Outline,
    coder: C,
    measure: M,
    budget: u16,
    rows: &mut [PricedRow],
    list: &mut [u16],
    effort: &mut Effort,
) -> Result<Cheapest, Refusal> {
    check_room(outline, rows, list)?;
    let largest = Priced::within(coder, measure, Fraction::LARGEST);
    effort.searches += 1;
    let mut best: PricedCost = fill_rows(&largest, outline, rows)?;
    if best.bits > budget {
        return Err(Refusal::OverBudget);
    }

    // The seed is fixed, so that equal calls take equal effort.
    let mut random = Random::new(1);
    let mut gap = Gap {
        above: None,
        below: best.deviation,
    };
    // Below zero lies nothing.
    while gap.below.top() > 0 {
        effort.passes += 1;
        let Some(tried) = candidate(outline, coder, measure, gap, &mut random) else {
            break;
        };
        effort.searches += 1;
        let weigher = Priced::within(coder, measure, tried).with_budget(budget);
        match fill_rows(&weigher, outline, rows) {
            Ok(cost) => {
                best = cost;
                gap.below = cost.deviation;
            }
            Err(_) => gap.above = Some(tried),
        }
    }

    // The rows so far are those of other tolerances, or lack what the budget left out.
    effort.searches += 1;
    let weigher = Priced::within(coder, measure, best.deviation);
    best = fill_rows(&weigher, outline, rows)?;
    Ok(Found {
        vertices: read_back(outline, rows, list),
        cost: best,
    })
}

/// The greatest tops of all edges, measured once for many searches.
#[derive(Clone, Debug, Default)]
pub struct Table {
    tops: Vec<u64>,
}

/// Where edge i, j stands in a table: edges of one end stand together.
#[inline]
fn place(edge: &Edge) -> usize {
    edge.j * (edge.j - 1) / 2 + edge.i
}

impl Table {
    /// Measures every edge that has a code.
    fn fill<C: Coder, M: Measure>(&mut self, outline: &Outline, coder: C, measure: M) {
        self.tops.clear();
        for j in 1..outline.points().len() {
            self.tops.extend((0..j).map(|i| {
                let edge = outline.edge_at(i, j);
                coder
                    .price(edge.displacement())
                    .and_then(|_| measure.greatest_top(&edge, Bound::NONE))
                    .unwrap_or(0)
            }));
        }
    }
}

/// A measure that looks the greatest tops up.
#[derive(Clone, Copy, Debug)]
struct Tabled<'a, M> {
    measure: M,
    tops: &'a [u64],
}

impl<M: Measure> Measure for Tabled<'_, M> {
    #[inline]
    fn bottom(self, edge: &Edge) -> u32 {
        self.measure.bottom(edge)
    }

    #[inline]
    fn top(self, edge: &Edge, m: usize) -> u64 {
        self.measure.top(edge, m)
    }

    #[inline]
    fn greatest_top(self, edge: &Edge, bound: Bound) -> Option<u64> {
        Some(self.tops[place(edge)]).filter(|&top| bound.admits(top))
    }
}

/// `closest_with` where there is memory for a table of all edges: the same answers and rows, with
/// every edge measured once.
pub fn closest_tabled_with<C: Coder, M: Measure>(
    outline: &Outline,
    coder: C,
    measure: M,
    budget: u16,
    rows: &mut [PricedRow],
    list: &mut [u16],
    table: &mut Table,
) -> (Result<Cheapest, Refusal>, Effort) {
    table.fill(outline, coder, measure);
    let measure = Tabled {
        measure,
        tops: &table.tops,
    };
    closest_with(outline, coder, measure, budget, rows, list)
}

/// `closest_with` for a kind and a measure by name.
pub fn closest(
    outline: &Outline,
    kind: Kind,
    measure: MeasureName,
    budget: u16,
    rows: &mut [PricedRow],
    list: &mut [u16],
) -> (Result<Cheapest, Refusal>, Effort) {
    with_both!(kind, measure, coder, measure => {
        closest_with(outline, coder, measure, budget, rows, list)
    })
}

/// `closest_tabled_with` for a kind and a measure by name.
pub fn closest_tabled(
    outline: &Outline,
    kind: Kind,
    measure: MeasureName,
    budget: u16,
    rows: &mut [PricedRow],
    list: &mut [u16],
    table: &mut Table,
) -> (Result<Cheapest, Refusal>, Effort) {
    with_both!(kind, measure, coder, measure => {
        closest_tabled_with(outline, coder, measure, budget, rows, list, table)
    })
}
