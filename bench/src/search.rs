//! The searches for one tolerance: least, and with it cheapest and finest.

use crate::coding::{Coder, Kind, with_coder};
use crate::fraction::{Bound, Fraction};
use crate::measure::{Line, Measure, MeasureName, Pace, bounded_deviation};
use crate::outline::{Edge, Outline};
use crate::refusal::Refusal;

/// What a search leaves for a point.
#[derive(Clone, Copy, Debug, PartialEq, Eq)]
pub struct Row<C> {
    pub reached: bool,
    pub cost: C,
    pub predecessor: u16,
}

/// Bits, then deviation.
#[derive(Clone, Copy, Debug, PartialEq, Eq)]
pub struct PricedCost {
    pub bits: u16,
    pub deviation: Fraction,
}

pub type PricedRow = Row<PricedCost>;
pub type StrayingRow = Row<Fraction>;

/// The weights of edges, together with the cost that they join.
///
/// Weight, join and order are asked in one question, so that an edge that cannot win is neither
/// measured to its end nor, where the price tells already, measured at all.
pub trait Weigher {
    type Cost: Copy;

    /// In which order the predecessors of a point are best tried.
    const ORDER: Order;

    fn start(&self) -> Self::Cost;

    /// `from` joined with the edge's weight, if the edge has one and the result takes the place of
    /// `best`: lowest numbers first it must be below it, nearest first not above it, so that in
    /// either order the lowest of equal predecessors stays.
    fn improved(
        &self,
        edge: &Edge,
        from: Self::Cost,
        best: Option<Self::Cost>,
    ) -> Option<Self::Cost>;
}

#[derive(Clone, Copy, Debug, PartialEq, Eq)]
pub enum Order {
    LowestFirst,
    NearestFirst,
}

/// Edges that have a code and are within the tolerance weigh their bits, then their deviation.
#[derive(Clone, Copy, Debug)]
pub struct Priced<C, M> {
    coder: C,
    measure: M,
    tolerance: Fraction,
    most_bits: u32,
}

impl<C: Coder, M: Measure> Priced<C, M> {
    pub fn new(coder: C, measure: M, top: u64, bottom: u64) -> Result<Self, Refusal> {
        Fraction::new(top, bottom).map(|tolerance| Priced::within(coder, measure, tolerance))
    }

    pub(crate) fn within(coder: C, measure: M, tolerance: Fraction) -> Self {
        Priced {
            coder,
            measure,
            tolerance,
            most_bits: u32::MAX,
        }
    }

    /// Leaves out what takes more bits than the budget, for searches whose rows nobody is shown.
    pub(crate) fn with_budget(self, budget: u16) -> Self {
        Priced {
            most_bits: u32::from(budget),
            ..self
        }
    }
}

impl<C: Coder, M: Measure> Weigher for Priced<C, M> {
    type Cost = PricedCost;

    // Long edges save bits, and with few bits known most others need no measuring.
    const ORDER: Order = Order::LowestFirst;

    fn start(&self) -> PricedCost {
        PricedCost {
            bits: 0,
            deviation: Fraction::ZERO,
        }
    }

    #[inline]
    fn improved(
        &self,
        edge: &Edge,
        from: PricedCost,
        best: Option<PricedCost>,
    ) -> Option<PricedCost> {
        let spent = u32::from(from.bits);
        let most = best.map_or(self.most_bits, |best| u32::from(best.bits));
        if spent + self.coder.least_price() > most {
            return None;
        }
        let bits = spent + self.coder.price(edge.displacement())?;
        if bits > most {
            return None;
        }
        let bottom = self.measure.bottom(edge);
        let bound = match best {
            // With equal bits the deviation decides, and the best is within the tolerance.
            Some(best) if bits == most => {
                if !best.deviation.is_above(from.deviation) {
                    return None;
                }
                Bound::below(best.deviation, bottom)
            }
            _ => Bound::within(self.tolerance, bottom),
        };
        let deviation = bounded_deviation(self.measure, edge, bottom, bound)?;
        Some(PricedCost {
            // 255 edges of 32 bits stay far below 2^16.
            bits: bits as u16,
            deviation: from.deviation.joined(deviation),
        })
    }
}

/// Edges that have a code weigh their deviation.
#[derive(Clone, Copy, Debug)]
pub struct Straying<C, M> {
    pub coder: C,
    pub measure: M,
}

impl<C: Coder, M: Measure> Weigher for Straying<C, M> {
    type Cost = Fraction;

    // Short edges stray little and take little measuring; with a small deviation known, long ones
    // are given up early.
    const ORDER: Order = Order::NearestFirst;

    fn start(&self) -> Fraction {
        Fraction::ZERO
    }

    #[inline]
    fn improved(&self, edge: &Edge, from: Fraction, best: Option<Fraction>) -> Option<Fraction> {
        if best.is_some_and(|best| from.is_above(best)) {
            return None;
        }
        self.coder.price(edge.displacement())?;
        let bottom = self.measure.bottom(edge);
        let bound = best.map_or(Bound::NONE, |best| Bound::within(best, bottom));
        bounded_deviation(self.measure, edge, bottom, bound).map(|weight| from.joined(weight))
    }
}

/// Refuses a workspace that is too small for any answer.
pub(crate) fn check_room<C>(
    outline: &Outline,
    rows: &[Row<C>],
    list: &[u16],
) -> Result<(), Refusal> {
    let count = outline.points().len();
    if rows.len() < count {
        Err(Refusal::RowsShort)
    } else if list.len() < count {
        Err(Refusal::ListShort)
    } else {
        Ok(())
    }
}

/// Makes the row of each point; the last one, if it is reached, has the cost of the best polygon.
pub(crate) fn fill_rows<W: Weigher>(
    weigher: &W,
    outline: &Outline,
    rows: &mut [Row<W::Cost>],
) -> Result<W::Cost, Refusal> {
    let start = weigher.start();
    let count = outline.points().len();
    rows[0] = Row {
        reached: true,
        cost: start,
        predecessor: 0,
    };
    for j in 1..count {
        let (before, after) = rows.split_at_mut(j);
        let mut best = None;
        let mut predecessor = 0;
        let attempt = |(i, row): (usize, &Row<W::Cost>)| {
            if row.reached
                && let Some(cost) = weigher.improved(&outline.edge_at(i, j), row.cost, best)
            {
                best = Some(cost);
                predecessor = i as u16;
            }
        };
        match W::ORDER {
            Order::LowestFirst => before.iter().enumerate().for_each(attempt),
            Order::NearestFirst => before.iter().enumerate().rev().for_each(attempt),
        }
        after[0] = Row {
            reached: best.is_some(),
            cost: best.unwrap_or(start),
            predecessor,
        };
    }
    let last = rows[count - 1];
    if last.reached {
        Ok(last.cost)
    } else {
        Err(Refusal::NoUsable)
    }
}

/// Reads the polygon back from the last point; answers the number of its vertices.
pub(crate) fn read_back<C>(outline: &Outline, rows: &[Row<C>], list: &mut [u16]) -> usize {
    let predecessors = || {
        std::iter::successors(Some(outline.points().len() - 1), |&point| {
            (point > 0).then(|| usize::from(rows[point].predecessor))
        })
    };
    let vertices = predecessors().count();
    for (place, point) in list[..vertices].iter_mut().rev().zip(predecessors()) {
        *place = point as u16;
    }
    vertices
}

/// What least answers: the number of vertices and the cost.
#[derive(Clone, Copy, Debug, PartialEq, Eq)]
pub struct Found<C> {
    pub vertices: usize,
    pub cost: C,
}

/// The best polygon by a weigher.
pub fn least<W: Weigher>(
    weigher: &W,
    outline: &Outline,
    rows: &mut [Row<W::Cost>],
    list: &mut [u16],
) -> Result<Found<W::Cost>, Refusal> {
    check_room(outline, rows, list)?;
    let cost = fill_rows(weigher, outline, rows)?;
    Ok(Found {
        vertices: read_back(outline, rows, list),
        cost,
    })
}

/// What cheapest and closest answer.
pub type Cheapest = Found<PricedCost>;

/// What finest answers.
pub type Finest = Found<Fraction>;

/// The polygon of the fewest bits within the tolerance top/bottom, and of those the least deviation.
pub fn cheapest_with<C: Coder, M: Measure>(
    outline: &Outline,
    coder: C,
    measure: M,
    (top, bottom): (u64, u64),
    rows: &mut [PricedRow],
    list: &mut [u16],
) -> Result<Cheapest, Refusal> {
    least(
        &Priced::new(coder, measure, top, bottom)?,
        outline,
        rows,
        list,
    )
}

/// The polygon of the least deviation.
pub fn finest_with<C: Coder, M: Measure>(
    outline: &Outline,
    coder: C,
    measure: M,
    rows: &mut [StrayingRow],
    list: &mut [u16],
) -> Result<Finest, Refusal> {
    least(&Straying { coder, measure }, outline, rows, list)
}

/// Runs an expression with a coder and a measure that are chosen while running.
macro_rules! with_both {
    ($kind:expr, $name:expr, $coder:ident, $measure:ident => $body:expr) => {
        with_coder!($kind, $coder => match $name {
            MeasureName::Line => {
                let $measure = Line;
                $body
            }
            MeasureName::Pace => {
                let $measure = Pace;
                $body
            }
        })
    };
}
pub(crate) use with_both;

/// `cheapest_with` for a kind and a measure by name.
pub fn cheapest(
    outline: &Outline,
    kind: Kind,
    measure: MeasureName,
    tolerance: (u64, u64),
    rows: &mut [PricedRow],
    list: &mut [u16],
) -> Result<Cheapest, Refusal> {
    with_both!(kind, measure, coder, measure => {
        cheapest_with(outline, coder, measure, tolerance, rows, list)
    })
}

/// `finest_with` for a kind and a measure by name.
pub fn finest(
    outline: &Outline,
    kind: Kind,
    measure: MeasureName,
    rows: &mut [StrayingRow],
    list: &mut [u16],
) -> Result<Finest, Refusal> {
    with_both!(kind, measure, coder, measure => {
        finest_with(outline, coder, measure, rows, list)
    })
}

/// A row as good as any to begin with: searches do not look at what rows held before.
pub const PRICED_ROW: PricedRow = Row {
    reached: false,
    cost: PricedCost {
        bits: 0,
        deviation: Fraction::ZERO,
    },
    predecessor: 0,
};

/// The same for finest.
pub const STRAYING_ROW: StrayingRow = Row {
    reached: false,
    cost: Fraction::ZERO,
    predecessor: 0,
};
