//! The searches against every polygon of small outlines, by definitions that share nothing with
//! the library but the outline: prices, distances, comparisons and rows as the rules have them.

use reference::closest::{Effort, Table, closest, closest_tabled};
use reference::coding::Kind;
use reference::fraction::Fraction;
use reference::inputs;
use reference::measure::MeasureName;
use reference::outline::{Outline, Point};
use reference::random::Random;
use reference::refusal::Refusal;
use reference::search::{
    Cheapest, PRICED_ROW, PricedRow, Row, STRAYING_ROW, StrayingRow, cheapest, finest,
};

/// Top and bottom.
type Ratio = (i128, i128);

fn above(a: Ratio, b: Ratio) -> bool {
    a.0 * b.1 > b.0 * a.1
}

fn joined(old: Ratio, new: Ratio) -> Ratio {
    if above(new, old) { new } else { old }
}

fn ratio(fraction: Fraction) -> Ratio {
    (fraction.top().into(), fraction.bottom().into())
}

fn offset(from: Point, to: Point) -> (i128, i128) {
    (
        i128::from(to.col) - i128::from(from.col),
        i128::from(to.row) - i128::from(from.row),
    )
}

fn price(kind: Kind, (cols, rows): (i128, i128)) -> Option<u32> {
    let length = cols.abs().max(rows.abs());
    let on_axis = (cols == 0) != (rows == 0);
    let straight = on_axis || (cols.abs() == rows.abs() && cols != 0);
    match kind {
        Kind::Flat => (length <= 1_023).then_some(22),
        Kind::Run => match length {
            _ if !straight => None,
            1 => Some(5),
            2..=3 => Some(6),
            4..=7 => Some(7),
            8..=15 => Some(8),
            _ => None,
        },
        Kind::Axis => (on_axis && length <= 64).then_some(8),
        Kind::Chain => (straight && length == 1).then_some(3),
        Kind::RunOrFlat => {
            let run = price(Kind::Run, (cols, rows));
            let flat = price(Kind::Flat, (cols, rows));
            run.or(flat).map(|bits| bits + 1)
        }
    }
}

fn stray(measure: MeasureName, points: &[Point], i: usize, k: usize, j: usize) -> Ratio {
    let (v, p) = (offset(points[i], points[j]), offset(points[i], points[k]));
    match measure {
        MeasureName::Line if v == (0, 0) => (p.0 * p.0 + p.1 * p.1, 1),
        MeasureName::Line => {
            let c = v.0 * p.1 - v.1 * p.0;
            (c * c, v.0 * v.0 + v.1 * v.1)
        }
        MeasureName::Pace => {
            let (n, m) = ((j - i) as i128, (k - i) as i128);
            let (a, b) = (n * p.0 - m * v.0, n * p.1 - m * v.1);
            (a * a + b * b, n * n)
        }
    }
}

/// Every edge's price and deviation.
struct Edges {
    count: usize,
    weights: Vec<Option<(u32, Ratio)>>,
}

impl Edges {
    fn new(outline: &Outline, kind: Kind, measure: MeasureName) -> Self {
        let points = outline.points();
        let count = points.len();
        let weight = |i: usize, j: usize| {
            let bits = price(kind, offset(points[i], points[j]))?;
            let deviation = (i + 1..j)
                .map(|k| stray(measure, points, i, k, j))
                .fold((0, 1), joined);
            Some((bits, deviation))
        };
        let weights = (0..count * count)
            .map(|at| (at / count, at % count))
            .map(|(i, j)| if i < j { weight(i, j) } else { None })
            .collect();
        Edges { count, weights }
    }

    fn weight(&self, i: usize, j: usize) -> Option<(u32, Ratio)> {
        self.weights[i * self.count + j]
    }

    /// Bits and deviation of every polygon that can be written.
    fn polygons(&self) -> Vec<(u32, Ratio)> {
        let last = self.count - 1;
        let inner = last.saturating_sub(1);
        (0..1_u32 << inner)
            .filter_map(|chosen| {
                let vertices = (1..last).filter(|point| chosen >> (point - 1) & 1 == 1);
                let mut at = 0;
                vertices.chain((last > 0).then_some(last)).try_fold(
                    (0, (0, 1)),
                    |(bits, deviation), next| {
                        let (more, new) = self.weight(at, next)?;
                        at = next;
                        Some((bits + more, joined(deviation, new)))
                    },
                )
            })
            .collect()
    }

    /// The rows of least: reached with bits, deviation and predecessor, or not.
    fn rows(&self, limit: Option<Ratio>, count_bits: bool) -> Vec<Option<(u32, Ratio, usize)>> {
        let mut rows: Vec<Option<(u32, Ratio, usize)>> = vec![Some((0, (0, 1), 0))];
        for j in 1..self.count {
            let costs = (0..j).filter_map(|i| {
                let (bits, deviation, _) = rows[i]?;
                let (more, new) = self.weight(i, j)?;
                if limit.is_some_and(|limit| above(new, limit)) {
                    return None;
                }
                let bits = if count_bits { bits + more } else { 0 };
                Some((bits, joined(deviation, new), i))
            });
            let least = costs.reduce(|old, new| {
                let lower = new.0 < old.0 || (new.0 == old.0 && above(old.1, new.1));
                if lower { new } else { old }
            });
            rows.push(least);
        }
        rows
    }
}

/// The list that rows are read back to.
fn list_of(rows: &[Option<(u32, Ratio, usize)>]) -> Vec<u16> {
    let mut list = vec![];
    let mut at = rows.len() - 1;
    while at > 0 {
        list.push(at as u16);
        at = rows[at].expect("on the way of a polygon").2;
    }
    list.push(0);
    list.reverse();
    list
}

const SPARE: usize = 3;
const MARK: u16 = 77;

fn priced_rows(count: usize) -> Vec<PricedRow> {
    vec![
        Row {
            predecessor: MARK,
            reached: true,
            ..PRICED_ROW
        };
        count + SPARE
    ]
}

fn assert_priced(rows: &[PricedRow], expected: &[Option<(u32, Ratio, usize)>]) {
    for (row, expected) in rows.iter().zip(expected) {
        let (bits, deviation, predecessor) = expected.unwrap_or((0, (0, 1), 0));
        assert_eq!(row.reached, expected.is_some());
        assert_eq!(u32::from(row.cost.bits), bits);
        assert_eq!(ratio(row.cost.deviation), deviation);
        assert_eq!(usize::from(row.predecessor), predecessor);
    }
    assert!(
        rows[expected.len()..]
            .iter()
            .all(|row| row.predecessor == MARK)
    );
}

fn assert_list(list: &[u16], expected: &[u16]) {
    assert_eq!(&list[..expected.len()], expected);
    assert!(list[expected.len()..].iter().all(|&place| place == MARK));
}

/// Outline, kind and measure of a trial.
struct Trial {
    outline: Outline,
    kind: Kind,
    measure: MeasureName,
    edges: Edges,
}

impl Trial {
    fn new(points: usize, random: &mut Random) -> Self {
        let outline = inputs::outline_up_to(points, random);
        let (kind, measure) = (inputs::kind(random), inputs::measure(random));
        let edges = Edges::new(&outline, kind, measure);
        Trial {
            outline,
            kind,
            measure,
            edges,
        }
    }

    fn count(&self) -> usize {
        self.outline.points().len()
    }

    fn cheapest(&self, tolerance: Fraction, polygons: Option<&[(u32, Ratio)]>) {
        let limit = ratio(tolerance);
        let expected = self.edges.rows(Some(limit), true);
        let mut rows = priced_rows(self.count());
        let mut list = vec![MARK; self.count() + SPARE];
        let numbers = (tolerance.top(), tolerance.bottom().into());
        let answer = cheapest(
            &self.outline,
            self.kind,
            self.measure,
            numbers,
            &mut rows,
            &mut list,
        );
        assert_priced(&rows, &expected);
        let usable = || {
            let polygons = polygons.unwrap_or_default().iter();
            polygons.filter(|(_, deviation)| !above(*deviation, limit))
        };
        match answer {
            Ok(found) => {
                let vertices = list_of(&expected);
                assert_eq!(found.vertices, vertices.len());
                assert_list(&list, &vertices);
                let (bits, deviation) = (u32::from(found.cost.bits), ratio(found.cost.deviation));
                assert_eq!(
                    expected.last().copied().flatten().map(|r| (r.0, r.1)),
                    Some((bits, deviation))
                );
                assert!(usable().all(|other| {
                    bits < other.0 || (bits == other.0 && !above(deviation, other.1))
                }));
                assert!(polygons.is_none_or(|all| all.contains(&(bits, deviation))));
            }
            Err(refusal) => {
                assert_eq!(refusal, Refusal::NoUsable);
                assert_list(&list, &[]);
                assert_eq!(usable().count(), 0);
            }
        }
    }

    fn finest(&self, polygons: Option<&[(u32, Ratio)]>) {
        let expected = self.edges.rows(None, false);
        let mut rows: Vec<StrayingRow> = vec![
            Row {
                predecessor: MARK,
                ..STRAYING_ROW
            };
            self.count() + SPARE
        ];
        let mut list = vec![MARK; self.count() + SPARE];
        let answer = finest(&self.outline, self.kind, self.measure, &mut rows, &mut list);
        for (row, expected) in rows.iter().zip(&expected) {
            let (_, deviation, predecessor) = expected.unwrap_or((0, (0, 1), 0));
            assert_eq!(row.reached, expected.is_some());
            assert_eq!(ratio(row.cost), deviation);
            assert_eq!(usize::from(row.predecessor), predecessor);
        }
        assert!(
            rows[expected.len()..]
                .iter()
                .all(|row| row.predecessor == MARK)
        );
        match answer {
            Ok(found) => {
                assert_list(&list, &list_of(&expected));
                let deviation = ratio(found.cost);
                let mut others = polygons.unwrap_or_default().iter();
                assert!(others.all(|other| !above(deviation, other.1)));
            }
            Err(refusal) => {
                assert_eq!(refusal, Refusal::NoUsable);
                assert_list(&list, &[]);
                assert!(polygons.is_none_or(<[_]>::is_empty));
            }
        }
    }

    /// `least` has the least deviation of a polygon that fits, or the refusal.
    fn closest(&self, budget: u16, least: Result<Ratio, Refusal>) {
        let mut rows = priced_rows(self.count());
        let mut list = vec![MARK; self.count() + SPARE];
        let (answer, effort) = closest(
            &self.outline,
            self.kind,
            self.measure,
            budget,
            &mut rows,
            &mut list,
        );
        self.closest_tabled(budget, (&rows, &list), (answer, effort));
        match least {
            Ok(deviation) => {
                let expected = self.edges.rows(Some(deviation), true);
                let found = answer.expect("some polygon fits");
                assert_priced(&rows, &expected);
                assert_list(&list, &list_of(&expected));
                assert_eq!(found.cost, rows[self.count() - 1].cost);
                assert!(found.cost.bits <= budget);
                assert!(!above(ratio(found.cost.deviation), deviation));
                assert!(effort.searches >= 2);
            }
            Err(refusal) => {
                assert_eq!(answer, Err(refusal));
                assert_priced(&rows, &self.edges.rows(None, true));
                assert_list(&list, &[]);
                assert_eq!(effort.searches, 1);
            }
        }
    }

    /// With a table everything is the same, the effort too.
    fn closest_tabled(
        &self,
        budget: u16,
        left: (&[PricedRow], &[u16]),
        answer: (Result<Cheapest, Refusal>, Effort),
    ) {
        let mut rows = priced_rows(self.count());
        let mut list = vec![MARK; self.count() + SPARE];
        let mut table = Table::default();
        let (outline, kind, measure) = (&self.outline, self.kind, self.measure);
        let tabled = closest_tabled(
            outline, kind, measure, budget, &mut rows, &mut list, &mut table,
        );
        assert_eq!(tabled, answer);
        assert_eq!((&rows[..], &list[..]), left);
    }

    fn least_of(&self, budget: u16, polygons: &[(u32, Ratio)]) -> Result<Ratio, Refusal> {
        if polygons.is_empty() {
            return Err(Refusal::NoUsable);
        }
        polygons
            .iter()
            .filter(|polygon| polygon.0 <= u32::from(budget))
            .map(|polygon| polygon.1)
            .reduce(|old, new| if above(old, new) { new } else { old })
            .ok_or(Refusal::OverBudget)
    }
}

#[test]
fn every_polygon_of_small_outlines() {
    let mut random = Random::new(21);
    for _ in 0..6_000 {
        let points = random.between(1, 11);
        let trial = Trial::new(points, &mut random);
        let polygons = trial.edges.polygons();
        for _ in 0..4 {
            let tolerance = inputs::tolerance(&mut random);
            trial.cheapest(tolerance, Some(&polygons));
            let budget = inputs::budget(trial.count(), &mut random);
            trial.closest(budget, trial.least_of(budget, &polygons));
        }
        // Budgets and tolerances on the border of what some polygon needs.
        if !polygons.is_empty() {
            let (bits, (top, bottom)) = random.pick(&polygons);
            let tolerance = Fraction::new(top as u64, bottom as u64).expect("in bounds");
            trial.cheapest(tolerance, Some(&polygons));
            for budget in [bits.saturating_sub(1) as u16, bits as u16] {
                trial.closest(budget, trial.least_of(budget, &polygons));
            }
        }
        trial.finest(Some(&polygons));
    }
}

/// On long outlines there are too many polygons; rows decide, at every deviation that an edge has.
#[test]
fn long_outlines_by_rows() {
    let mut random = Random::new(22);
    for _ in 0..60 {
        let points = random.between(30, 256);
        let trial = Trial::new(points, &mut random);
        trial.finest(None);
        for _ in 0..3 {
            trial.cheapest(inputs::tolerance(&mut random), None);
        }
        let budget = inputs::budget(trial.count(), &mut random);
        trial.closest(budget, smallest_fitting(&trial.edges, budget));
    }
}

/// The smallest deviation at which the rows end within the budget, by halving a sorted list.
fn smallest_fitting(edges: &Edges, budget: u16) -> Result<Ratio, Refusal> {
    let bits_at = |limit| {
        edges
            .rows(limit, true)
            .last()
            .copied()
            .flatten()
            .map(|row| row.0)
    };
    if bits_at(None).ok_or(Refusal::NoUsable)? > budget.into() {
        return Err(Refusal::OverBudget);
    }
    let mut deviations: Vec<Ratio> = edges
        .weights
        .iter()
        .flatten()
        .map(|weight| weight.1)
        .chain([(0, 1)])
        .collect();
    deviations.sort_by(|a, b| (a.0 * b.1).cmp(&(b.0 * a.1)));
    let fits = |limit: &Ratio| bits_at(Some(*limit)).is_some_and(|bits| bits <= budget.into());
    let first = deviations.partition_point(|limit| !fits(limit));
    Ok(deviations[first])
}

#[test]
fn refusals_come_in_their_order_and_leave_everything() {
    let outline = inputs::outline_l();
    let (kind, measure) = (Kind::Flat, MeasureName::Line);
    let marked = Row {
        predecessor: MARK,
        ..PRICED_ROW
    };
    let ask = |rows: usize, places: usize, numbers: (u64, u64)| {
        let mut rows = vec![marked; rows];
        let mut list = vec![MARK; places];
        let refusal = cheapest(&outline, kind, measure, numbers, &mut rows, &mut list).err();
        assert!(refusal.is_none() || rows.iter().all(|row| *row == marked));
        assert!(refusal.is_none() || list.iter().all(|place| *place == MARK));
        refusal.map(Refusal::number)
    };
    assert_eq!(ask(4, 4, (1, 0)), Some(4));
    assert_eq!(ask(4, 4, (1 << 40, 1)), Some(4));
    assert_eq!(ask(4, 4, (1, 1)), Some(24));
    assert_eq!(ask(5, 4, (1, 1)), Some(23));
    assert_eq!(ask(5, 5, (1, 1)), None);

    let ask = |rows: usize, places: usize| {
        let mut rows = vec![marked; rows];
        let mut list = vec![MARK; places];
        let (answer, effort) = closest(&outline, kind, measure, 0, &mut rows, &mut list);
        (answer.unwrap_err().number(), effort.searches)
    };
    assert_eq!(ask(4, 4), (24, 0));
    assert_eq!(ask(5, 4), (23, 0));
    assert_eq!(ask(5, 5), (27, 1));
}

/// The other way round the two parts make no cost: joining turns the order of two values.
#[test]
fn deviation_before_bits_is_no_cost() {
    let join =
        |(deviation, bits): (u32, u32), (new, more): (u32, u32)| (deviation.max(new), bits + more);
    let (a, b) = ((1, 5), (2, 3));
    assert!(a < b);
    assert!(join(a, (3, 1)) > join(b, (3, 1)));
}
