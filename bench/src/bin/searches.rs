//! How many searches at one tolerance closest makes on outlines of 256 points.

use reference::closest::{Effort, Table, closest_tabled};
use reference::coding::Kind;
use reference::inputs::{self, Shape};
use reference::measure::MeasureName;
use reference::outline::{MOST_POINTS, Outline};
use reference::random::Random;
use reference::refusal::Refusal;
use reference::search::{PRICED_ROW, PricedRow, cheapest};

const OUTLINES: usize = 40;
const BUDGETS: usize = 5;

/// What every call is lent.
struct Workspace {
    rows: [PricedRow; MOST_POINTS],
    list: [u16; MOST_POINTS],
    table: Table,
}

/// Shape, kind and measure of a line of the table.
#[derive(Clone, Copy)]
struct Case {
    shape: Shape,
    kind: Kind,
    measure: MeasureName,
}

impl Case {
    /// The bits of the cheapest polygon at a tolerance.
    fn bits(
        self,
        outline: &Outline,
        tolerance: (u64, u64),
        space: &mut Workspace,
    ) -> Result<u16, Refusal> {
        let Workspace { rows, list, .. } = space;
        cheapest(outline, self.kind, self.measure, tolerance, rows, list)
            .map(|found| found.cost.bits)
    }

    /// The efforts for budgets from the least that any polygon takes to what an exact one takes.
    fn efforts(self, random: &mut Random, space: &mut Workspace) -> Result<Vec<Effort>, Refusal> {
        let outline = inputs::outline_of(self.shape, MOST_POINTS, random);
        let least = self.bits(&outline, ((1 << 40) - 1, 1), space)?;
        let exact = self.bits(&outline, (0, 1), space)?;
        // Even on the scale of logarithms, where small budgets have their share.
        let ratio = f64::from(exact) / f64::from(least);
        let Workspace { rows, list, table } = space;
        (0..BUDGETS)
            .map(|_| {
                let part = random.below(1 << 20) as f64 / f64::from(1 << 20);
                let budget = (f64::from(least) * ratio.powf(part)).ceil() as u16;
                // The table changes the time that it takes and not the searches.
                let (answer, effort) =
                    closest_tabled(&outline, self.kind, self.measure, budget, rows, list, table);
                answer.map(|_| effort)
            })
            .collect()
    }
}

/// The least, the middle and the greatest.
fn spread(numbers: impl Iterator<Item = u32>) -> Option<(u32, u32, u32)> {
    let mut numbers: Vec<u32> = numbers.collect();
    numbers.sort_unstable();
    Some((
        *numbers.first()?,
        numbers[numbers.len() / 2],
        *numbers.last()?,
    ))
}

fn main() {
    let mut random = Random::new(2);
    let mut space = Workspace {
        rows: [PRICED_ROW; MOST_POINTS],
        list: [0; MOST_POINTS],
        table: Table::default(),
    };
    println!("shape kind measure calls min median max");
    for shape in [Shape::Walk, Shape::Circle, Shape::Spiral, Shape::Stairs] {
        for kind in Kind::ALL {
            for measure in MeasureName::ALL {
                let case = Case {
                    shape,
                    kind,
                    measure,
                };
                // Outlines that the kind cannot write have no efforts to tell of.
                let efforts: Vec<Effort> = (0..OUTLINES)
                    .filter_map(|_| case.efforts(&mut random, &mut space).ok())
                    .flatten()
                    .collect();
                print!("{shape:?} {} {measure:?} {}", kind.number(), efforts.len());
                match spread(efforts.iter().map(|effort| effort.searches)) {
                    Some((min, median, max)) => println!(" {min} {median} {max}"),
                    None => println!(" - - -"),
                }
            }
        }
    }
}
