//! The calls that the proved library offers to C: records in and records out, with no memory but the
//! caller's and the stack's.

use crate::closest::{self, Effort};
use crate::coding::Kind;
use crate::measure::MeasureName;
use crate::outline::{MOST_POINTS, Outline, Point};
use crate::records::{self, Fault, Reading, Written};
use crate::refusal::Refusal;
use crate::search::{self, PRICED_ROW};

/// The most bytes of a record: a head of 9, and 255 codes of 23 bits.
pub const MOST_BYTES: usize = 743;

impl From<Fault> for Refusal {
    fn from(fault: Fault) -> Refusal {
        fault.refusal
    }
}

/// The kind of a number, then the outline of a chain record.
fn traced(chain: &[u8], kind: u16) -> Result<(Kind, Outline), Refusal> {
    let kind = Kind::from_number(kind)?;
    Ok((kind, records::read_outline(chain)?))
}

/// Writes the record of the cheapest polygon of a chain record's outline.
#[inline(never)]
pub fn cheapest(
    chain: &[u8],
    kind: u16,
    measure: MeasureName,
    tolerance: (u64, u64),
    buffer: &mut [u8],
) -> Result<Written, Refusal> {
    let (kind, outline) = traced(chain, kind)?;
    let mut rows = [PRICED_ROW; MOST_POINTS];
    let mut list = [0; MOST_POINTS];
    let found = search::cheapest(&outline, kind, measure, tolerance, &mut rows, &mut list)?;
    records::write(&outline, kind, &list[..found.vertices], buffer)
}

/// Writes the record of the closest polygon of a chain record's outline; with the effort that the search took.
#[inline(never)]
pub fn closest(
    chain: &[u8],
    kind: u16,
    measure: MeasureName,
    budget: u16,
    buffer: &mut [u8],
) -> Result<(Written, Effort), Refusal> {
    let (kind, outline) = traced(chain, kind)?;
    let mut rows = [PRICED_ROW; MOST_POINTS];
    let mut list = [0; MOST_POINTS];
    let (found, effort) = closest::closest(&outline, kind, measure, budget, &mut rows, &mut list);
    let written = records::write(&outline, kind, &list[..found?.vertices], buffer)?;
    Ok((written, effort))
}

/// Reads a record of any kind.
#[inline(never)]
pub fn read(bytes: &[u8], list: &mut [Point]) -> Result<Reading, Refusal> {
    Ok(records::read_any(bytes, list)?)
}

#[cfg(test)]
mod tests {
    use super::*;

    const CHAIN_OF_L: [u8; 11] = [0x09, 0, 4, 0, 5, 0, 5, 0, 4, 0x03, 0x60];
    const RUN_OF_L: [u8; 10] = [0x08, 0, 2, 0, 5, 0, 5, 0, 1, 0xE8];

    #[test]
    fn from_record_to_record() {
        let mut buffer = [0xAA; 12];
        let written = Written {
            bytes: 10,
            code_bits: 6,
        };
        let line = MeasureName::Line;
        assert_eq!(
            cheapest(&CHAIN_OF_L, 2, line, (2, 1), &mut buffer),
            Ok(written)
        );
        assert_eq!(buffer[..10], RUN_OF_L);
        assert_eq!(buffer[10..], [0xAA; 2]);
        let (found, effort) = closest(&CHAIN_OF_L, 2, line, 11, &mut buffer).unwrap();
        assert_eq!(found, written);
        assert!(effort.searches >= 2);
    }

    #[test]
    fn refused_first_by_the_kind_then_by_the_record_then_by_the_search() {
        let mut buffer = [0xAA; 9];
        let mut refused = |chain: &[u8], kind, top| {
            let refusal = cheapest(chain, kind, MeasureName::Pace, (top, 1), &mut buffer);
            assert_eq!(buffer, [0xAA; 9]);
            refusal.unwrap_err().number()
        };
        assert_eq!(refused(&[], 6, 1 << 40), 7);
        assert_eq!(refused(&[], 2, 1 << 40), 6);
        assert_eq!(refused(&RUN_OF_L, 2, 1 << 40), 7);
        assert_eq!(refused(&CHAIN_OF_L, 2, 1 << 40), 4);
        assert_eq!(refused(&CHAIN_OF_L, 2, 2), 25);
        // One step down to the right, which goes along neither columns nor rows.
        assert_eq!(refused(&[8, 0, 4, 0, 5, 0, 5, 0, 1, 0xE0], 3, 2), 26);
    }
}
