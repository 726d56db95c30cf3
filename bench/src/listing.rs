//! The lines that list the cheapest polygon of a chain record for each kind.

use crate::coding::Kind;
use crate::measure::MeasureName;
use crate::outline::MOST_POINTS;
use crate::records::read_outline;
use crate::search::{PRICED_ROW, cheapest};
use std::fmt::{self, Write};

/// Writes the listing of a record.
pub fn list_record(bytes: &[u8], out: &mut impl Write) -> fmt::Result {
    let outline = match read_outline(bytes) {
        Ok(outline) => outline,
        Err(fault) => return writeln!(out, "record refused {}", fault.refusal.number()),
    };
    let mut rows = [PRICED_ROW; MOST_POINTS];
    let mut list = [0; MOST_POINTS];
    writeln!(out, "kind bits vertices top bottom")?;
    for kind in Kind::ALL {
        let number = kind.number();
        match cheapest(
            &outline,
            kind,
            MeasureName::Line,
            (2, 1),
            &mut rows,
            &mut list,
        ) {
            Ok(found) => {
                let (bits, deviation) = (found.cost.bits, found.cost.deviation);
                let (top, bottom) = (deviation.top(), deviation.bottom());
                writeln!(out, "{number} {bits} {} {top} {bottom}", found.vertices)?;
            }
            Err(refusal) => writeln!(out, "{number} refused {}", refusal.number())?,
        }
    }
    Ok(())
}

#[cfg(test)]
mod tests {
    use super::*;

    fn listing(bytes: &[u8]) -> String {
        let mut text = String::new();
        list_record(bytes, &mut text).unwrap();
        text
    }

    #[test]
    fn the_listing_of_the_outline_l() {
        let record = [0x09, 0, 4, 0, 5, 0, 5, 0, 4, 0x03, 0x60];
        let expected = "kind bits vertices top bottom\n\
            1 22 2 16 8\n\
            2 6 2 16 8\n\
            3 16 3 0 1\n\
            4 9 4 1 2\n\
            5 7 2 16 8\n";
        assert_eq!(listing(&record), expected);
    }

    #[test]
    fn refused_kinds_and_records() {
        // One diagonal step has no axis code.
        let text = listing(&[0x08, 0, 4, 0, 5, 0, 5, 0, 1, 0b0010_0000]);
        assert_eq!(text.lines().nth(3), Some("3 refused 26"));
        assert_eq!(listing(&[]), "record refused 6\n");
        assert_eq!(
            listing(&[0x08, 0, 2, 0, 5, 0, 5, 0, 1, 0xE8]),
            "record refused 7\n"
        );
    }
}
