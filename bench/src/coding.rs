//! Codes of displacements: price, code and read for each kind.

use crate::outline::{Displacement, MOVES};
use crate::refusal::Refusal;

/// The most bits of a code.
pub const MOST_BITS: u32 = 32;

/// The largest number of columns or rows in a displacement, either way.
pub const MOST_OFFSET: i16 = 1_023;

/// A row of 1 to 32 bits, in the low bits of `bits`; the highest of them comes first.
#[derive(Clone, Copy, Debug, PartialEq, Eq)]
pub struct Code {
    pub bits: u32,
    pub count: u32,
}

impl Code {
    fn new(bits: u32, count: u32) -> Self {
        Code { bits, count }
    }
}

/// Bits of some bytes, high bits first, from one of them on.
#[derive(Clone, Copy, Debug)]
pub struct BitRow<'a> {
    bytes: &'a [u8],
    start: usize,
}

impl<'a> BitRow<'a> {
    pub fn new(bytes: &'a [u8]) -> Self {
        BitRow { bytes, start: 0 }
    }

    /// The row without its first `start` bits.
    pub fn skip(self, start: usize) -> Self {
        BitRow {
            start: self.start + start,
            ..self
        }
    }

    pub fn count(self) -> usize {
        (self.bytes.len() * 8).saturating_sub(self.start)
    }

    /// The first bits as a number, none if there are too few; `count` is 1 to 32.
    #[inline]
    pub fn first(self, count: u32) -> Option<u32> {
        debug_assert!((1..=MOST_BITS).contains(&count));
        if self.count() < count as usize {
            return None;
        }
        let rest = &self.bytes[self.start / 8..];
        // Up to 7 bits before the first and 32 from it on lie in eight bytes.
        let word = match rest.first_chunk::<8>() {
            Some(&eight) => u64::from_be_bytes(eight),
            None => {
                let mut eight = [0; 8];
                eight[..rest.len()].copy_from_slice(rest);
                u64::from_be_bytes(eight)
            }
        };
        Some(((word << (self.start % 8)) >> (64 - count)) as u32)
    }
}

/// One table of codes, asked in three ways.
pub trait Coder: Copy {
    /// No code is shorter, so that hopeless edges can be left out before their price is asked.
    fn least_price(self) -> u32;

    fn price(self, displacement: Displacement) -> Option<u32>;

    fn code(self, displacement: Displacement) -> Option<Code>;

    /// The displacement whose code the row begins with, and the code's bits.
    fn read(self, row: BitRow) -> Option<(Displacement, u32)>;
}

#[derive(Clone, Copy, Debug)]
pub struct Flat;

#[derive(Clone, Copy, Debug)]
pub struct Run;

#[derive(Clone, Copy, Debug)]
pub struct Axis;

#[derive(Clone, Copy, Debug)]
pub struct Chain;

/// 0 and the first's code, or 1 and the second's, whichever is shorter.
#[derive(Clone, Copy, Debug)]
pub struct Pair<A, B> {
    pub first: A,
    pub second: B,
}

/// Kind 5.
pub const RUN_OR_FLAT: Pair<Run, Flat> = Pair {
    first: Run,
    second: Flat,
};

/// The length along a direction, if the displacement goes straight along one.
#[inline]
fn straight_length(displacement: Displacement) -> Option<u32> {
    let cols = displacement.cols.unsigned_abs();
    let rows = displacement.rows.unsigned_abs();
    let length = u32::from(cols.max(rows));
    ((cols == 0 || rows == 0 || cols == rows) && length > 0).then_some(length)
}

/// The direction of a displacement that goes straight, and its length.
fn straight(displacement: Displacement) -> Option<(u32, u32)> {
    let length = straight_length(displacement)?;
    let step = (displacement.cols.signum(), displacement.rows.signum());
    let direction = MOVES.iter().position(|&step_of| step_of == step)?;
    Some((direction as u32, length))
}

fn along(direction: u32, length: u32) -> Displacement {
    let (cols, rows) = MOVES[direction as usize];
    let length = length as i16;
    Displacement::new(cols * length, rows * length)
}

impl Coder for Flat {
    fn least_price(self) -> u32 {
        22
    }

    #[inline]
    fn price(self, displacement: Displacement) -> Option<u32> {
        let offsets = -MOST_OFFSET..=MOST_OFFSET;
        (offsets.contains(&displacement.cols) && offsets.contains(&displacement.rows)).then_some(22)
    }

    fn code(self, displacement: Displacement) -> Option<Code> {
        let count = self.price(displacement)?;
        let eleven = |number: i16| (i32::from(number) & 0x7FF) as u32;
        Some(Code::new(
            eleven(displacement.cols) << 11 | eleven(displacement.rows),
            count,
        ))
    }

    fn read(self, row: BitRow) -> Option<(Displacement, u32)> {
        let bits = row.first(22)?;
        // The sign is spread from the eleventh bit; -1,024 is no number of a displacement.
        let number = |eleven: u32| {
            let number = ((eleven as i16) << 5) >> 5;
            (number >= -MOST_OFFSET).then_some(number)
        };
        Some((
            Displacement::new(number(bits >> 11)?, number(bits & 0x7FF)?),
            22,
        ))
    }
}

impl Coder for Run {
    fn least_price(self) -> u32 {
        5
    }

    #[inline]
    fn price(self, displacement: Displacement) -> Option<u32> {
        let length = straight_length(displacement)?;
        (length < 16).then(|| 5 + length.ilog2())
    }

    fn code(self, displacement: Displacement) -> Option<Code> {
        let (direction, length) = straight(displacement).filter(|&(_, length)| length < 16)?;
        let class = length.ilog2();
        let head = direction << 2 | class;
        Some(Code::new(
            head << class | (length - (1 << class)),
            5 + class,
        ))
    }

    fn read(self, row: BitRow) -> Option<(Displacement, u32)> {
        let head = row.first(5)?;
        let class = head & 3;
        let bits = row.first(5 + class)?;
        let length = (1 << class) | (bits & ((1 << class) - 1));
        Some((along(head >> 2, length), 5 + class))
    }
}

impl Coder for Axis {
    fn least_price(self) -> u32 {
        8
    }

    #[inline]
    fn price(self, displacement: Displacement) -> Option<u32> {
        if displacement.cols != 0 && displacement.rows != 0 {
            return None;
        }
        let length = straight_length(displacement)?;
        (length <= 64).then_some(8)
    }

    fn code(self, displacement: Displacement) -> Option<Code> {
        let (direction, length) = straight(displacement)?;
        (direction % 2 == 0 && length <= 64)
            .then(|| Code::new(((direction / 2) << 6) | (length - 1), 8))
    }

    fn read(self, row: BitRow) -> Option<(Displacement, u32)> {
        let bits = row.first(8)?;
        Some((along((bits >> 6) * 2, (bits & 63) + 1), 8))
    }
}

impl Coder for Chain {
    fn least_price(self) -> u32 {
        3
    }

    #[inline]
    fn price(self, displacement: Displacement) -> Option<u32> {
        (straight_length(displacement)? == 1).then_some(3)
    }

    fn code(self, displacement: Displacement) -> Option<Code> {
        let (direction, length) = straight(displacement)?;
        (length == 1).then_some(Code::new(direction, 3))
    }

    fn read(self, row: BitRow) -> Option<(Displacement, u32)> {
        Some((along(row.first(3)?, 1), 3))
    }
}

/// Which of a pair's codes a displacement takes.
#[derive(Clone, Copy, PartialEq, Eq)]
enum Side {
    First,
    Second,
}

impl<A: Coder, B: Coder> Pair<A, B> {
    #[inline]
    fn side(self, displacement: Displacement) -> Option<(Side, u32)> {
        // The bit in front needs room.
        let fits = |&price: &u32| price < MOST_BITS;
        let first = self.first.price(displacement).filter(fits);
        let second = self.second.price(displacement).filter(fits);
        match (first, second) {
            (Some(a), Some(b)) if a <= b => Some((Side::First, a)),
            (_, Some(b)) => Some((Side::Second, b)),
            (Some(a), None) => Some((Side::First, a)),
            (None, None) => None,
        }
    }
}

impl<A: Coder, B: Coder> Coder for Pair<A, B> {
    fn least_price(self) -> u32 {
        1 + self.first.least_price().min(self.second.least_price())
    }

    #[inline]
    fn price(self, displacement: Displacement) -> Option<u32> {
        self.side(displacement).map(|(_, price)| 1 + price)
    }

    fn code(self, displacement: Displacement) -> Option<Code> {
        let (front, code) = match self.side(displacement)?.0 {
            Side::First => (0, self.first.code(displacement)?),
            Side::Second => (1, self.second.code(displacement)?),
        };
        Some(Code::new(front << code.count | code.bits, 1 + code.count))
    }

    fn read(self, row: BitRow) -> Option<(Displacement, u32)> {
        let (side, (displacement, count)) = match row.first(1)? {
            0 => (Side::First, self.first.read(row.skip(1))?),
            _ => (Side::Second, self.second.read(row.skip(1))?),
        };
        // A displacement has one code: that of the other side begins nothing.
        (self.side(displacement)?.0 == side).then_some((displacement, 1 + count))
    }
}

/// The kinds by number.
#[derive(Clone, Copy, Debug, PartialEq, Eq)]
pub enum Kind {
    Flat = 1,
    Run = 2,
    Axis = 3,
    Chain = 4,
    RunOrFlat = 5,
}

impl Kind {
    pub const ALL: [Kind; 5] = [
        Kind::Flat,
        Kind::Run,
        Kind::Axis,
        Kind::Chain,
        Kind::RunOrFlat,
    ];

    pub fn number(self) -> u16 {
        self as u16
    }

    pub fn from_number(number: u16) -> Result<Kind, Refusal> {
        Kind::ALL
            .into_iter()
            .find(|kind| kind.number() == number)
            .ok_or(Refusal::Kind)
    }
}

/// Runs an expression with the coder of a kind: one choice for a whole call, and none within it.
macro_rules! with_coder {
    ($kind:expr, $coder:ident => $body:expr) => {
        match $kind {
            $crate::coding::Kind::Flat => {
                let $coder = $crate::coding::Flat;
                $body
            }
            $crate::coding::Kind::Run => {
                let $coder = $crate::coding::Run;
                $body
            }
            $crate::coding::Kind::Axis => {
                let $coder = $crate::coding::Axis;
                $body
            }
            $crate::coding::Kind::Chain => {
                let $coder = $crate::coding::Chain;
                $body
            }
            $crate::coding::Kind::RunOrFlat => {
                let $coder = $crate::coding::RUN_OR_FLAT;
                $body
            }
        }
    };
}
pub(crate) use with_coder;

/// The coder of a kind, for callers that choose one while running.
impl Coder for Kind {
    fn least_price(self) -> u32 {
        with_coder!(self, coder => coder.least_price())
    }

    fn price(self, displacement: Displacement) -> Option<u32> {
        with_coder!(self, coder => coder.price(displacement))
    }

    fn code(self, displacement: Displacement) -> Option<Code> {
        with_coder!(self, coder => coder.code(displacement))
    }

    fn read(self, row: BitRow) -> Option<(Displacement, u32)> {
        with_coder!(self, coder => coder.read(row))
    }
}

#[cfg(test)]
mod tests {
    use super::*;

    fn text(coder: impl Coder, cols: i16, rows: i16) -> Option<String> {
        let code = coder.code(Displacement::new(cols, rows))?;
        Some(format!(
            "{:0width$b}",
            code.bits,
            width = code.count as usize
        ))
    }

    /// The bytes of a text of bits, spaces ignored, with zero bits to a whole byte.
    fn bytes(text: &str) -> Vec<u8> {
        let bits: Vec<u8> = text
            .bytes()
            .filter(|b| *b != b' ')
            .map(|b| b - b'0')
            .collect();
        bits.chunks(8)
            .map(|byte| byte.iter().fold(0, |sum, bit| sum << 1 | bit) << (8 - byte.len()))
            .collect()
    }

    fn read(coder: impl Coder, bits: &str) -> Option<(Displacement, u32)> {
        coder.read(BitRow::new(&bytes(bits)))
    }

    fn assert_example(coder: impl Coder, cols: i16, rows: i16, bits: &str) {
        let expected = bits.replace(' ', "");
        assert_eq!(text(coder, cols, rows).as_deref(), Some(&*expected));
        assert_eq!(
            coder.price(Displacement::new(cols, rows)),
            Some(expected.len() as u32)
        );
        assert_eq!(
            read(coder, bits),
            Some((Displacement::new(cols, rows), expected.len() as u32))
        );
    }

    #[test]
    fn the_examples_of_the_format() {
        assert_example(Flat, 5, -3, "00000000101 11111111101");
        assert_example(Run, -6, 6, "101 10 10");
        assert_example(Run, 1, 0, "000 00");
        assert_example(Run, 2, 2, "111 010");
        assert_example(Axis, 0, -17, "01 010000");
        assert_example(Chain, 1, 1, "111");
        assert_example(RUN_OR_FLAT, -6, 6, "0 1011010");
        assert_example(RUN_OR_FLAT, 5, -3, "1 00000000101 11111111101");
        assert_eq!(read(RUN_OR_FLAT, "1 11111111010 00000000110"), None);
        assert_eq!(read(Flat, "10000000000 00000000001"), None);
        assert_eq!(read(Flat, "00000000001 10000000000"), None);
    }

    #[test]
    fn nothing_straight_and_nothing_at_all() {
        for (cols, rows) in [(5, -3), (0, 0)] {
            assert_eq!(text(Run, cols, rows), None);
            assert_eq!(text(Axis, cols, rows), None);
            assert_eq!(text(Chain, cols, rows), None);
        }
        assert_eq!(text(Flat, 0, 0).map(|bits| bits.len()), Some(22));
        assert_eq!(text(RUN_OR_FLAT, 0, 0).map(|bits| bits.len()), Some(23));
        assert_eq!(text(Flat, 1_024, 0), None);
        assert_eq!(text(Flat, 0, -1_024), None);
        assert_eq!(text(Flat, i16::MIN, i16::MAX), None);
        assert_eq!(text(RUN_OR_FLAT, 1_024, 0), None);
    }

    /// Every displacement of a square that holds all lengths at which prices change.
    fn square() -> impl Iterator<Item = Displacement> {
        let offsets = || (-70..=70).chain([-1_025, -1_024, -1_023, -500, 500, 1_023, 1_024]);
        offsets().flat_map(move |cols| offsets().map(move |rows| Displacement::new(cols, rows)))
    }

    fn one_table(coder: impl Coder) {
        for displacement in square() {
            let code = coder.code(displacement);
            assert_eq!(coder.price(displacement), code.map(|code| code.count));
            let Some(code) = code else { continue };
            assert!((coder.least_price()..=MOST_BITS).contains(&code.count));
            // The code is read back whatever follows it, and not without its last bit.
            for after in [0, u64::MAX] {
                let word = u64::from(code.bits) << (64 - code.count) | after >> code.count;
                let bytes = word.to_be_bytes();
                assert_eq!(
                    coder.read(BitRow::new(&bytes)),
                    Some((displacement, code.count))
                );
            }
            let bytes = u64::from(code.bits >> 1).to_be_bytes();
            let short = BitRow::new(&bytes).skip(64 - (code.count as usize - 1));
            assert_eq!(coder.read(short), None);
        }
        // What is read has the bits it was read from.
        for bits in 0..1 << 16 {
            let bytes = [(bits >> 8) as u8, bits as u8, 0xA5, 0x5A, 0x0F];
            let row = BitRow::new(&bytes);
            if let Some((displacement, count)) = coder.read(row) {
                let code = coder.code(displacement).unwrap();
                assert_eq!((code.count, Some(code.bits)), (count, row.first(count)));
            }
        }
    }

    #[test]
    fn price_code_and_read_answer_from_one_table() {
        one_table(Flat);
        one_table(Run);
        one_table(Axis);
        one_table(Chain);
        one_table(RUN_OR_FLAT);
        Kind::ALL.into_iter().for_each(one_table);
        one_table(Pair {
            first: Chain,
            second: RUN_OR_FLAT,
        });
    }

    #[test]
    fn too_few_bits_begin_no_code() {
        assert_eq!(Run.read(BitRow::new(&[0b0000_0110]).skip(2)), None);
        assert_eq!(Run.read(BitRow::new(&[0b0000_0110]).skip(4)), None);
        assert_eq!(
            Run.read(BitRow::new(&[0b0010_0000]).skip(3))
                .map(|read| read.1),
            Some(5)
        );
        assert_eq!(Axis.read(BitRow::new(&[0, 0]).skip(9)), None);
        assert_eq!(Chain.read(BitRow::new(&[0]).skip(6)), None);
        assert_eq!(Flat.read(BitRow::new(&[0, 0])), None);
        assert_eq!(RUN_OR_FLAT.read(BitRow::new(&[])), None);
        assert_eq!(RUN_OR_FLAT.read(BitRow::new(&[0x20, 0, 0]).skip(2)), None);
    }

    /// A coder whose codes leave no room for a bit in front.
    #[derive(Clone, Copy)]
    struct Wide;

    impl Coder for Wide {
        fn least_price(self) -> u32 {
            32
        }
        fn price(self, displacement: Displacement) -> Option<u32> {
            self.code(displacement).map(|code| code.count)
        }
        fn code(self, displacement: Displacement) -> Option<Code> {
            (displacement == Displacement::new(1, 1)).then_some(Code::new(7, 32))
        }
        fn read(self, row: BitRow) -> Option<(Displacement, u32)> {
            (row.first(32)? == 7).then_some((Displacement::new(1, 1), 32))
        }
    }

    #[test]
    fn a_code_of_32_bits_does_not_count_in_a_pair() {
        let pair = Pair {
            first: Wide,
            second: Chain,
        };
        assert_eq!(text(pair, 1, 1).as_deref(), Some("1111"));
        assert_eq!(pair.read(BitRow::new(&[0, 0, 0, 3, 0x80])), None);
        assert_eq!(
            text(
                Pair {
                    first: Wide,
                    second: Wide
                },
                1,
                1
            ),
            None
        );
        // Equally long codes: the first.
        let twice = Pair {
            first: Chain,
            second: Chain,
        };
        assert_eq!(text(twice, 1, 1).as_deref(), Some("0111"));
        assert_eq!(read(twice, "1111"), None);
    }
}
