//! Records: written from a polygon, read into vertices.

use crate::coding::{BitRow, Chain, Code, Coder, Kind, with_coder};
use crate::outline::{Displacement, MOST_PELS, MOST_POINTS, Outline, Point};
use crate::refusal::Refusal;

/// The two bytes of the length.
const LENGTH_BYTES: usize = 2;

/// The bytes before the codes.
const HEAD_BYTES: usize = 9;

/// What a writer answers.
#[derive(Clone, Copy, Debug, PartialEq, Eq)]
pub struct Written {
    /// The record's bytes, head included.
    pub bytes: usize,
    /// The bits of the codes, padding not included.
    pub code_bits: u32,
}

/// Where in a record a reader stopped.
#[derive(Clone, Copy, Debug, PartialEq, Eq)]
pub enum Place {
    /// A byte of the head.
    Byte(usize),
    /// An edge, counted from 1, and a bit, counted from 0 at the first code bit.
    Edge { edge: u8, bit: usize },
    /// The record is good and the list is too short for it.
    List,
}

/// Why a record is refused, and where.
#[derive(Clone, Copy, Debug, PartialEq, Eq)]
pub struct Fault {
    pub refusal: Refusal,
    pub place: Place,
}

impl Fault {
    fn byte(refusal: Refusal, byte: usize) -> Self {
        Fault {
            refusal,
            place: Place::Byte(byte),
        }
    }

    fn edge(refusal: Refusal, edge: u8, bit: usize) -> Self {
        Fault {
            refusal,
            place: Place::Edge { edge, bit },
        }
    }
}

/// Puts codes one after the other into whole bytes.
struct BitWriter<'a> {
    bytes: std::slice::IterMut<'a, u8>,
    word: u64,
    count: u32,
}

impl<'a> BitWriter<'a> {
    fn new(bytes: &'a mut [u8]) -> Self {
        BitWriter {
            bytes: bytes.iter_mut(),
            word: 0,
            count: 0,
        }
    }

    fn put(&mut self, code: Code) {
        // At most 7 bits wait, so 39 are the most that stand in the word.
        self.word = self.word << code.count | u64::from(code.bits);
        self.count += code.count;
        while self.count >= 8 {
            self.count -= 8;
            self.byte((self.word >> self.count) as u8);
        }
    }

    fn finish(mut self) {
        if self.count > 0 {
            self.byte((self.word << (8 - self.count)) as u8);
        }
    }

    fn byte(&mut self, byte: u8) {
        if let Some(place) = self.bytes.next() {
            *place = byte;
        }
    }
}

/// Writes the record of a polygon's vertices at the front of the buffer.
pub fn write_kind<C: Coder>(
    outline: &Outline,
    kind: u16,
    coder: C,
    list: &[u16],
    buffer: &mut [u8],
) -> Result<Written, Refusal> {
    let edges = outline.edges(list)?;
    let code_bits = edges
        .clone()
        .try_fold(0, |sum, edge| Some(sum + coder.price(edge.displacement())?))
        .ok_or(Refusal::EdgeNoCode)?;
    let bytes = HEAD_BYTES + code_bits.div_ceil(8) as usize;
    let record = buffer.get_mut(..bytes).ok_or(Refusal::BufferShort)?;

    let (head, codes) = record.split_at_mut(HEAD_BYTES);
    let start = outline.points()[0];
    let numbers = [(bytes - LENGTH_BYTES) as u16, kind, start.col, start.row];
    for (place, number) in head.chunks_exact_mut(2).zip(numbers) {
        place.copy_from_slice(&number.to_le_bytes());
    }
    head[HEAD_BYTES - 1] = (list.len() - 1) as u8;
    let mut writer = BitWriter::new(codes);
    edges
        .filter_map(|edge| coder.code(edge.displacement()))
        .for_each(|code| writer.put(code));
    writer.finish();
    Ok(Written { bytes, code_bits })
}

/// Reads the record of one kind that the bytes begin with; answers the number of its vertices.
///
/// Places of the list past the vertices keep their contents, and a fault keeps all of them.
pub fn read_kind<C: Coder>(
    bytes: &[u8],
    kind: u16,
    coder: C,
    list: &mut [Point],
) -> Result<usize, Fault> {
    let record = whole_record(bytes).ok_or(Fault::byte(Refusal::Short, 0))?;
    let number = |at: usize| u16::from_le_bytes([record[at], record[at + 1]]);
    if number(2) != kind {
        return Err(Fault::byte(Refusal::Kind, 2));
    }
    let start = Point::new(number(4), number(6));
    if start.col >= MOST_PELS {
        return Err(Fault::byte(Refusal::PointOutside, 4));
    }
    if start.row >= MOST_PELS {
        return Err(Fault::byte(Refusal::PointOutside, 6));
    }

    let edges = record[8];
    let row = BitRow::new(&record[HEAD_BYTES..]);
    // Kept here until nothing can refuse any more.
    let mut vertices = [start; MOST_POINTS];
    let mut last = start;
    let mut bit = 0;
    for (edge, vertex) in (1..=edges).zip(&mut vertices[1..]) {
        let (Displacement { cols, rows }, count) =
            coder
                .read(row.skip(bit))
                .ok_or(Fault::edge(Refusal::NoCode, edge, bit))?;
        last = last
            .moved(cols, rows, MOST_PELS, MOST_PELS)
            .ok_or(Fault::edge(Refusal::PointOutside, edge, bit))?;
        *vertex = last;
        bit += count as usize;
    }
    let after = row.skip(bit);
    let padding_only = match after.count() {
        0 => true,
        count @ 1..8 => after.first(count as u32) == Some(0),
        _ => false,
    };
    if !padding_only {
        return Err(Fault::edge(Refusal::Trailing, edges, bit));
    }

    let count = usize::from(edges) + 1;
    list.get_mut(..count)
        .ok_or(Fault {
            refusal: Refusal::ListShort,
            place: Place::List,
        })?
        .copy_from_slice(&vertices[..count]);
    Ok(count)
}

/// What a reader of all kinds answers.
#[derive(Clone, Copy, Debug, PartialEq, Eq)]
pub struct Reading {
    pub kind: u16,
    /// The bytes that the record takes.
    pub bytes: usize,
    pub vertices: usize,
}

/// Reads the record of any of the five kinds that the bytes begin with.
pub fn read_any(bytes: &[u8], list: &mut [Point]) -> Result<Reading, Fault> {
    let record = whole_record(bytes).ok_or(Fault::byte(Refusal::Short, 0))?;
    let kind = Kind::from_number(u16::from_le_bytes([record[2], record[3]]))
        .map_err(|refusal| Fault::byte(refusal, 2))?;
    let vertices = read(record, kind, list)?;
    Ok(Reading {
        kind: kind.number(),
        bytes: record.len(),
        vertices,
    })
}

/// The bytes as far as their length says, if there are enough for that and for a head.
fn whole_record(bytes: &[u8]) -> Option<&[u8]> {
    let length = usize::from(u16::from_le_bytes(*bytes.first_chunk()?));
    (length >= HEAD_BYTES - LENGTH_BYTES)
        .then(|| bytes.get(..LENGTH_BYTES + length))
        .flatten()
}

/// The reader that knows chain records alone.
pub fn read_chain(bytes: &[u8], list: &mut [Point]) -> Result<usize, Fault> {
    read_kind(bytes, Kind::Chain.number(), Chain, list)
}

/// `write_kind` with one of the five kinds.
pub fn write(
    outline: &Outline,
    kind: Kind,
    list: &[u16],
    buffer: &mut [u8],
) -> Result<Written, Refusal> {
    with_coder!(kind, coder => write_kind(outline, kind.number(), coder, list, buffer))
}

/// `read_kind` with one of the five kinds.
pub fn read(bytes: &[u8], kind: Kind, list: &mut [Point]) -> Result<usize, Fault> {
    with_coder!(kind, coder => read_kind(bytes, kind.number(), coder, list))
}

/// The outline whose points are the vertices of a chain record, in the largest frame.
pub fn read_outline(bytes: &[u8]) -> Result<Outline, Fault> {
    let mut vertices = [Point::default(); MOST_POINTS];
    let count = read_chain(bytes, &mut vertices)?;
    let mut outline = Outline::new();
    let start = vertices[0];
    let traced = outline.open(MOST_PELS, MOST_PELS, start.col, start.row);
    debug_assert!(traced.is_ok(), "a vertex lies in the largest frame");
    for pair in vertices[..count].windows(2) {
        let code = Chain.code(Displacement::between(pair[0], pair[1]));
        let traced = code.map(|code| outline.extend(code.bits as u8));
        debug_assert_eq!(traced, Some(Ok(())), "a chain goes by single steps");
    }
    Ok(outline)
}

#[cfg(test)]
mod tests {
    use super::*;
    use crate::inputs::{self, Damage};
    use crate::random::Random;

    const CHAIN_OF_L: [u8; 11] = [0x09, 0, 4, 0, 5, 0, 5, 0, 4, 0x03, 0x60];
    const RUN_OF_L: [u8; 10] = [0x08, 0, 2, 0, 5, 0, 5, 0, 1, 0xE8];

    fn vertices(bytes: &[u8], kind: Kind) -> Result<Vec<Point>, Fault> {
        let mut list = [Point::new(9, 9); MOST_POINTS];
        let count = read(bytes, kind, &mut list);
        let kept = count.unwrap_or(0);
        assert!(list[kept..].iter().all(|&point| point == Point::new(9, 9)));
        count.map(|count| list[..count].to_vec())
    }

    #[test]
    fn the_two_records_of_the_format() {
        let outline = inputs::outline_l();
        let mut buffer = [0xAA; 20];
        let written = write(&outline, Kind::Chain, &[0, 1, 2, 3, 4], &mut buffer);
        assert_eq!(
            written,
            Ok(Written {
                bytes: 11,
                code_bits: 12
            })
        );
        assert_eq!(buffer[..11], CHAIN_OF_L);
        assert!(buffer[11..].iter().all(|&byte| byte == 0xAA));
        let written = write(&outline, Kind::Run, &[0, 4], &mut buffer);
        assert_eq!(
            written,
            Ok(Written {
                bytes: 10,
                code_bits: 6
            })
        );
        assert_eq!(buffer[..10], RUN_OF_L);

        assert_eq!(
            vertices(&CHAIN_OF_L, Kind::Chain).as_deref(),
            Ok(outline.points())
        );
        let ends = [Point::new(5, 5), Point::new(7, 7)];
        assert_eq!(vertices(&RUN_OF_L, Kind::Run).as_deref(), Ok(&ends[..]));
        assert_eq!(read_outline(&CHAIN_OF_L), Ok(outline));
    }

    #[test]
    fn the_writer_refuses_in_its_order_and_keeps_the_buffer() {
        let outline = inputs::outline_l();
        let mut buffer = [0xAA; 10];
        let mut refused = |kind, list: &[u16]| {
            let refusal = write(&outline, kind, list, &mut buffer).unwrap_err();
            assert_eq!(buffer, [0xAA; 10]);
            refusal.number()
        };
        assert_eq!(refused(Kind::Axis, &[0, 3]), 5);
        assert_eq!(refused(Kind::Axis, &[0, 4]), 28);
        assert_eq!(refused(Kind::Axis, &[0, 2, 4]), 25);
        assert_eq!(refused(Kind::Flat, &[0, 4]), 25);
        assert_eq!(refused(Kind::Flat, &[]), 5);
    }

    #[test]
    fn a_record_of_one_vertex_has_no_codes() {
        let mut buffer = [0xAA; 10];
        let written = write(&Outline::new(), Kind::Flat, &[0], &mut buffer);
        assert_eq!(
            written,
            Ok(Written {
                bytes: 9,
                code_bits: 0
            })
        );
        assert_eq!(buffer, [7, 0, 1, 0, 0, 0, 0, 0, 0, 0xAA]);
        assert_eq!(
            vertices(&buffer, Kind::Flat).as_deref(),
            Ok(&[Point::new(0, 0)][..])
        );
    }

    /// The number and the place of a refusal.
    fn fault(kind: Kind, bytes: &[u8]) -> (u8, Place) {
        let fault = vertices(bytes, kind).unwrap_err();
        (fault.refusal.number(), fault.place)
    }

    #[test]
    fn faults_of_the_head() {
        for cut in 0..CHAIN_OF_L.len() {
            assert_eq!(fault(Kind::Chain, &CHAIN_OF_L[..cut]), (6, Place::Byte(0)));
        }
        assert_eq!(
            fault(Kind::Chain, &[6, 0, 4, 0, 0, 0, 0, 0, 0]),
            (6, Place::Byte(0))
        );
        assert_eq!(fault(Kind::Run, &CHAIN_OF_L), (7, Place::Byte(2)));
        assert_eq!(
            fault(Kind::Flat, &[7, 0, 1, 1, 0, 4, 0, 4, 0]),
            (7, Place::Byte(2))
        );
        assert_eq!(
            fault(Kind::Flat, &[7, 0, 1, 0, 0, 4, 0, 4, 0]),
            (8, Place::Byte(4))
        );
        assert_eq!(
            fault(Kind::Flat, &[7, 0, 1, 0, 0xFF, 3, 0, 4, 0]),
            (8, Place::Byte(6))
        );
        assert!(vertices(&[7, 0, 1, 0, 0xFF, 3, 0xFF, 3, 0], Kind::Flat).is_ok());
    }

    #[test]
    fn faults_of_the_codes() {
        let at = |edge, bit| Place::Edge { edge, bit };
        // Five edges of three bits want 15 bits, and the sixth has one left.
        let mut bytes = CHAIN_OF_L;
        bytes[8] = 6;
        assert_eq!(fault(Kind::Chain, &bytes), (9, at(6, 15)));
        // What follows the record is not read as codes.
        assert_eq!(
            fault(Kind::Chain, &[&bytes[..], &[0; 9]].concat()),
            (9, at(6, 15))
        );
        bytes[8] = 3;
        assert_eq!(fault(Kind::Chain, &bytes), (10, at(3, 9)));
        let mut bytes = CHAIN_OF_L;
        bytes[10] |= 1;
        assert_eq!(fault(Kind::Chain, &bytes), (10, at(4, 12)));
        // The first step, direction 3, leads above the rows and left of the columns.
        assert_eq!(
            fault(Kind::Chain, &[8, 0, 4, 0, 0, 0, 0, 0, 1, 0x60]),
            (8, at(1, 0))
        );
        assert_eq!(
            fault(Kind::Chain, &[8, 0, 4, 0, 0, 0, 0, 0, 2, 0x0C]),
            (8, at(2, 3))
        );
        assert_eq!(
            fault(Kind::Chain, &[8, 0, 4, 0, 0, 0, 0, 0, 0, 0]),
            (10, at(0, 0))
        );
        assert_eq!(
            fault(Kind::Axis, &[9, 0, 3, 0, 0, 0, 0, 0, 1, 0, 0]),
            (10, at(1, 8))
        );
        // A flat code of a run, behind a 1, is no code.
        let bits: u64 = 0b1_11111111010_00000000110 << 41;
        let codes = &bits.to_be_bytes()[..3];
        let bytes = [&[10, 0, 5, 0, 9, 0, 9, 0, 1], codes].concat();
        assert_eq!(fault(Kind::RunOrFlat, &bytes), (9, at(1, 0)));
    }

    #[test]
    fn the_reader_of_all_kinds_takes_the_kind_from_the_record() {
        let mut list = [Point::new(9, 9); 5];
        let bytes = [&RUN_OF_L[..], &[1, 2, 3]].concat();
        let reading = Reading {
            kind: 2,
            bytes: 10,
            vertices: 2,
        };
        assert_eq!(read_any(&bytes, &mut list), Ok(reading));
        assert_eq!(
            list[..3],
            [(5, 5), (7, 7), (9, 9)].map(|(c, r)| Point::new(c, r))
        );
        let refused = |bytes: &[u8]| read_any(bytes, &mut [Point::new(9, 9); 5]).unwrap_err();
        let bytes = [7, 0, 6, 0, 0, 4, 0, 4, 0];
        assert_eq!(refused(&bytes), Fault::byte(Refusal::Kind, 2));
        assert_eq!(refused(&bytes[..8]), Fault::byte(Refusal::Short, 0));
        assert_eq!(
            refused(&[7, 0, 1, 0, 0, 4, 0, 4, 0]),
            Fault::byte(Refusal::PointOutside, 4)
        );
    }

    #[test]
    fn a_short_list_is_refused_last_and_kept() {
        let mut list = [Point::new(1, 2); 4];
        let fault = read(&CHAIN_OF_L, Kind::Chain, &mut list).unwrap_err();
        assert_eq!((fault.refusal.number(), fault.place), (23, Place::List));
        assert_eq!(list, [Point::new(1, 2); 4]);
        let mut bytes = CHAIN_OF_L;
        bytes[10] |= 1;
        let fault = read(&bytes, Kind::Chain, &mut list).unwrap_err();
        assert_eq!(fault.refusal, Refusal::Trailing);
    }

    #[test]
    fn what_is_written_is_read_back_whatever_follows() {
        let mut random = Random::new(11);
        for _ in 0..2_000 {
            let outline = inputs::outline(&mut random);
            let kind = inputs::kind(&mut random);
            let list = inputs::codable_polygon(&outline, kind, &mut random)
                .unwrap_or_else(|| inputs::polygon(&outline, &mut random));
            let mut buffer = vec![0x5A; random.between(9, 1_100)];
            let Ok(written) = write(&outline, kind, &list, &mut buffer) else {
                assert!(buffer.iter().all(|&byte| byte == 0x5A));
                continue;
            };
            assert!(buffer[written.bytes..].iter().all(|&byte| byte == 0x5A));
            let points: Vec<_> = list
                .iter()
                .map(|&point| outline.points()[usize::from(point)])
                .collect();
            assert_eq!(vertices(&buffer, kind), Ok(points.clone()));
            assert_eq!(vertices(&buffer[..written.bytes], kind), Ok(points));
            assert!(vertices(&buffer[..written.bytes - 1], kind).is_err());
        }
    }

    /// The record of any vertices, made bit by bit.
    fn plain_record(kind: Kind, vertices: &[Point]) -> Vec<u8> {
        let displacements = vertices
            .windows(2)
            .map(|pair| Displacement::between(pair[0], pair[1]));
        let bits: Vec<u8> = displacements
            .filter_map(|displacement| kind.code(displacement))
            .flat_map(|code| {
                (0..code.count)
                    .rev()
                    .map(move |bit| (code.bits >> bit & 1) as u8)
            })
            .collect();
        let codes = bits
            .chunks(8)
            .map(|byte| byte.iter().fold(0, |sum, bit| sum << 1 | bit) << (8 - byte.len()));
        let start = vertices[0];
        let length = 7 + bits.len().div_ceil(8) as u16;
        [length, kind.number(), start.col, start.row]
            .into_iter()
            .flat_map(u16::to_le_bytes)
            .chain([(vertices.len() - 1) as u8])
            .chain(codes)
            .collect()
    }

    #[test]
    fn damaged_records_are_accepted_exactly_if_they_begin_with_a_record() {
        let mut random = Random::new(12);
        let mut accepted = 0;
        for _ in 0..4_000 {
            let kind = inputs::kind(&mut random);
            let mut bytes = inputs::record(kind, &mut random);
            let damage = random.pick(&Damage::ALL);
            inputs::damage(&mut bytes, damage, &mut random);
            match vertices(&bytes, kind) {
                Ok(vertices) => {
                    accepted += 1;
                    assert!(bytes.starts_with(&plain_record(kind, &vertices)));
                }
                Err(Fault { refusal, place }) => assert_eq!(
                    matches!(place, Place::Byte(_)),
                    matches!(refusal, Refusal::Short | Refusal::Kind)
                        || place == Place::Byte(4)
                        || place == Place::Byte(6)
                ),
            }
        }
        assert!((400..3_600).contains(&accepted), "{accepted}");
    }
}
