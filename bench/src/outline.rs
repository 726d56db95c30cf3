//! Points, moves, and the outline that they make.

use crate::refusal::Refusal;

/// The most points that an outline has.
pub const MOST_POINTS: usize = 256;

/// The largest width and height of a frame.
pub const MOST_PELS: u16 = 1_024;

/// Columns and rows of one step of each direction; rows count downward.
pub const MOVES: [(i16, i16); 8] = [
    (1, 0),
    (1, -1),
    (0, -1),
    (-1, -1),
    (-1, 0),
    (-1, 1),
    (0, 1),
    (1, 1),
];

#[derive(Clone, Copy, Debug, Default, PartialEq, Eq)]
pub struct Point {
    pub col: u16,
    pub row: u16,
}

impl Point {
    pub fn new(col: u16, row: u16) -> Self {
        Point { col, row }
    }

    /// The point moved by so many columns and rows, if it stays in a frame of this size.
    pub fn moved(self, cols: i16, rows: i16, width: u16, height: u16) -> Option<Point> {
        let col = self
            .col
            .checked_add_signed(cols)
            .filter(|&col| col < width)?;
        let row = self
            .row
            .checked_add_signed(rows)
            .filter(|&row| row < height)?;
        Some(Point { col, row })
    }
}

/// How many columns and rows a point lies from another.
#[derive(Clone, Copy, Debug, PartialEq, Eq)]
pub struct Displacement {
    pub cols: i16,
    pub rows: i16,
}

impl Displacement {
    pub fn new(cols: i16, rows: i16) -> Self {
        Displacement { cols, rows }
    }

    /// From one point of a frame to another; both lie below 1,024, so nothing overflows.
    pub fn between(from: Point, to: Point) -> Self {
        Displacement {
            cols: to.col as i16 - from.col as i16,
            rows: to.row as i16 - from.row as i16,
        }
    }
}

/// Edge i, j with the outline's points strictly between its ends.
#[derive(Clone, Copy, Debug)]
pub struct Edge<'a> {
    pub i: usize,
    pub j: usize,
    pub from: Point,
    pub to: Point,
    pub between: &'a [Point],
}

impl Edge<'_> {
    pub fn displacement(&self) -> Displacement {
        Displacement::between(self.from, self.to)
    }

    /// The steps from one end to the other.
    pub fn steps(&self) -> usize {
        self.j - self.i
    }
}

/// A frame and 1 to 256 points in it, each a step from the one before.
#[derive(Clone)]
pub struct Outline {
    width: u16,
    height: u16,
    len: usize,
    points: [Point; MOST_POINTS],
}

impl Outline {
    pub fn new() -> Self {
        Outline {
            width: 1,
            height: 1,
            len: 1,
            points: [Point::default(); MOST_POINTS],
        }
    }

    pub fn open(&mut self, width: u16, height: u16, col: u16, row: u16) -> Result<(), Refusal> {
        let sizes = 1..=MOST_PELS;
        if !sizes.contains(&width) || !sizes.contains(&height) {
            return Err(Refusal::FrameSize);
        }
        if col >= width || row >= height {
            return Err(Refusal::StartOutside);
        }
        self.width = width;
        self.height = height;
        self.points[0] = Point { col, row };
        self.len = 1;
        Ok(())
    }

    pub fn extend(&mut self, direction: u8) -> Result<(), Refusal> {
        let &(cols, rows) = MOVES
            .get(usize::from(direction))
            .ok_or(Refusal::Direction)?;
        if self.len == MOST_POINTS {
            return Err(Refusal::Full);
        }
        let next = self
            .last()
            .moved(cols, rows, self.width, self.height)
            .ok_or(Refusal::LeavesFrame)?;
        self.points[self.len] = next;
        self.len += 1;
        Ok(())
    }

    pub fn retract(&mut self) -> Result<(), Refusal> {
        if self.len == 1 {
            return Err(Refusal::OnlyStart);
        }
        self.len -= 1;
        Ok(())
    }

    pub fn width(&self) -> u16 {
        self.width
    }

    pub fn height(&self) -> u16 {
        self.height
    }

    pub fn points(&self) -> &[Point] {
        &self.points[..self.len]
    }

    fn last(&self) -> Point {
        self.points[self.len - 1]
    }

    /// Edge i, j, if the numbers are those of an edge.
    pub fn edge(&self, i: usize, j: usize) -> Option<Edge<'_>> {
        (i < j && j < self.len).then(|| self.edge_at(i, j))
    }

    /// The same for numbers that a loop already keeps in order.
    #[inline]
    pub(crate) fn edge_at(&self, i: usize, j: usize) -> Edge<'_> {
        Edge {
            i,
            j,
            from: self.points[i],
            to: self.points[j],
            between: &self.points[i + 1..j],
        }
    }

    pub fn is_polygon(&self, list: &[u16]) -> bool {
        list.first() == Some(&0)
            && list
                .last()
                .is_some_and(|&last| usize::from(last) + 1 == self.len)
            && list.windows(2).all(|pair| pair[0] < pair[1])
    }

    /// The edges of a list that is a polygon; any other list is refused.
    pub fn edges<'a>(
        &'a self,
        list: &'a [u16],
    ) -> Result<impl Iterator<Item = Edge<'a>> + Clone, Refusal> {
        if !self.is_polygon(list) {
            return Err(Refusal::NoPolygon);
        }
        Ok(list
            .windows(2)
            .map(|pair| self.edge_at(usize::from(pair[0]), usize::from(pair[1]))))
    }
}

impl Default for Outline {
    fn default() -> Self {
        Outline::new()
    }
}

/// Table places past the last point are no part of an outline.
impl PartialEq for Outline {
    fn eq(&self, other: &Self) -> bool {
        (self.width, self.height) == (other.width, other.height) && self.points() == other.points()
    }
}

impl Eq for Outline {}

impl std::fmt::Debug for Outline {
    fn fmt(&self, f: &mut std::fmt::Formatter<'_>) -> std::fmt::Result {
        f.debug_struct("Outline")
            .field("width", &self.width)
            .field("height", &self.height)
            .field("points", &self.points())
            .finish()
    }
}

#[cfg(test)]
mod tests {
    use super::*;

    #[test]
    fn a_new_outline_is_one_point_in_a_frame_of_one_pel() {
        let outline = Outline::new();
        assert_eq!((outline.width(), outline.height()), (1, 1));
        assert_eq!(outline.points(), [Point::new(0, 0)]);
        assert!(outline.is_polygon(&[0]));
    }

    #[test]
    fn open_refuses_the_frame_before_the_start() {
        let mut outline = Outline::new();
        let kept = outline.clone();
        assert_eq!(outline.open(0, 5, 9, 9), Err(Refusal::FrameSize));
        assert_eq!(outline.open(5, 1_025, 9, 9), Err(Refusal::FrameSize));
        assert_eq!(outline.open(5, 5, 5, 0), Err(Refusal::StartOutside));
        assert_eq!(outline.open(5, 5, 0, 5), Err(Refusal::StartOutside));
        assert_eq!(outline, kept);
        assert_eq!(outline.open(1_024, 1_024, 1_023, 1_023), Ok(()));
    }

    #[test]
    fn extend_refuses_direction_then_full_then_frame() {
        let mut outline = Outline::new();
        assert_eq!(outline.extend(0), Err(Refusal::LeavesFrame));
        assert_eq!(outline.extend(8), Err(Refusal::Direction));
        outline.open(256, 1, 0, 0).unwrap();
        for _ in 1..MOST_POINTS {
            outline.extend(0).unwrap();
        }
        assert_eq!(outline.extend(0), Err(Refusal::Full));
        assert_eq!(outline.extend(255), Err(Refusal::Direction));
        assert_eq!(outline.points().len(), MOST_POINTS);
    }

    #[test]
    fn retract_keeps_the_start() {
        let mut outline = Outline::new();
        outline.open(3, 3, 1, 1).unwrap();
        outline.extend(1).unwrap();
        assert_eq!(outline.points()[1], Point::new(2, 0));
        assert_eq!(outline.retract(), Ok(()));
        assert_eq!(outline.retract(), Err(Refusal::OnlyStart));
        assert_eq!(outline.points(), [Point::new(1, 1)]);
    }

    #[test]
    fn a_polygon_rises_from_the_first_point_to_the_last() {
        let mut outline = Outline::new();
        outline.open(4, 1, 0, 0).unwrap();
        for _ in 0..3 {
            outline.extend(0).unwrap();
        }
        assert!(outline.is_polygon(&[0, 3]));
        assert!(outline.is_polygon(&[0, 1, 2, 3]));
        for list in [
            &[][..],
            &[0],
            &[0, 2],
            &[1, 3],
            &[0, 2, 2, 3],
            &[0, 2, 1, 3],
            &[0, 4],
        ] {
            assert!(!outline.is_polygon(list), "{list:?}");
        }
    }
}
