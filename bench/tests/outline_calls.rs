//! Any list of calls on an outline, beside a frame and a list of points that have no bounds of
//! their own.

use reference::inputs::{self, Call};
use reference::outline::Outline;
use reference::random::Random;

struct Plain {
    frame: (i32, i32),
    points: Vec<(i32, i32)>,
}

impl Plain {
    fn holds(&self, (col, row): (i32, i32)) -> bool {
        (0..self.frame.0).contains(&col) && (0..self.frame.1).contains(&row)
    }

    /// The number of the refusal, 0 if there is none.
    fn answer(&mut self, call: Call) -> u8 {
        match call {
            Call::Open {
                width,
                height,
                col,
                row,
            } => {
                if !(1..=1_024).contains(&width) || !(1..=1_024).contains(&height) {
                    return 1;
                }
                if col >= width || row >= height {
                    return 2;
                }
                self.frame = (width.into(), height.into());
                self.points = vec![(col.into(), row.into())];
            }
            Call::Extend { direction } => {
                let cols = [1, 1, 0, -1, -1, -1, 0, 1];
                let rows = [0, -1, -1, -1, 0, 1, 1, 1];
                let direction = usize::from(direction);
                if direction > 7 {
                    return 3;
                }
                if self.points.len() == 256 {
                    return 21;
                }
                let last = self.points[self.points.len() - 1];
                let next = (last.0 + cols[direction], last.1 + rows[direction]);
                if !self.holds(next) {
                    return 20;
                }
                self.points.push(next);
            }
            Call::Retract => {
                if self.points.len() == 1 {
                    return 22;
                }
                self.points.pop();
            }
        }
        0
    }
}

#[test]
fn answers_frame_and_points_are_those_of_the_plain_outline() {
    let mut random = Random::new(31);
    let mut outline = Outline::new();
    let mut plain = Plain {
        frame: (1, 1),
        points: vec![(0, 0)],
    };
    let mut met = [0_u32; 23];
    for _ in 0..40_000 {
        // Opens are rarer than what inputs gives, so that outlines become full.
        let call = match inputs::call(&mut random) {
            Call::Open { .. } | Call::Retract if random.below(20) > 0 => continue,
            call => call,
        };
        let answer = match call {
            Call::Open {
                width,
                height,
                col,
                row,
            } => outline.open(width, height, col, row),
            Call::Extend { direction } => outline.extend(direction),
            Call::Retract => outline.retract(),
        };
        let number = answer.map_or_else(|refusal| refusal.number(), |()| 0);
        assert_eq!(number, plain.answer(call), "{call:?}");
        met[usize::from(number)] += 1;
        assert_eq!(
            (outline.width().into(), outline.height().into()),
            plain.frame
        );
        let points = outline.points().iter();
        assert!(
            points
                .map(|p| (p.col.into(), p.row.into()))
                .eq(plain.points.iter().copied())
        );
    }
    for number in [0, 1, 2, 3, 20, 21, 22] {
        assert!(met[number] > 0, "{met:?}");
    }
}
