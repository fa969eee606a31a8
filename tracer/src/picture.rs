//! The picture: the drawing on the left, its distances on the right, each pixel a square of dots.

use crate::png;
use crate::traced::{Seen, Traced};

type Colour = [u8; 3];

const MARK: Colour = [225, 0, 45];
const BLACK: Colour = [0, 0, 0];
const UNREACHED: Colour = [255, 120, 200];
const BETWEEN: Colour = [255, 255, 255];
/// From the mark to the farthest pixel.
const RAMP: [Colour; 5] = [
    [255, 250, 200],
    [150, 215, 130],
    [40, 165, 150],
    [45, 95, 160],
    [70, 30, 105],
];

/// The picture's longer side has about so many dots.
const SIDE: usize = 1_100;
/// The mark has arms where a pixel's square is smaller than this, so that it is seen.
const ARM: usize = 8;

/// A PNG file.
pub fn png(traced: &Traced) -> Vec<u8> {
    let drawing = &traced.drawing;
    let columns = 2 * drawing.width + 1;
    let square = (SIDE / columns.max(drawing.height)).max(1);
    let painter = Painter {
        traced,
        arm: ARM / square,
    };
    let mut dots = Vec::new();
    for y in 0..drawing.height {
        let line = painter.row(y).flat_map(|colour| colour.repeat(square));
        dots.extend(line.collect::<Vec<_>>().repeat(square));
    }
    png::encode(square * columns, square * drawing.height, &dots)
}

struct Painter<'a> {
    traced: &'a Traced,
    /// So many pixels on each side of the mark are in its colour.
    arm: usize,
}

impl Painter<'_> {
    /// A row of the drawing, a column between, and the row of distances.
    fn row(&self, y: usize) -> impl Iterator<Item = Colour> + '_ {
        let drawing = &self.traced.drawing;
        let inks = drawing.row(y).map(|pixel| self.ink(pixel));
        let distances = drawing.row(y).map(|pixel| self.away(pixel));
        inks.chain([BETWEEN]).chain(distances)
    }

    fn ink(&self, pixel: usize) -> Colour {
        if self.is_marked(pixel) {
            return MARK;
        }
        [255 - self.traced.drawing.shade(pixel, 255) as u8; 3]
    }

    fn away(&self, pixel: usize) -> Colour {
        if self.is_marked(pixel) {
            return MARK;
        }
        match self.traced.seen(pixel) {
            Seen::Away(distance) => on_ramp(distance, self.traced.farthest),
            Seen::Black => BLACK,
            Seen::Unreached => UNREACHED,
        }
    }

    /// Whether a pixel is in the row or the column of the mark and near it.
    fn is_marked(&self, pixel: usize) -> bool {
        let width = self.traced.drawing.width;
        let mark = self.traced.mark;
        let over = (pixel % width).abs_diff(mark % width);
        let down = (pixel / width).abs_diff(mark / width);
        over.min(down) == 0 && over.max(down) <= self.arm
    }
}

/// The colour between its two neighbours on the ramp.
fn on_ramp(distance: u64, farthest: u64) -> Colour {
    let parts = RAMP.len() as u64 - 1;
    let at = (distance * parts / farthest).min(parts - 1);
    let beyond = distance * parts - at * farthest;
    let (near, far) = (RAMP[at as usize], RAMP[at as usize + 1]);
    std::array::from_fn(|i| {
        ((u64::from(near[i]) * (farthest - beyond) + u64::from(far[i]) * beyond) / farthest) as u8
    })
}
