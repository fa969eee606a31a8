//! A drawing with its distances, and what each pixel shows.

use crate::distances::Distances;
use crate::drawing::Drawing;

#[derive(Debug)]
pub struct Traced {
    pub drawing: Drawing,
    /// The pixel of the mark.
    pub mark: usize,
    pub farthest: u64,
    distances: Distances,
}

/// What a pixel other than the mark shows beside its ink.
pub enum Seen {
    /// So far from the mark.
    Away(u64),
    Black,
    /// Not black, and yet no walk leads to it.
    Unreached,
}

impl Traced {
    pub fn new(drawing: Drawing, distances: Distances) -> Result<Traced, String> {
        let (pixels, lines) = (drawing.pixels(), distances.0.len());
        if lines != pixels {
            return Err(format!(
                "There are distances of {lines} pixels, and the drawing has {pixels}."
            ));
        }
        Ok(Traced {
            drawing,
            mark: mark(&distances)?,
            farthest: distances.farthest(),
            distances,
        })
    }

    pub fn seen(&self, pixel: usize) -> Seen {
        match self.distances.0[pixel] {
            Some(distance) => Seen::Away(distance),
            None if self.drawing.is_black(pixel) => Seen::Black,
            None => Seen::Unreached,
        }
    }
}

/// Every step costs 1 or more, so that the mark alone has distance 0.
fn mark(distances: &Distances) -> Result<usize, String> {
    let numbered = distances.0.iter().enumerate();
    let mut marks = numbered.filter(|(_, &distance)| distance == Some(0));
    match (marks.next(), marks.next()) {
        (Some((mark, _)), None) => Ok(mark),
        _ => Err("Not exactly one of the distances is 0, as the mark's is.".into()),
    }
}
