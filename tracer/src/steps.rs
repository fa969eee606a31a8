//! The sheet of a drawing: a vertex for each pixel, an edge for each step between two pixels that share a side.

use crate::drawing::Drawing;
use level_queue::Edge;

/// A step costs 1 plus the square of the darkness of the darker of its two pixels, and black is never stepped on. The
/// square sets ink apart from shaded cloth, and the greatest, 254 x 254 + 1, is still a weight.
fn step(drawing: &Drawing, one: usize, other: usize) -> Option<Edge> {
    if drawing.is_black(one) || drawing.is_black(other) {
        return None;
    }
    let darker = u64::from(drawing.darkness(one).max(drawing.darkness(other)));
    Some(Edge {
        one: one as u64,
        other: other as u64,
        weight: 1 + darker * darker,
    })
}

/// Every step once: from each pixel to the one on its right and to the one below it.
pub fn steps(drawing: &Drawing) -> Vec<Edge> {
    let mut steps = Vec::new();
    for pixel in 0..drawing.pixels() {
        if (pixel + 1) % drawing.width != 0 {
            steps.extend(step(drawing, pixel, pixel + 1));
        }
        if pixel + drawing.width < drawing.pixels() {
            steps.extend(step(drawing, pixel, pixel + drawing.width));
        }
    }
    steps
}

/// The sheet, its source the mark at (x, y), by the proved writer.
pub fn sheet(drawing: &Drawing, x: usize, y: usize) -> Result<Vec<u8>, String> {
    let mark = drawing.pixel(x, y)? as u64;
    let n = drawing.pixels() as u64;
    let steps = steps(drawing);
    let mut sheet = vec![0; level_queue::sheet_length(n, steps.len()).unwrap_or_default()];
    level_queue::write(&mut sheet, n, mark, &steps)
        .map_err(|refused| format!("The drawing's sheet is {refused}."))?;
    Ok(sheet)
}
