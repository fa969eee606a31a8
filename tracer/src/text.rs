//! The drawing and its distances side by side in characters, one for each pixel.

use crate::traced::{Seen, Traced};

/// Ink from white to black; black alone has the last.
const INKS: &[u8] = b" .:;+*o%&#";
const MARK: char = 'X';
const TITLES: [&str; 2] = ["the drawing", "the distances"];

pub fn side_by_side(traced: &Traced) -> String {
    let drawing = &traced.drawing;
    let band = traced.farthest / 10 + 1;
    let width = drawing.width.max(TITLES[0].len());
    let mut text = format!("{:width$}   {}\n", TITLES[0], TITLES[1]);
    for y in 0..drawing.height {
        let inks: String = drawing.row(y).map(|pixel| ink(traced, pixel)).collect();
        let digits: String = drawing
            .row(y)
            .map(|pixel| digit(traced, pixel, band))
            .collect();
        text += &format!("{inks:width$}   {digits}\n");
    }
    text + &format!(
        "{MARK} the mark   0 to 9 the distance divided by {band}   - no walk   # black\n"
    )
}

fn ink(traced: &Traced, pixel: usize) -> char {
    if pixel == traced.mark {
        return MARK;
    }
    INKS[traced.drawing.shade(pixel, INKS.len() - 1)].into()
}

fn digit(traced: &Traced, pixel: usize, band: u64) -> char {
    if pixel == traced.mark {
        return MARK;
    }
    match traced.seen(pixel) {
        Seen::Away(distance) => (b'0' + (distance / band) as u8).into(),
        Seen::Black => '#',
        Seen::Unreached => '-',
    }
}
