//! A drawing: a PGM file, plain (P2) or raw (P5).

use std::ops::{Range, RangeInclusive};

/// A pixel is a vertex of the sheet, and the run's queue has at most so many.
pub const MOST_PIXELS: usize = level_queue::MOST_IDS as usize;

/// Grey pixels, row after row from the top: pixel (x, y) has the number y x width + x.
#[derive(Debug)]
pub struct Drawing {
    pub width: usize,
    pub height: usize,
    /// The greatest grey; 0 is black.
    white: u8,
    greys: Vec<u8>,
}

impl Drawing {
    pub fn read(file: &[u8]) -> Result<Drawing, String> {
        let (raw, after) = match file {
            [b'P', b'2', after @ ..] => (false, after),
            [b'P', b'5', after @ ..] => (true, after),
            _ => return Err("The drawing is no PGM: it begins with neither P2 nor P5.".into()),
        };
        let mut rest = Rest(after);
        rest.blank("kind")?;
        let width = rest.number("width", 1..=MOST_PIXELS)?;
        let height = rest.number("height", 1..=MOST_PIXELS)?;
        if width * height > MOST_PIXELS {
            return Err(format!(
                "The drawing has {width} x {height} pixels, and at most {MOST_PIXELS} are taken."
            ));
        }
        let white = rest.number("greatest grey", 1..=255)?;
        let greys = match raw {
            true => rest.raw_greys(width * height, white)?,
            false => rest.plain_greys(width * height, white)?,
        };
        Ok(Drawing {
            width,
            height,
            white: white as u8,
            greys,
        })
    }

    pub fn pixels(&self) -> usize {
        self.greys.len()
    }

    /// The number of pixel (x, y).
    pub fn pixel(&self, x: usize, y: usize) -> Result<usize, String> {
        if x >= self.width || y >= self.height {
            return Err(format!(
                "The mark ({x}, {y}) is outside the drawing of {} x {} pixels.",
                self.width, self.height
            ));
        }
        Ok(y * self.width + x)
    }

    /// The pixels of a row.
    pub fn row(&self, y: usize) -> Range<usize> {
        y * self.width..(y + 1) * self.width
    }

    /// How far a pixel's grey is from white, in the drawing's own greys.
    pub fn darkness(&self, pixel: usize) -> u8 {
        self.white - self.greys[pixel]
    }

    pub fn is_black(&self, pixel: usize) -> bool {
        self.greys[pixel] == 0
    }

    /// The darkness as a part of `most`, which black has and nothing else.
    pub fn shade(&self, pixel: usize, most: usize) -> usize {
        usize::from(self.darkness(pixel)) * most / usize::from(self.white)
    }
}

/// What is left of a file.
struct Rest<'a>(&'a [u8]);

impl Rest<'_> {
    /// A single blank, behind what is named.
    fn blank(&mut self, name: &str) -> Result<(), String> {
        match self.0 {
            [byte, after @ ..] if byte.is_ascii_whitespace() => {
                self.0 = after;
                Ok(())
            }
            _ => Err(format!("No blank follows the drawing's {name}.")),
        }
    }

    /// Passes over blanks, and over comments up to the end of their line.
    fn pass_blanks(&mut self) {
        let mut comment = false;
        let length = self.0.iter().take_while(|&&byte| {
            comment = (comment || byte == b'#') && byte != b'\n' && byte != b'\r';
            comment || byte.is_ascii_whitespace()
        });
        self.0 = &self.0[length.count()..];
    }

    fn number(&mut self, name: &str, range: RangeInclusive<usize>) -> Result<usize, String> {
        self.pass_blanks();
        let length = self.0.iter().take_while(|byte| byte.is_ascii_digit());
        let (digits, after) = self.0.split_at(length.count());
        self.0 = after;
        let number = std::str::from_utf8(digits)
            .ok()
            .and_then(|text| text.parse().ok());
        number
            .filter(|number| range.contains(number))
            .ok_or_else(|| {
                let (least, most) = range.into_inner();
                format!("The drawing's {name} is not a number from {least} to {most}.")
            })
    }

    fn plain_greys(&mut self, pixels: usize, white: usize) -> Result<Vec<u8>, String> {
        let mut greys = Vec::with_capacity(pixels);
        for pixel in 0..pixels {
            greys.push(self.number(&format!("pixel {pixel}"), 0..=white)? as u8);
        }
        self.pass_blanks();
        match self.0 {
            [] => Ok(greys),
            _ => Err("Something follows the drawing's last pixel.".into()),
        }
    }

    fn raw_greys(&mut self, pixels: usize, white: usize) -> Result<Vec<u8>, String> {
        self.blank("greatest grey")?;
        if self.0.len() != pixels {
            return Err(format!(
                "The drawing has {} bytes of pixels instead of {pixels}.",
                self.0.len()
            ));
        }
        match self.0.iter().position(|&grey| usize::from(grey) > white) {
            None => Ok(self.0.to_vec()),
            Some(pixel) => Err(format!(
                "The drawing's pixel {pixel} is not a number from 0 to {white}."
            )),
        }
    }
}
