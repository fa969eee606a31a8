//! Sheets from bytes: refusals 11 to 17, and the reading of what is accepted.
//!
//! Each number is tested over the whole sheet before the next.

use crate::mistake::{self, Mistake};
use crate::numbers::in_range;

/// n, h, two offsets and the source, 32 bits each.
pub const HEADER_BYTES: usize = 20;
/// h is at most this.
pub const MOST_HALF_EDGES: u64 = 524_288;
/// Weights are at most this.
pub const MOST_WEIGHT: u64 = 65_535;
/// The source when no choice was made: it stands for vertex 0.
pub const NO_CHOICE: u64 = 4_294_967_295;

/// Where the rows begin: behind the header and n+1 row starts.
pub fn rows_offset(n: u64) -> u64 {
    HEADER_BYTES as u64 + 4 * (n + 1)
}

/// The exact length of a sheet.
pub fn sheet_length(n: u64, h: u64) -> u64 {
    rows_offset(n) + 8 * h
}

/// An accepted sheet.
#[derive(Clone, Copy, Debug)]
pub struct Sheet<'a> {
    pub n: usize,
    pub h: usize,
    /// The chosen source: where the run starts.
    pub source: usize,
    starts: &'a [[u8; 4]],
    rows: &'a [[u8; 8]],
}

impl<'a> Sheet<'a> {
    /// What a vertex's row names: targets and weights.
    pub fn row(&self, vertex: usize) -> impl Iterator<Item = (usize, u64)> + use<'a> {
        self.row_words(vertex).iter().map(|&row| {
            let (target, weight) = target_and_weight(row);
            (target as usize, weight)
        })
    }

    fn start(&self, vertex: usize) -> usize {
        number(self.starts[vertex]) as usize
    }

    fn row_words(&self, vertex: usize) -> &'a [[u8; 8]] {
        &self.rows[self.start(vertex)..self.start(vertex + 1)]
    }
}

/// Lowest byte first.
fn number(bytes: [u8; 4]) -> u64 {
    u64::from(u32::from_le_bytes(bytes))
}

fn target_and_weight([a, b, c, d, e, f, g, h]: [u8; 8]) -> (u64, u64) {
    (number([a, b, c, d]), number([e, f, g, h]))
}

/// The reading of a sheet, or its refusal number.
pub fn accept(bytes: &[u8]) -> Result<Sheet<'_>, u64> {
    let Some((header, rest)) = bytes.split_at_checked(HEADER_BYTES) else {
        return Err(11);
    };
    let field = |at: usize| number([0, 1, 2, 3].map(|byte| header[4 * at + byte]));
    let (n, h, source) = (field(0), field(1), field(4));
    if mistake::on(Mistake::SheetShapeBefore12) && !shape_good(bytes, n, h, [field(2), field(3)]) {
        return Err(11);
    }
    let most = MOST_HALF_EDGES + u64::from(mistake::on(Mistake::SheetHalfEdgeMore))
        - u64::from(mistake::on(Mistake::SheetHalfEdgeLess));
    if !in_range(n) || h > most {
        return Err(12);
    }
    if !shape_good(bytes, n, h, [field(2), field(3)]) {
        return Err(11);
    }
    if !mistake::on(Mistake::Sheet13After14) && !source_good(source, n) {
        return Err(13);
    }
    let (starts, rows) = rest.split_at(4 * (n as usize + 1));
    let sheet = Sheet {
        n: n as usize,
        h: h as usize,
        source: chosen(source, n),
        starts: starts.as_chunks().0,
        rows: rows.as_chunks().0,
    };
    match row_refusal(&sheet) {
        Some(number) => Err(number),
        // Only the mistake leaves this to be asked so late.
        None if !source_good(source, n) => Err(13),
        None => Ok(sheet),
    }
}

/// The offsets and the length that n and h ask for.
fn shape_good(bytes: &[u8], n: u64, h: u64, offsets: [u64; 2]) -> bool {
    let second = mistake::on(Mistake::SheetSecondOffsetFree) || offsets[1] == rows_offset(n);
    let length = bytes.len() as u64;
    let exact = match mistake::on(Mistake::SheetMayBeLonger) {
        true => length >= sheet_length(n, h),
        false => length == sheet_length(n, h),
    };
    offsets[0] == HEADER_BYTES as u64 && second && exact
}

fn source_good(source: u64, n: u64) -> bool {
    let no_choice = source == NO_CHOICE && !mistake::on(Mistake::SheetNoChoiceRefused);
    source < n + u64::from(mistake::on(Mistake::SheetSourceNTaken)) || no_choice
}

fn chosen(source: u64, n: u64) -> usize {
    if source != NO_CHOICE {
        return source as usize;
    }
    if mistake::on(Mistake::SheetNoChoiceIsLast) {
        return n as usize - 1;
    }
    0
}

/// Refusals 14 to 17, in this order.
fn row_refusal(sheet: &Sheet) -> Option<u64> {
    if !starts_good(sheet) {
        return Some(14);
    }
    if mistake::on(Mistake::SheetVertexByVertex) {
        let mut vertices = 0..sheet.n;
        if let Some(vertex) = vertices.find(|&v| !targets_good(sheet, v) || !weights_good(sheet, v))
        {
            return Some(15 + u64::from(targets_good(sheet, vertex)));
        }
    }
    if !(0..sheet.n).all(|vertex| targets_good(sheet, vertex)) {
        return Some(15);
    }
    if mistake::on(Mistake::Sheet17Before16) && !both_sided(sheet) {
        return Some(17);
    }
    if !(0..sheet.n).all(|vertex| weights_good(sheet, vertex)) {
        return Some(16);
    }
    (!both_sided(sheet)).then_some(17)
}

/// Row starts begin at 0, never fall, end at h.
fn starts_good(sheet: &Sheet) -> bool {
    let begin = mistake::on(Mistake::SheetStartsAnywhere) || sheet.start(0) == 0;
    let end = sheet.start(sheet.n) == sheet.h
        || mistake::on(Mistake::SheetEndsAnywhere) && sheet.start(sheet.n) < sheet.h;
    let mut two = sheet.starts.windows(2);
    begin && end && two.all(|two| number(two[0]) <= number(two[1]))
}

/// A vertex's targets are below n, ascend strictly and are never the vertex.
fn targets_good(sheet: &Sheet, vertex: usize) -> bool {
    let end = sheet.n + usize::from(mistake::on(Mistake::SheetTargetNTaken));
    let own_taken = mistake::on(Mistake::SheetOwnVertexTaken);
    let step = usize::from(!mistake::on(Mistake::SheetTargetTwiceTaken));
    let mut least = 0;
    for (target, _) in sheet.row(vertex) {
        if target < least || target >= end || target == vertex && !own_taken {
            return false;
        }
        least = target + step;
    }
    true
}

fn weights_good(sheet: &Sheet, vertex: usize) -> bool {
    let most = MOST_WEIGHT + u64::from(mistake::on(Mistake::SheetWeightMoreTaken));
    sheet.row(vertex).all(|(_, weight)| weight <= most)
}

/// If u's row names v, v's row names u.
///
/// Vertices come in ascending order and so do the targets of a row. When all
/// edges have both sides, those who name v come in the order of v's own row:
/// each of them finds itself next there. Anything else shows a missing side.
fn both_sided(sheet: &Sheet) -> bool {
    if mistake::on(Mistake::SheetOneSidedTaken) {
        return true;
    }
    let equal_weights = mistake::on(Mistake::SheetUnequalRefused);
    let mut next: Vec<usize> = (0..sheet.n).map(|vertex| sheet.start(vertex)).collect();
    for vertex in 0..sheet.n {
        for (target, weight) in sheet.row(vertex) {
            // Only by mistake does a target out of range come here.
            let Some(place) = next.get_mut(target) else {
                return false;
            };
            if *place == sheet.start(target + 1) {
                return false;
            }
            let (back, weight_back) = target_and_weight(sheet.rows[*place]);
            if back as usize != vertex || equal_weights && weight != weight_back {
                return false;
            }
            *place += 1;
        }
        if mistake::on(Mistake::SheetHalfTested) && 2 * vertex > sheet.n {
            return true;
        }
    }
    true
}
