//! A sheet given by its 32-bit numbers, and the run over it, by the proved library.

use level_queue::{accept, distances, need, Refused, UNREACHED};

/// The numbers before the row starts: n, h, two offsets, the source.
pub const HEAD: usize = 5;

/// The most numbers of a sheet, and one more, so that a sheet that is too long stays so.
pub const MOST_NUMBERS: usize = HEAD + 65_537 + 2 * 524_288 + 1;

/// The sheet's bytes; or which number has more than 32 bits.
pub fn bytes(numbers: &[u64]) -> Result<Vec<u8>, String> {
    let mut bytes = Vec::new();
    for (at, &number) in numbers.iter().enumerate() {
        let small = u32::try_from(number)
            .map_err(|_| format!("number {at} is no number of 32 bits: {number}"))?;
        bytes.extend(small.to_le_bytes());
    }
    Ok(bytes)
}

/// The rows of a sheet and what the program `distances` prints of a sheet of any size, or the
/// refusal.
pub fn sheet(bytes: &[u8]) -> String {
    shown(bytes).unwrap_or_else(|refused| format!("refused {}\n", refused.number()))
}

fn shown(bytes: &[u8]) -> Result<String, Refused> {
    let sheet = accept(bytes)?;
    let n = sheet.n as usize;
    let mut table = vec![0; n];
    let mut image = vec![0; need(sheet.n).unwrap_or(0)];
    let reached = distances(bytes, &mut table, &mut image)?;
    let numbers: Vec<u32> = bytes
        .chunks_exact(4)
        .map(|four| u32::from_le_bytes([four[0], four[1], four[2], four[3]]))
        .collect();
    let mut text = format!(
        "n {n}, h {}, source {} (the run begins at vertex {})\n",
        sheet.h, numbers[4], sheet.source
    );
    for u in 0..n {
        text += &row(&numbers, n, u);
    }
    text += &format!("reached {reached} of {n}\n");
    for (vertex, &distance) in table.iter().enumerate() {
        let distance = if distance == UNREACHED {
            "-".to_string()
        } else {
            distance.to_string()
        };
        text += &format!("{vertex} {distance}\n");
    }
    Ok(text)
}

/// The half-edges of the vertex u of an accepted sheet.
fn row(numbers: &[u32], n: usize, u: usize) -> String {
    let rows = HEAD + n + 1;
    let (from, to) = (numbers[HEAD + u] as usize, numbers[HEAD + u + 1] as usize);
    let edges: Vec<String> = numbers[rows + 2 * from..rows + 2 * to]
        .chunks_exact(2)
        .map(|edge| format!("to {} for {}", edge[0], edge[1]))
        .collect();
    let edges = if edges.is_empty() {
        "-".to_string()
    } else {
        edges.join(", ")
    };
    format!("row {u}   {edges}\n")
}
