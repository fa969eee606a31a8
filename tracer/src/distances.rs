//! The distances of all pixels: run over a sheet, and the text of them that the program `distances` prints.

use level_queue::{Refused, UNREACHED};

/// The cost of the cheapest walk from the mark to each pixel, or nothing where there is no walk.
#[derive(Debug, PartialEq, Eq)]
pub struct Distances(pub Vec<Option<u64>>);

impl Distances {
    /// The proved run, for sheets of any size; the program takes no more than 1,024 vertices.
    pub fn run(sheet: &[u8]) -> Result<Distances, String> {
        let told = |refused: Refused| format!("The sheet is {refused}.");
        let n = level_queue::accept(sheet).map_err(told)?.n;
        let mut distances = vec![0; n as usize];
        let mut image = vec![0; level_queue::need(n).unwrap_or_default()];
        level_queue::distances(sheet, &mut distances, &mut image).map_err(told)?;
        let walked = |distance| (distance != UNREACHED).then_some(distance);
        Ok(Distances(distances.into_iter().map(walked).collect()))
    }

    /// Reads what the program printed.
    pub fn read(text: &[u8]) -> Result<Distances, String> {
        let text = std::str::from_utf8(text).map_err(|_| "The distances are no text.")?;
        let mut lines = text.lines();
        let heading = lines.next().unwrap_or_default();
        if let Some(number) = refusal(heading) {
            return Err(format!(
                "The program refused the sheet with {number} (docs/MANUAL.md has the numbers; more than 1,024 pixels need `tracer distances`)."
            ));
        }
        let rows = lines.enumerate().map(|(vertex, line)| row(vertex, line));
        let distances = Distances(rows.collect::<Result<_, _>>()?);
        if heading != distances.heading() {
            return Err(format!(
                "The first line of the distances is not `{}`, the sum of the others.",
                distances.heading()
            ));
        }
        Ok(distances)
    }

    pub fn print(&self) -> String {
        let mut text = self.heading() + "\n";
        for (vertex, distance) in self.0.iter().enumerate() {
            let distance = distance.map_or("-".into(), |distance| distance.to_string());
            text += &format!("{vertex} {distance}\n");
        }
        text
    }

    fn heading(&self) -> String {
        let reached = self.0.iter().flatten().count();
        format!("reached {reached} of {}", self.0.len())
    }

    pub fn farthest(&self) -> u64 {
        self.0.iter().flatten().copied().max().unwrap_or(0)
    }
}

/// The number of a line `refused NO`.
fn refusal(line: &str) -> Option<u8> {
    line.strip_prefix("refused ")?.parse().ok()
}

/// A vertex's line, `V D` or `V -`.
fn row(vertex: usize, line: &str) -> Result<Option<u64>, String> {
    match line.strip_prefix(&format!("{vertex} ")) {
        Some("-") => Some(None),
        Some(digits) => distance(digits).map(Some),
        None => None,
    }
    .ok_or_else(|| {
        format!(
            "Line {} of the distances is neither `{vertex} D` nor `{vertex} -`.",
            vertex + 2
        )
    })
}

/// A distance as it is printed, with no sign and no leading zeros.
fn distance(digits: &str) -> Option<u64> {
    let distance: u64 = digits.parse().ok()?;
    (distance < UNREACHED && distance.to_string() == digits).then_some(distance)
}
