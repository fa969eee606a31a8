//! The writer of sheets from edge records: refusals 21 to 25, with 13 for the
//! source just before the last. A refusal writes nothing.

use crate::mistake::{self, Mistake};
use crate::numbers::in_range;
use crate::sheet::{rows_offset, sheet_length, HEADER_BYTES, MOST_WEIGHT, NO_CHOICE};

/// More records are refused.
pub const MOST_RECORDS: usize = 262_144;

/// An edge record: two ends and one weight.
#[derive(Clone, Copy, PartialEq, Eq, Debug)]
pub struct Record {
    pub one: u64,
    pub other: u64,
    pub weight: u64,
}

impl Record {
    /// The ends in one order, whichever way the record has them.
    fn ends(&self) -> (u64, u64) {
        if mistake::on(Mistake::WriterTwiceOneWay) {
            return (self.one, self.other);
        }
        (self.one.min(self.other), self.one.max(self.other))
    }
}

/// Writes the sheet at the start of the target and gives its length.
pub fn write(target: &mut [u8], n: u64, source: u64, records: &[Record]) -> Result<usize, u64> {
    if let Some(number) = refusal(n, source, records) {
        return Err(number);
    }
    let h = 2 * records.len() as u64;
    let length = sheet_length(n, h) as usize;
    if target.len() < length + usize::from(mistake::on(Mistake::WriterExactRefused)) {
        return Err(25);
    }
    let rows = rows(n as usize, records);
    let mut numbers = Numbers(&mut *target);
    for field in [n, h, HEADER_BYTES as u64, rows_offset(n)] {
        numbers.put(field);
    }
    if mistake::on(Mistake::WriterNoChoiceResolved) && source == NO_CHOICE {
        numbers.put(0);
    } else {
        numbers.put(source);
    }
    let mut start = 0;
    numbers.put(start);
    for row in &rows {
        start += row.len() as u64;
        numbers.put(start);
    }
    for (other_end, weight) in rows.into_iter().flatten() {
        numbers.put(other_end);
        numbers.put(weight);
    }
    if mistake::on(Mistake::WriterClearsBehind) {
        target[length..].fill(0);
    }
    if mistake::on(Mistake::WriterAnswersRoom) {
        return Ok(target.len());
    }
    Ok(length)
}

/// Refusals 21, 22, 23, 24 and 13, in this order, each over all records.
fn refusal(n: u64, source: u64, records: &[Record]) -> Option<u64> {
    let most = MOST_RECORDS + usize::from(mistake::on(Mistake::WriterRecordMore))
        - usize::from(mistake::on(Mistake::WriterRecordLess));
    if !in_range(n) || records.len() > most {
        return Some(21);
    }
    if mistake::on(Mistake::WriterRecordByRecord) {
        let wrong = |record: &&Record| !ends_good(record, n) || !weight_good(record);
        if let Some(record) = records.iter().find(wrong) {
            return Some(22 + u64::from(ends_good(record, n)));
        }
    }
    if !records.iter().all(|record| ends_good(record, n)) {
        return Some(22);
    }
    if mistake::on(Mistake::Writer24Before23) && twice(records) {
        return Some(24);
    }
    if !records.iter().all(weight_good) {
        return Some(23);
    }
    let source_good = source < n || source == NO_CHOICE;
    if mistake::on(Mistake::Writer13Before24) && !source_good {
        return Some(13);
    }
    if twice(records) {
        return Some(24);
    }
    (!source_good).then_some(13)
}

fn ends_good(record: &Record, n: u64) -> bool {
    let end_good = |end: u64| match mistake::on(Mistake::WriterEndsCut) {
        true => u64::from(end as u32) < n,
        false => end < n,
    };
    let apart = record.one != record.other || mistake::on(Mistake::WriterEqualEndsTaken);
    end_good(record.one) && end_good(record.other) && apart
}

fn weight_good(record: &Record) -> bool {
    record.weight <= MOST_WEIGHT + u64::from(mistake::on(Mistake::WriterWeightMoreTaken))
}

/// Whether one pair of ends comes twice, either way round.
fn twice(records: &[Record]) -> bool {
    let mut ends: Vec<_> = records.iter().map(Record::ends).collect();
    ends.sort_unstable();
    ends.windows(2).any(|two| two[0] == two[1])
}

/// Each edge in both rows, targets ascending in every row.
fn rows(n: usize, records: &[Record]) -> Vec<Vec<(u64, u64)>> {
    let mut rows = vec![Vec::new(); n];
    for record in records {
        rows[record.one as usize].push((record.other, record.weight));
        rows[record.other as usize].push((record.one, record.weight));
    }
    if !mistake::on(Mistake::WriterRowsUnsorted) {
        for row in &mut rows {
            row.sort_unstable();
        }
    }
    rows
}

/// A place for 32-bit numbers, one behind the other, lowest byte first.
struct Numbers<'a>(&'a mut [u8]);

impl Numbers<'_> {
    fn put(&mut self, number: u64) {
        let target = std::mem::take(&mut self.0);
        let (place, rest) = target.split_at_mut(4);
        place.copy_from_slice(&(number as u32).to_le_bytes());
        self.0 = rest;
    }
}
