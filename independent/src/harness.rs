//! The comparison: two copies of a slice, one for each side, take the same
//! calls, and every answer and every word must agree.

use crate::generate::{self, Call, Habits, Random};
use crate::harness_sheets;
use crate::image::{self, Answer};
use crate::mistake;
use crate::numbers::*;
use crate::plain::{self, Plain};
use crate::programs;
use crate::run;
use crate::sheet;
use crate::sound::verdict;
use crate::writer::{self, Record};

/// What is compared, one kind of case each.
#[derive(Clone, Copy, PartialEq, Eq, Debug)]
pub enum Topic {
    /// The outward calls of the queue.
    Queue,
    /// The acceptance of sheets.
    Sheet,
    Writer,
    Run,
    /// The two programs, from input to output.
    Programs,
}

impl Topic {
    pub const ALL: [Topic; 5] = [
        Topic::Queue,
        Topic::Sheet,
        Topic::Writer,
        Topic::Run,
        Topic::Programs,
    ];

    pub fn name(self) -> &'static str {
        match self {
            Topic::Queue => "queue",
            Topic::Sheet => "sheet",
            Topic::Writer => "writer",
            Topic::Run => "run",
            Topic::Programs => "programs",
        }
    }

    pub fn named(name: &str) -> Option<Topic> {
        Topic::ALL.into_iter().find(|topic| topic.name() == name)
    }
}

/// n, h and the chosen source of an accepted sheet.
pub type Reading = [u64; 3];

pub fn accept(sheet: &[u8]) -> Result<Reading, u64> {
    let sheet = sheet::accept(sheet)?;
    Ok([sheet.n, sheet.h, sheet.source].map(|number| number as u64))
}

/// The side that is judged. Answers as the page numbers them; where a side has
/// no function of its own the independent one stands in, without mistakes.
pub trait Judged {
    fn fresh(&self, image: &mut [u64], n: u64) -> Answer;
    fn decrease(&self, image: &mut [u64], id: u64, key: u64) -> Answer;
    fn delete(&self, image: &mut [u64], id: u64) -> Answer;
    /// 0 sound, else 2 or 3.
    fn judge(&self, image: &[u64]) -> u64;
    /// `None` while the side has no Delete-Min: then the independent one
    /// advances both copies.
    fn delete_min(&self, image: &mut [u64]) -> Option<Answer>;

    fn accept(&self, sheet: &[u8]) -> Result<Reading, u64> {
        mistake::without(|| accept(sheet))
    }

    /// The length written.
    fn write(
        &self,
        target: &mut [u8],
        n: u64,
        source: u64,
        records: &[Record],
    ) -> Result<u64, u64> {
        mistake::without(|| writer::write(target, n, source, records)).map(|length| length as u64)
    }

    /// The number reached.
    fn distances(
        &self,
        sheet: &[u8],
        distances: &mut [u64],
        image: &mut [u64],
    ) -> Result<u64, u64> {
        mistake::without(|| run::distances(sheet, distances, image))
    }
}

/// Programs that are judged: from input to output, or why there is none.
pub trait Programs {
    fn queue(&self, input: &[u8]) -> Result<Vec<u8>, Failure>;
    fn distances(&self, input: &[u8]) -> Result<Vec<u8>, Failure>;
    /// How many scripts a case puts into one input of `queue`, and how many
    /// inputs of `distances` it has.
    fn batch(&self) -> (usize, usize);
}

/// Both sides that can be judged.
#[derive(Clone, Copy)]
pub struct Sides<'a> {
    pub calls: &'a dyn Judged,
    pub programs: &'a dyn Programs,
}

/// The independent code without mistakes, as the judged side: shows what the
/// comparison notices when no library is at hand.
pub struct Itself {
    pub has_min: bool,
}

impl Judged for Itself {
    fn fresh(&self, image: &mut [u64], n: u64) -> Answer {
        mistake::without(|| image::fresh(image, n))
    }

    fn decrease(&self, image: &mut [u64], id: u64, key: u64) -> Answer {
        mistake::without(|| image::decrease(image, id, key))
    }

    fn delete(&self, image: &mut [u64], id: u64) -> Answer {
        mistake::without(|| image::delete(image, id))
    }

    fn judge(&self, image: &[u64]) -> u64 {
        mistake::without(|| verdict(image).number())
    }

    fn delete_min(&self, image: &mut [u64]) -> Option<Answer> {
        self.has_min
            .then(|| mistake::without(|| image::delete_min(image)))
    }
}

impl Programs for Itself {
    fn queue(&self, input: &[u8]) -> Result<Vec<u8>, Failure> {
        Ok(mistake::without(|| programs::queue(input)))
    }

    fn distances(&self, input: &[u8]) -> Result<Vec<u8>, Failure> {
        Ok(mistake::without(|| programs::distances(input)))
    }

    fn batch(&self) -> (usize, usize) {
        (1, 1)
    }
}

#[derive(Clone, Debug, Default)]
pub struct Counts {
    pub cases: u64,
    /// Calls of the queue, and what was answered.
    pub calls: u64,
    pub taken: u64,
    pub mins: u64,
    pub empty: u64,
    pub judged: u64,
    pub sheets_accepted: u64,
    pub sheets_written: u64,
    pub runs: u64,
    /// Inputs of `queue` and their lines, inputs of `distances`.
    pub scripts: u64,
    pub lines: u64,
    pub inputs: u64,
    /// By number, 1 to 25, of calls; those a program prints are not counted.
    pub refused: [u64; 26],
}

impl Counts {
    fn note(&mut self, answer: Answer) {
        self.calls += 1;
        match answer {
            Answer::Taken => self.taken += 1,
            Answer::Min { .. } => self.mins += 1,
            Answer::Empty { .. } => self.empty += 1,
            Answer::Refused(number) => self.note_refused(number),
        }
    }

    pub fn note_refused(&mut self, number: u64) {
        self.refused[number as usize % 26] += 1;
    }

    /// What was met, in one line.
    pub fn line(&self) -> String {
        let met = [
            ("cases", self.cases),
            ("calls", self.calls),
            ("taken", self.taken),
            ("min", self.mins),
            ("empty", self.empty),
            ("judgements", self.judged),
            ("sheets accepted", self.sheets_accepted),
            ("sheets written", self.sheets_written),
            ("runs", self.runs),
            ("scripts", self.scripts),
            ("lines of them", self.lines),
            ("inputs of distances", self.inputs),
        ];
        let met = met.into_iter().filter(|&(_, count)| count > 0);
        let met = met.map(|(name, count)| format!("{count} {name}"));
        let refused = (0..).zip(self.refused).filter(|&(_, count)| count > 0);
        let refused = refused.map(|(number, count)| format!("refused {number}: {count}"));
        met.chain(refused).collect::<Vec<String>>().join(", ")
    }
}

/// Why a case failed.
pub type Failure = String;

/// Words put around each slice: no call may touch them.
pub const GUARD: usize = 8;

/// The same slice twice.
struct Twins<'a> {
    judged: &'a dyn Judged,
    mine: Vec<u64>,
    theirs: Vec<u64>,
    length: usize,
    counts: &'a mut Counts,
}

impl<'a> Twins<'a> {
    fn new(judged: &'a dyn Judged, slice: &[u64], counts: &'a mut Counts) -> Twins<'a> {
        let guard = [0x6775_6172_6477_6f72; GUARD];
        let mine = [&guard, slice, &guard].concat();
        Twins {
            judged,
            theirs: mine.clone(),
            mine,
            length: slice.len(),
            counts,
        }
    }

    fn mine(&self) -> &[u64] {
        &self.mine[GUARD..GUARD + self.length]
    }

    /// One call on both sides; the answer, if all agrees.
    fn call(&mut self, call: Call) -> Result<Answer, Failure> {
        let slice = GUARD..GUARD + self.length;
        let mine = &mut self.mine[slice.clone()];
        let theirs = &mut self.theirs[slice];
        let (mine, theirs) = match call {
            Call::Fresh(n) => (image::fresh(mine, n), self.judged.fresh(theirs, n)),
            Call::Decrease(id, key) => (
                image::decrease(mine, id, key),
                self.judged.decrease(theirs, id, key),
            ),
            Call::Delete(id) => (image::delete(mine, id), self.judged.delete(theirs, id)),
            Call::DeleteMin => {
                let answer = image::delete_min(mine);
                let theirs = self.judged.delete_min(theirs).unwrap_or_else(|| {
                    theirs.copy_from_slice(mine);
                    answer
                });
                (answer, theirs)
            }
            Call::Judge => return self.judge(),
        };
        self.counts.note(mine);
        if mine != theirs {
            return Err(format!("{call:?}: independent {mine:?}, proved {theirs:?}"));
        }
        self.same_words(call)?;
        Ok(mine)
    }

    fn judge(&mut self) -> Result<Answer, Failure> {
        let slice = GUARD..GUARD + self.length;
        let mine = verdict(&self.mine[slice.clone()]).number();
        let theirs = self.judged.judge(&self.theirs[slice]);
        self.counts.judged += 1;
        if mine != theirs {
            return Err(format!("judge: independent {mine}, proved {theirs}"));
        }
        self.same_words(Call::Judge)?;
        Ok(if mine == 0 {
            Answer::Taken
        } else {
            Answer::Refused(mine)
        })
    }

    /// Every word, also those behind the image and around the slice.
    fn same_words(&self, call: Call) -> Result<(), Failure> {
        if self.mine == self.theirs {
            return Ok(());
        }
        let differs = |&at: &usize| self.mine[at] != self.theirs[at];
        let at = (0..self.mine.len()).find(differs).unwrap_or(0);
        let (mine, theirs) = (self.mine[at], self.theirs[at]);
        let word = at as i64 - GUARD as i64;
        Err(format!(
            "{call:?}: word {word} is {mine} (independent) and {theirs} (proved)"
        ))
    }
}

/// One case; the same seed and number always make the same case.
pub fn run_case(
    topic: Topic,
    seed: u64,
    case: u64,
    sides: Sides,
    counts: &mut Counts,
) -> Result<(), Failure> {
    let random = &mut Random::for_case(seed, case);
    counts.cases += 1;
    match topic {
        Topic::Queue => queue_case(random, sides.calls, counts),
        Topic::Sheet => harness_sheets::sheet_case(random, sides.calls, counts),
        Topic::Writer => harness_sheets::writer_case(random, sides.calls, counts),
        Topic::Run => harness_sheets::run_case(random, sides.calls, counts),
        Topic::Programs => harness_sheets::program_case(random, sides.programs, counts),
    }
}

fn queue_case(
    random: &mut Random,
    judged: &dyn Judged,
    counts: &mut Counts,
) -> Result<(), Failure> {
    match random.below(10) {
        0..=4 => session_case(random, judged, counts),
        5..=8 => damage_case(random, judged, counts),
        _ => fresh_case(random, judged, counts),
    }
}

fn calls_for(random: &mut Random, n: u64) -> u64 {
    match n {
        0..=40 => random.below(4 * n + 8),
        41..=2_000 => random.below(60),
        _ => random.below(8),
    }
}

/// Words behind an image: any words at all.
fn behind(random: &mut Random) -> Vec<u64> {
    let count = random.pick(&[0, 0, 1, 3, 20]);
    (0..count).map(|_| random.word()).collect()
}

/// Calls on a sound image.
fn session_case(
    random: &mut Random,
    judged: &dyn Judged,
    counts: &mut Counts,
) -> Result<(), Failure> {
    let n = generate::size(random);
    let mut slice = mistake::without(|| generate::sound_image(random, n));
    slice.extend(behind(random));
    let mut twins = Twins::new(judged, &slice, counts);
    if twins.call(Call::Judge)? != Answer::Taken {
        return Err("a sound starting image is refused by both".to_string());
    }
    let habits = generate::habits(random);
    let calls = calls_for(random, n);
    session(random, &mut twins, &habits, calls)
}

/// Calls, held against the plain map as well.
fn session(
    random: &mut Random,
    twins: &mut Twins,
    habits: &Habits,
    calls: u64,
) -> Result<(), Failure> {
    let n = twins.mine()[0];
    let small = n <= 40;
    let mut plain = Plain::of(twins.mine());
    for number in 0..calls {
        let call = generate::call(random, n, habits);
        let fail = |failure| format!("call {number} of the session, n = {n}: {failure}");
        let reach = plain_reach(twins.mine(), call);
        let answer = twins.call(call).map_err(fail)?;
        let expected = plain_answer(&mut plain, call, reach);
        if answer != expected {
            return Err(fail(format!(
                "{call:?}: both {answer:?}, plain map {expected:?}"
            )));
        }
        if small || number + 1 == calls {
            if twins.call(Call::Judge).map_err(fail)? != Answer::Taken {
                return Err(fail(format!("{call:?}: leaves an image that is not sound")));
            }
            if plain::live_map(twins.mine()) != plain.map {
                return Err(fail(format!("{call:?}: the live map is not the plain map")));
            }
        }
    }
    Ok(())
}

/// The reach that a Delete-Min must answer, by its definition.
fn plain_reach(image: &[u64], call: Call) -> u64 {
    match call {
        Call::DeleteMin => plain::reach(image).unwrap_or(levels(image[0]) as u64),
        _ => 0,
    }
}

fn plain_answer(plain: &mut Plain, call: Call, reach: u64) -> Answer {
    match call {
        Call::Decrease(id, key) => plain.decrease(id, key),
        Call::Delete(id) => plain.delete(id),
        Call::DeleteMin => match plain.delete_min() {
            Some((id, key)) => Answer::Min { id, key, reach },
            None => Answer::Empty { reach },
        },
        Call::Fresh(_) | Call::Judge => Answer::Taken,
    }
}

/// All calls on damaged words, some times over from the same image.
fn damage_case(
    random: &mut Random,
    judged: &dyn Judged,
    counts: &mut Counts,
) -> Result<(), Failure> {
    let n = generate::size(random);
    let sound = mistake::without(|| generate::sound_image(random, n));
    let times = if n <= 300 { 8 } else { 3 };
    for _ in 0..times {
        let mut slice = sound.clone();
        generate::damage(random, &mut slice);
        slice.extend(behind(random));
        let mut twins = Twins::new(judged, &slice, counts);
        twins.call(Call::Judge)?;
        for call in [wild_call(random, n), wild_call(random, n), Call::DeleteMin] {
            // A word that chance left sound is advanced; the next call sees it.
            twins.call(call)?;
        }
    }
    Ok(())
}

fn wild_call(random: &mut Random, n: u64) -> Call {
    let id = random.pick(&[0, n - 1, n, u64::MAX]);
    let key = random.pick(&[0, 5, KEY_LIMIT - 1, KEY_LIMIT, u64::MAX]);
    match random.below(2) {
        0 => Call::Delete(id),
        _ => Call::Decrease(id, key),
    }
}

/// Fresh images on slices of any length and any old words, then some calls.
fn fresh_case(
    random: &mut Random,
    judged: &dyn Judged,
    counts: &mut Counts,
) -> Result<(), Failure> {
    let n = match random.below(12) {
        0 => random.pick(&[0, MOST_IDS + 1, u64::MAX]),
        1 => generate::extreme(random),
        _ => generate::size(random),
    };
    let length = slice_length(random, n);
    let old_words = random.one_in(2);
    let mut slice: Vec<u64> = (0..length)
        .map(|_| if old_words { random.word() } else { 0 })
        .collect();
    if length > 0 && random.one_in(2) {
        slice[0] = random.pick(&[0, 1, 2, n, MOST_IDS, MOST_IDS + 1]);
    }
    let mut twins = Twins::new(judged, &slice, counts);
    // Before an accepted fresh the old words are what the calls see.
    twins.call(Call::Judge)?;
    twins.call(Call::DeleteMin)?;
    twins.call(Call::Decrease(0, 0))?;
    if twins.call(Call::Fresh(n))? != Answer::Taken {
        return Ok(());
    }
    let habits = generate::habits(random);
    let calls = calls_for(random, n);
    session(random, &mut twins, &habits, calls)
}

/// Lengths around the need for n, and around 14.
fn slice_length(random: &mut Random, n: u64) -> usize {
    let least = if in_range(n) { need(n) } else { 20 };
    match random.below(8) {
        0 => random.index(LEAST_WORDS + 2),
        1 => least - 1,
        2 => random.index(least),
        3 => least + random.index(30),
        _ => least,
    }
}
