//! Deliberate mistakes, to show that the comparison can fail.
//!
//! One switch per thread, off unless `compare --mistake` or a test sets it.

use crate::harness::Topic;
use crate::sound::Clause;
use std::cell::Cell;
use std::sync::atomic::{AtomicBool, Ordering};

#[derive(Clone, Copy, PartialEq, Eq, Debug)]
pub enum Mistake {
    /// Sinks count when it is decided whether to tidy.
    SinksCounted,
    /// Tidies when n-1 updates wait.
    TidyEarly,
    /// Pushes first and tidies then.
    TidyAfterPush,
    /// Tidies although the call is then refused with 4 or 5.
    TidyOnRefusal,
    /// The last filled level's bound is its largest pair, not open.
    TidyLastBound,
    /// Elements lie in ascending cost, not in ascending id.
    TidyCostOrder,
    /// Equal costs are ordered by falling id.
    TidyCostsOnly,
    /// A Decrease with a larger cost raises the pair.
    TidyDecreaseSets,
    Refusals4And5Swapped,
    /// Key 2^40 is taken.
    KeyLimitTaken,
    /// Id n is taken.
    IdLimitTaken,
    Fresh2Before1,
    /// A fresh image also clears the words behind it.
    FreshClearsBehind,
    /// A fresh image keeps old words below the header.
    FreshKeepsOldWords,
    /// Word 0 out of range is answered with 2.
    WordZeroGives2,
    /// Under 14 words, word 0 out of range is answered with 3.
    ShortGives3,
    /// A Decrease that lowers nothing is not pushed.
    IdleDecreaseDropped,
    /// The update goes before those waiting at level 0.
    PushedInFront,
    /// A Decrease that entered sends no Delete down.
    MinNoDeleteDown,
    /// The Sinks go before the updates passed on.
    MinSinksFirst,
    /// Costs alone are compared with the bound.
    MinCostsOnly,
    /// New Sinks are counted in word 2.
    MinSinksInWord2,
    /// The reach is k, not k+1.
    MinReach,
    /// The bound of k stays although pairs sank.
    MinBoundStays,
    /// A Sink enters whatever the bound.
    MinSinkEnters,
    /// The last filled level's bound is its largest pair.
    MinLastBound,
    /// Sinks in falling id.
    MinSinksFalling,
    /// An empty queue keeps its bounds.
    MinEmptyKeepsBounds,
    /// An element may equal the bound of the level above.
    SoundElementAtBefore,
    /// A waiting Decrease or Sink may equal the bound of the level above.
    SoundUpdateAtBefore,
    /// The update counts are added in 64 bits, so that their sum can wrap.
    SoundSumWraps,
    /// What comes before a Sink is not looked at.
    SoundSinksAnywhere,
    /// What comes before an element is not looked at.
    SoundElementsAnywhere,
    /// Offsets and length are judged before n and h.
    SheetShapeBefore12,
    /// h = 524,289 is taken.
    SheetHalfEdgeMore,
    /// h = 524,288 is refused.
    SheetHalfEdgeLess,
    /// The second offset is not looked at.
    SheetSecondOffsetFree,
    /// Bytes behind the rows are taken.
    SheetMayBeLonger,
    /// Source n is taken.
    SheetSourceNTaken,
    /// The no-choice value is a source out of range.
    SheetNoChoiceRefused,
    /// No choice stands for the last vertex.
    SheetNoChoiceIsLast,
    /// The source is judged behind the rows.
    Sheet13After14,
    /// The first row may start behind 0.
    SheetStartsAnywhere,
    /// The last row may end before h.
    SheetEndsAnywhere,
    /// Target n is taken.
    SheetTargetNTaken,
    /// A vertex may name itself.
    SheetOwnVertexTaken,
    /// A row may name a target twice.
    SheetTargetTwiceTaken,
    /// Targets and weights are judged vertex by vertex, not one after the other.
    SheetVertexByVertex,
    /// Weight 65,536 is taken.
    SheetWeightMoreTaken,
    Sheet17Before16,
    /// 17 is never given.
    SheetOneSidedTaken,
    /// Only the rows of the first half are tested for their other side.
    SheetHalfTested,
    /// Both rows must give an edge the same weight.
    SheetUnequalRefused,
    /// 262,145 records are taken.
    WriterRecordMore,
    /// 262,144 records are refused.
    WriterRecordLess,
    /// Only the low 32 bits of an end are judged.
    WriterEndsCut,
    /// A record may join a vertex with itself.
    WriterEqualEndsTaken,
    /// Weight 65,536 is taken.
    WriterWeightMoreTaken,
    /// Ends and weights are judged record by record, not one after the other.
    WriterRecordByRecord,
    /// A pair of ends the other way round is another pair.
    WriterTwiceOneWay,
    Writer24Before23,
    Writer13Before24,
    /// A target of the exact length is too short.
    WriterExactRefused,
    /// No choice is stored as vertex 0.
    WriterNoChoiceResolved,
    /// Rows keep the order of the records.
    WriterRowsUnsorted,
    /// Target bytes beyond the sheet are cleared.
    WriterClearsBehind,
    /// The answer is the target's length.
    WriterAnswersRoom,
    Run2Before18,
    /// Distances are written although the image is too short.
    RunRefusedWrites,
    /// Old words of the image must be sound.
    RunJudgesImage,
    /// Words behind the image and past n distances are cleared.
    RunClearsBehind,
    /// Distances start as 0, not as unreached.
    RunUnreachedZero,
    /// The run always starts from vertex 0.
    RunFirstVertex,
    /// The first distance a vertex gets stays.
    RunFirstComes,
    /// The last Delete-Min is left out when all are reached: the image is not fresh.
    RunStopsWhenAllReached,
    /// The source does not count as reached.
    RunSourceNotCounted,
    /// A walk pays the weight in the row it enters by.
    RunOtherRowsWeight,
    /// A weight of 0 costs 1.
    RunZeroIsOne,
    /// Empty lines say nothing.
    QueueSkipsEmpty,
    /// Bytes after the last newline are no line.
    QueueLastNeedsNewline,
    /// A carriage return before the newline is dropped.
    QueueDropsReturn,
    /// Lines are cut after 1,024 bytes.
    QueueCutsLines,
    /// Any number of spaces parts words.
    QueueManySpaces,
    /// Upper case is taken.
    QueueAnyCase,
    /// Words behind `min` are passed over.
    QueueWordsBehind,
    /// A decimal may have a sign.
    QueueSignTaken,
    /// Decimals of 16 digits are taken.
    Queue16Digits,
    /// Leading zeros are refused.
    QueueZerosRefused,
    /// A refused `new` takes the old image away.
    QueueNewRefusedClears,
    /// More ids than the image holds give 1.
    QueueManyIds1,
    /// An id no image holds gives 4 before an accepted `new`.
    QueueIdBeforeImage,
    /// The programs' image is a word short.
    QueueImageShort,
    /// `min` prints the key before the id.
    QueueKeyFirst,
    /// `empty` prints no reach.
    QueueEmptyBare,
    /// 65,536 bytes are refused.
    DistancesMostRefused,
    /// A longer sheet is judged like any other.
    DistancesAnyLength,
    /// More vertices than the slices hold give 2.
    DistancesManyIds2,
    /// Unreached prints as its number.
    DistancesUnreachedNumber,
    /// Unreached vertices print no line.
    DistancesUnreachedLeftOut,
    /// The last line lacks its newline.
    DistancesNoLastNewline,
    /// One clause of soundness is not tested.
    Skip(Clause),
}

use Mistake::*;

const NAMED: [(Mistake, &str); 100] = [
    (SinksCounted, "sinks-counted"),
    (TidyEarly, "tidy-early"),
    (TidyAfterPush, "tidy-after-push"),
    (TidyOnRefusal, "tidy-on-refusal"),
    (TidyLastBound, "tidy-last-bound"),
    (TidyCostOrder, "tidy-cost-order"),
    (TidyCostsOnly, "tidy-costs-only"),
    (TidyDecreaseSets, "tidy-decrease-sets"),
    (Refusals4And5Swapped, "refusals-4-5-swapped"),
    (KeyLimitTaken, "key-limit-taken"),
    (IdLimitTaken, "id-limit-taken"),
    (Fresh2Before1, "fresh-2-before-1"),
    (FreshClearsBehind, "fresh-clears-behind"),
    (FreshKeepsOldWords, "fresh-keeps-old-words"),
    (WordZeroGives2, "word-0-gives-2"),
    (ShortGives3, "short-gives-3"),
    (IdleDecreaseDropped, "idle-decrease-dropped"),
    (PushedInFront, "pushed-in-front"),
    (MinNoDeleteDown, "min-no-delete-down"),
    (MinSinksFirst, "min-sinks-first"),
    (MinCostsOnly, "min-costs-only"),
    (MinSinksInWord2, "min-sinks-in-word-2"),
    (MinReach, "min-reach"),
    (MinBoundStays, "min-bound-stays"),
    (MinSinkEnters, "min-sink-enters"),
    (MinLastBound, "min-last-bound"),
    (MinSinksFalling, "min-sinks-falling"),
    (MinEmptyKeepsBounds, "min-empty-keeps-bounds"),
    (SoundElementAtBefore, "sound-element-at-before"),
    (SoundUpdateAtBefore, "sound-update-at-before"),
    (SoundSumWraps, "sound-sum-wraps"),
    (SoundSinksAnywhere, "sound-sinks-anywhere"),
    (SoundElementsAnywhere, "sound-elements-anywhere"),
    (SheetShapeBefore12, "sheet-shape-before-12"),
    (SheetHalfEdgeMore, "sheet-half-edge-more"),
    (SheetHalfEdgeLess, "sheet-half-edge-less"),
    (SheetSecondOffsetFree, "sheet-second-offset-free"),
    (SheetMayBeLonger, "sheet-may-be-longer"),
    (SheetSourceNTaken, "sheet-source-n-taken"),
    (SheetNoChoiceRefused, "sheet-no-choice-refused"),
    (SheetNoChoiceIsLast, "sheet-no-choice-is-last"),
    (Sheet13After14, "sheet-13-after-14"),
    (SheetStartsAnywhere, "sheet-starts-anywhere"),
    (SheetEndsAnywhere, "sheet-ends-anywhere"),
    (SheetTargetNTaken, "sheet-target-n-taken"),
    (SheetOwnVertexTaken, "sheet-own-vertex-taken"),
    (SheetTargetTwiceTaken, "sheet-target-twice-taken"),
    (SheetVertexByVertex, "sheet-vertex-by-vertex"),
    (SheetWeightMoreTaken, "sheet-weight-more-taken"),
    (Sheet17Before16, "sheet-17-before-16"),
    (SheetOneSidedTaken, "sheet-one-sided-taken"),
    (SheetHalfTested, "sheet-half-tested"),
    (SheetUnequalRefused, "sheet-unequal-refused"),
    (WriterRecordMore, "writer-record-more"),
    (WriterRecordLess, "writer-record-less"),
    (WriterEndsCut, "writer-ends-cut"),
    (WriterEqualEndsTaken, "writer-equal-ends-taken"),
    (WriterWeightMoreTaken, "writer-weight-more-taken"),
    (WriterRecordByRecord, "writer-record-by-record"),
    (WriterTwiceOneWay, "writer-twice-one-way"),
    (Writer24Before23, "writer-24-before-23"),
    (Writer13Before24, "writer-13-before-24"),
    (WriterExactRefused, "writer-exact-refused"),
    (WriterNoChoiceResolved, "writer-no-choice-resolved"),
    (WriterRowsUnsorted, "writer-rows-unsorted"),
    (WriterClearsBehind, "writer-clears-behind"),
    (WriterAnswersRoom, "writer-answers-room"),
    (Run2Before18, "run-2-before-18"),
    (RunRefusedWrites, "run-refused-writes"),
    (RunJudgesImage, "run-judges-image"),
    (RunClearsBehind, "run-clears-behind"),
    (RunUnreachedZero, "run-unreached-zero"),
    (RunFirstVertex, "run-first-vertex"),
    (RunFirstComes, "run-first-comes"),
    (RunStopsWhenAllReached, "run-stops-when-all-reached"),
    (RunSourceNotCounted, "run-source-not-counted"),
    (RunOtherRowsWeight, "run-other-rows-weight"),
    (RunZeroIsOne, "run-zero-is-one"),
    (QueueSkipsEmpty, "queue-skips-empty"),
    (QueueLastNeedsNewline, "queue-last-needs-newline"),
    (QueueDropsReturn, "queue-drops-return"),
    (QueueCutsLines, "queue-cuts-lines"),
    (QueueManySpaces, "queue-many-spaces"),
    (QueueAnyCase, "queue-any-case"),
    (QueueWordsBehind, "queue-words-behind"),
    (QueueSignTaken, "queue-sign-taken"),
    (Queue16Digits, "queue-16-digits"),
    (QueueZerosRefused, "queue-zeros-refused"),
    (QueueNewRefusedClears, "queue-new-refused-clears"),
    (QueueManyIds1, "queue-many-ids-1"),
    (QueueIdBeforeImage, "queue-id-before-image"),
    (QueueImageShort, "queue-image-short"),
    (QueueKeyFirst, "queue-key-first"),
    (QueueEmptyBare, "queue-empty-bare"),
    (DistancesMostRefused, "distances-most-refused"),
    (DistancesAnyLength, "distances-any-length"),
    (DistancesManyIds2, "distances-many-ids-2"),
    (DistancesUnreachedNumber, "distances-unreached-number"),
    (DistancesUnreachedLeftOut, "distances-unreached-left-out"),
    (DistancesNoLastNewline, "distances-no-last-newline"),
];

impl Mistake {
    pub fn all() -> Vec<Mistake> {
        let named = NAMED.iter().map(|&(mistake, _)| mistake);
        named
            .chain(Clause::ALL.iter().map(|&clause| Skip(clause)))
            .collect()
    }

    pub fn name(self) -> String {
        match self {
            Skip(clause) => format!("skip-{}", clause.name()),
            _ => NAMED
                .iter()
                .find(|&&(mistake, _)| mistake == self)
                .unwrap()
                .1
                .to_string(),
        }
    }

    pub fn named(name: &str) -> Option<Mistake> {
        Mistake::all()
            .into_iter()
            .find(|mistake| mistake.name() == name)
    }

    /// What the mistake is made in, and what must notice it.
    pub fn topic(self) -> Topic {
        let name = self.name();
        match name.split('-').next() {
            Some("sheet") => Topic::Sheet,
            Some("writer") => Topic::Writer,
            Some("run") => Topic::Run,
            Some("queue" | "distances") => Topic::Programs,
            _ => Topic::Queue,
        }
    }

    /// Mistakes in the test of soundness itself are made in the slow test, so
    /// that the fast one stays free of switches.
    fn in_soundness(self) -> bool {
        matches!(
            self,
            SoundElementAtBefore
                | SoundUpdateAtBefore
                | SoundSumWraps
                | SoundSinksAnywhere
                | SoundElementsAnywhere
                | Skip(_)
        )
    }

    /// These leave a sound image with the same live map: without the other
    /// side's Delete-Min nothing can notice them.
    pub fn needs_min(self) -> bool {
        matches!(self, MinLastBound | MinSinksFalling | MinEmptyKeepsBounds)
    }
}

thread_local! {
    static SWITCH: Cell<Option<Mistake>> = const { Cell::new(None) };
}

/// Whether a switch was ever used: where none was, as in the bench, a mistake
/// costs no more than a look at this.
static USED: AtomicBool = AtomicBool::new(false);

pub fn set(mistake: Option<Mistake>) {
    SWITCH.set(mistake);
    if mistake.is_some() {
        USED.store(true, Ordering::Relaxed);
    }
}

#[inline(always)]
pub fn on(mistake: Mistake) -> bool {
    USED.load(Ordering::Relaxed) && is_set(mistake)
}

#[cold]
#[inline(never)]
fn is_set(mistake: Mistake) -> bool {
    SWITCH.get() == Some(mistake)
}

pub fn in_soundness() -> bool {
    SWITCH.get().is_some_and(Mistake::in_soundness)
}

/// The clause of soundness that is not tested, if that is the mistake.
pub fn skipped() -> Option<Clause> {
    match SWITCH.get() {
        Some(Skip(clause)) => Some(clause),
        _ => None,
    }
}

/// Runs something with the switch off.
pub fn without<T>(run: impl FnOnce() -> T) -> T {
    let before = SWITCH.take();
    let answer = run();
    SWITCH.set(before);
    answer
}
