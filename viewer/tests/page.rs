//! What is shown of the page's listing. The page says the answers, example (g) the image after line
//! 5 and example (h) the one after line 8; the others follow by hand from its rules, as each
//! comment says.

use viewer::image::{Image, Places};
use viewer::input::Command;
use viewer::layout::layout;
use viewer::session::{Answer, Session};
use viewer::text::{command, state, SOME};

const SCRIPT: &str = include_str!("../examples/listing.txt");

/// What is shown after each line of the listing.
fn listing() -> Vec<String> {
    let mut session = Session::cleared();
    let mut shown = Vec::new();
    for (at, line) in SCRIPT.lines().enumerate() {
        let answer = session.take(Command::of(line.as_bytes()));
        shown.push(command(at + 1, line, answer) + &state(&session.state(), SOME));
    }
    shown
}

#[test]
fn the_listing_prints_what_the_page_says() {
    let mut session = Session::cleared();
    let answers = SCRIPT
        .lines()
        .map(|line| session.take(Command::of(line.as_bytes())));
    let printed: Vec<String> = answers
        .filter(|&answer| answer != Answer::Taken)
        .map(|answer| answer.to_string())
        .collect();
    assert_eq!(printed, ["min 0 5 1", "min 3 5 2", "min 1 9 2", "empty 3"]);
}

/// "Its image is 6,182 words for 1,024 ids"
#[test]
fn the_slice_is_the_programs() {
    assert_eq!(Session::cleared().words(), [0; 6_182]);
    assert_eq!(Places::of(1_024).end, 6_182);
}

/// No elements, no updates, all bounds open; n = 4 has three levels, since 2^2 is at least 4.
#[test]
fn line_1_is_a_fresh_image() {
    assert_eq!(
        listing()[0],
        "\
line 1    new 4
answer    taken
          bound  holds  waits, oldest first
level 0   open   -      -
level 1   open   -      -
level 2   open   -      -
word 2    0 of at most 4
live      -
next      a Delete-Min would find nothing: empty 3
"
    );
}

/// Three Decreases wait at level 0 in the order of their arrival; of the two of cost 5 the lower id
/// comes first.
#[test]
fn line_4_only_waits() {
    assert_eq!(
        listing()[3],
        "\
line 4    dec 3 5
answer    taken
          bound  holds  waits, oldest first
level 0   open   -      Decrease (7,2), Decrease (5,0), Decrease (5,3)
level 1   open   -      -
level 2   open   -      -
word 2    3 of at most 4
live      (5,0), (5,3), (7,2)
next      a Delete-Min would stop at level 0: min 0 5 1
"
    );
}

/// (g) "level 0's bound is 327,680", which is 5 x 65,536 + 0, "and level 1 waits with Delete 2,
/// Delete 0, Delete 3, Sink (7,2), Sink (5,3)". Three Deletes count in word 2, Sinks do not.
#[test]
fn line_5_is_example_g() {
    assert_eq!(
        listing()[4],
        "\
line 5    min
answer    min 0 5 1
          bound  holds  waits, oldest first
level 0   (5,0)  -      -
level 1   open   -      Delete 2, Delete 0, Delete 3, Sink (7,2), Sink (5,3)
level 2   open   -      -
word 2    3 of at most 4
live      (5,3), (7,2)
next      a Delete-Min would stop at level 1: min 3 5 2
"
    );
}

/// Level 1 passes its Deletes on and enters both Sinks; (5,3) is the answer, (7,2) fills level 0,
/// the last filled level, which gets level 1's bound.
#[test]
fn line_6_surfaces() {
    assert_eq!(
        listing()[5],
        "\
line 6    min
answer    min 3 5 2
          bound  holds  waits, oldest first
level 0   open   (7,2)  -
level 1   open   -      -
level 2   open   -      Delete 2, Delete 0, Delete 3
word 2    3 of at most 4
live      (7,2)
next      a Delete-Min would stop at level 0: min 2 7 1
"
    );
}

/// (h) "`del 2` is the fifth waiting update and tidies, leaving 458,754 at level 0", which is 7 x
/// 65,536 + 2, "and (9,1) at level 1"; then the Delete is pushed, and (7,2) is dead.
#[test]
fn line_8_is_example_h() {
    assert_eq!(
        listing()[7],
        "\
line 8    del 2
answer    taken
          bound  holds       waits, oldest first
level 0   (7,2)  dead (7,2)  Delete 2
level 1   open   (9,1)       -
level 2   open   -           -
word 2    1 of at most 4
live      (9,1)
next      a Delete-Min would stop at level 1: min 1 9 2
"
    );
}

/// Nothing was left to fill a level: all of 0 to 1 get level 1's bound. The Delete was passed on to
/// level 2.
#[test]
fn line_9_leaves_a_delete() {
    assert_eq!(
        listing()[8],
        "\
line 9    min
answer    min 1 9 2
          bound  holds  waits, oldest first
level 0   open   -      -
level 1   open   -      -
level 2   open   -      Delete 2
word 2    1 of at most 4
live      -
next      a Delete-Min would find nothing: empty 3
"
    );
}

/// "the image is fresh again"
#[test]
fn line_10_is_fresh_again() {
    let shown = listing();
    let image = |at: usize| {
        shown[at]
            .lines()
            .skip(2)
            .map(String::from)
            .collect::<Vec<_>>()
    };
    assert_eq!(image(9), image(0));
}

/// A push without tidy changes three words: word 2, level 0's count of updates (6 + 2), and the
/// word behind the stack, which begins at 22 and has two updates.
#[test]
fn line_4_changes_three_words() {
    let mut session = Session::cleared();
    for line in SCRIPT.lines().take(3) {
        session.take(Command::of(line.as_bytes()));
    }
    let before = session.words().to_vec();
    session.take(Command::Dec { id: 3, key: 5 });
    let changed: Vec<usize> = (0..before.len())
        .filter(|&at| session.words()[at] != before[at])
        .collect();
    assert_eq!(changed, [2, 8, 24]);
}

/// (g) word by word. A Delete of id x is the word 2 x 2^56 + x, a Sink 3 x 2^56 + pair; n = 4 needs
/// 38 words, so the last is word 37.
#[test]
fn example_g_word_by_word() {
    let mut session = Session::cleared();
    for line in SCRIPT.lines().take(5) {
        session.take(Command::of(line.as_bytes()));
    }
    let open = 1u64 << 56;
    let lines = [
        "word 0 4 n".to_string(),
        "word 1 3 L, the number of levels".to_string(),
        "word 2 3 Decreases and Deletes that wait".to_string(),
        "word 3 15 the elements begin here".to_string(),
        "word 4 22 the update stack begins here".to_string(),
        "word 5 34 the work area begins here".to_string(),
        "word 6 327680 level 0: bound (5,0)".to_string(),
        "word 7 0 level 0: elements".to_string(),
        "word 8 0 level 0: updates".to_string(),
        format!("word 9 {open} level 1: bound open"),
        "word 10 0 level 1: elements".to_string(),
        "word 11 5 level 1: updates".to_string(),
        format!("word 12 {open} level 2: bound open"),
        "word 13 0 level 2: elements".to_string(),
        "word 14 0 level 2: updates".to_string(),
        "word 15 0 room of level 0".to_string(),
        "words 16 to 17 0 room of level 1".to_string(),
        "words 18 to 21 0 room of level 2".to_string(),
        format!("word 22 {} level 1 waits: Delete 2", 2 * open + 2),
        format!("word 23 {} level 1 waits: Delete 0", 2 * open),
        format!("word 24 {} level 1 waits: Delete 3", 2 * open + 3),
        format!("word 25 {} level 1 waits: Sink (7,2)", 3 * open + 458_754),
        format!("word 26 {} level 1 waits: Sink (5,3)", 3 * open + 327_683),
        "words 27 to 33 0 room of the stack".to_string(),
        "words 34 to 37 0 work area".to_string(),
    ];
    let shown = layout(session.words(), &Image::read(session.words()));
    let words = |line: &str| line.split_whitespace().collect::<Vec<_>>().join(" ");
    assert_eq!(shown.lines().map(words).collect::<Vec<_>>(), lines);
}
