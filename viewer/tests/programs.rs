//! The viewer beside the built programs `queue` and `distances`: the same answers to the same
//! lines, and what the manual says of their sizes.

mod built;
mod random;

use built::printed;
use level_queue::{accept, sheet_length, write, Edge};
use random::Random;
use viewer::input::Command;
use viewer::session::{Answer, Session};

/// A line, good or of another form.
fn line(random: &mut Random) -> String {
    let number = |random: &mut Random| match random.below(12) {
        0 => "1099511627776".to_string(),
        1 => format!("{:016}", random.below(9)),
        2 => format!("{:015}", random.below(9)),
        _ => random.below(7).to_string(),
    };
    let (one, other) = (number(random), number(random));
    let odd = [
        "", " min", "min ", "Min", "dec 1", "del", "new x", "dec 1  2", "min\r", "del\t1", "\u{e9}",
    ];
    match random.below(20) {
        0 => format!("new {one}"),
        1..=9 => format!("dec {one} {other}"),
        10..=11 => format!("del {one}"),
        12 => odd[random.below(odd.len() as u64) as usize].to_string(),
        _ => "min".to_string(),
    }
}

#[test]
fn the_viewer_answers_as_the_program() {
    for seed in 0..60 {
        let mut random = Random::seeded(seed);
        let mut script: Vec<String> = (0..200).map(|_| line(&mut random)).collect();
        script.insert(3, "new 6".to_string());
        let mut session = Session::cleared();
        let mut answers = String::new();
        for line in &script {
            let answer = session.take(Command::of(line.as_bytes()));
            if answer != Answer::Taken {
                answers += &format!("{answer}\n");
            }
        }
        assert_eq!(
            answers,
            printed("queue", script.join("\n").as_bytes()),
            "seed {seed}"
        );
    }
}

/// A sheet of a square of pixels, each joined to its neighbours on all eight sides.
fn eight_neighbours(side: u64) -> Vec<u8> {
    let mut edges = Vec::new();
    for (x, y) in (0..side).flat_map(|y| (0..side).map(move |x| (x, y))) {
        for (right, down) in [(1, 0), (0, 1), (1, 1), (-1, 1)] {
            let (x2, y2) = (x.wrapping_add_signed(right), y + down as u64);
            if x2 < side && y2 < side {
                edges.push(Edge {
                    one: y * side + x,
                    other: y2 * side + x2,
                    weight: 1,
                });
            }
        }
    }
    let mut sheet = vec![0; sheet_length(side * side, edges.len()).unwrap()];
    write(&mut sheet, side * side, 0, &edges).unwrap();
    sheet
}

#[test]
fn sheets_that_the_library_takes_and_the_program_does_not() {
    let sheet = eight_neighbours(32);
    assert_eq!(sheet.len(), 66_616);
    assert!(accept(&sheet).is_ok());
    assert_eq!(printed("distances", &sheet), "refused 11\n");
    let mut sheet = vec![0; sheet_length(1_025, 0).unwrap()];
    write(&mut sheet, 1_025, 0, &[]).unwrap();
    assert!(accept(&sheet).is_ok());
    assert_eq!(printed("distances", &sheet), "refused 18\n");
}
