//! The text of distances, read and printed.

use tracer::distances::Distances;
use tracer::drawing::Drawing;
use tracer::traced::Traced;

#[test]
fn what_is_printed_is_read_again() {
    let text = "reached 3 of 4\n0 0\n1 2\n2 1099511627775\n3 -\n";
    let distances = Distances::read(text.as_bytes()).unwrap();
    assert_eq!(distances.0, [Some(0), Some(2), Some((1 << 40) - 1), None]);
    assert_eq!(distances.print(), text);
    assert_eq!(distances.farthest(), (1 << 40) - 1);
}

#[test]
fn what_are_no_distances_is_told() {
    let refused = "The program refused the sheet with 11 (docs/MANUAL.md has the numbers; more than 1,024 pixels need `tracer distances`).";
    let first = |heading: &str| {
        format!("The first line of the distances is not `{heading}`, the sum of the others.")
    };
    let line = |line: usize, vertex: usize| {
        format!("Line {line} of the distances is neither `{vertex} D` nor `{vertex} -`.")
    };
    for (text, sentence) in [
        (&b"\xff\xfe"[..], "The distances are no text.".to_string()),
        (b"refused 11\n", refused.to_string()),
        (b"", first("reached 0 of 0")),
        (b"0 0\n", first("reached 0 of 0")),
        (b"reached 2 of 2\n0 0\n1 -\n", first("reached 1 of 2")),
        (b"reached 1 of 2\n0 0\n", first("reached 1 of 1")),
        (b"reached 2 of 2\n0 0\n2 5\n", line(3, 1)),
        (b"reached 2 of 2\n0 0\n1 5 \n", line(3, 1)),
        (b"reached 2 of 2\n0 0\n1  5\n", line(3, 1)),
        (b"reached 2 of 2\n0 0\n1 +5\n", line(3, 1)),
        (b"reached 2 of 2\n0 0\n1 05\n", line(3, 1)),
        (b"reached 2 of 2\n0 0\n1 1099511627776\n", line(3, 1)),
        (b"reached 1 of 1\n\n0 0\n", line(2, 0)),
    ] {
        assert_eq!(Distances::read(text).unwrap_err(), sentence);
    }
}

#[test]
fn distances_of_another_drawing_are_told() {
    let one_mark = "Not exactly one of the distances is 0, as the mark's is.";
    for (distances, sentence) in [
        (
            vec![Some(0)],
            "There are distances of 1 pixels, and the drawing has 2.",
        ),
        (vec![None, Some(1)], one_mark),
        (vec![Some(0), Some(0)], one_mark),
    ] {
        let drawing = Drawing::read(b"P2 2 1 1 1 1").unwrap();
        assert_eq!(
            Traced::new(drawing, Distances(distances)).unwrap_err(),
            sentence
        );
    }
}
