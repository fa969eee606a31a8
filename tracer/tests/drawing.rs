//! PGM files read, and the steps of small drawings by hand.

use level_queue::Edge;
use tracer::drawing::Drawing;
use tracer::steps::steps;

fn darkness(file: &[u8]) -> Vec<u8> {
    let drawing = Drawing::read(file).unwrap();
    (0..drawing.pixels())
        .map(|pixel| drawing.darkness(pixel))
        .collect()
}

#[test]
fn plain_and_raw_files_are_the_same_drawing() {
    let plain = b"P2\n# by hand\n3 2 # columns, rows\n\t9\n9 8 7\r\n0 00 5\n";
    let raw = b"P5 3\n2\n# the pixels are bytes\n9\n\x09\x08\x07\x00\x00\x05";
    assert_eq!(darkness(plain), [0, 1, 2, 9, 9, 4]);
    assert_eq!(darkness(raw), darkness(plain));
}

#[test]
fn raw_pixels_may_look_like_blanks_and_comments() {
    assert_eq!(darkness(b"P5 3 1 255\n\n# "), [245, 220, 223]);
}

#[test]
fn shape_and_numbers_of_pixels() {
    let drawing = Drawing::read(b"P2 3 2 1 1 1 1 1 1 0").unwrap();
    assert_eq!((drawing.width, drawing.height), (3, 2));
    assert_eq!(drawing.pixel(2, 0), Ok(2));
    assert_eq!(drawing.pixel(0, 1), Ok(3));
    assert_eq!(drawing.row(1), 3..6);
    assert!(drawing.is_black(5) && !drawing.is_black(4));
}

#[test]
fn the_largest_drawing_is_taken() {
    let file = [&b"P5 256 256 255\n"[..], &[7; 65_536]].concat();
    assert_eq!(Drawing::read(&file).unwrap().pixels(), 65_536);
}

#[test]
fn what_is_no_drawing_is_told() {
    for (file, sentence) in [
        (
            &b""[..],
            "The drawing is no PGM: it begins with neither P2 nor P5.",
        ),
        (
            b"P6 1 1 9 9",
            "The drawing is no PGM: it begins with neither P2 nor P5.",
        ),
        (b"P21 1 9 9", "No blank follows the drawing's kind."),
        (b"P2", "No blank follows the drawing's kind."),
        (
            b"P2 ",
            "The drawing's width is not a number from 1 to 65536.",
        ),
        (
            b"P2 0 1 9",
            "The drawing's width is not a number from 1 to 65536.",
        ),
        (
            b"P2 -1 1 9 9",
            "The drawing's width is not a number from 1 to 65536.",
        ),
        (
            b"P2 99999999999999999999999 1 9 9",
            "The drawing's width is not a number from 1 to 65536.",
        ),
        (
            b"P2 1x1 9 9",
            "The drawing's height is not a number from 1 to 65536.",
        ),
        (
            b"P2 257 256 9",
            "The drawing has 257 x 256 pixels, and at most 65536 are taken.",
        ),
        (
            b"P2 1 1 0 0",
            "The drawing's greatest grey is not a number from 1 to 255.",
        ),
        (
            b"P5 1 1 256 \0\0",
            "The drawing's greatest grey is not a number from 1 to 255.",
        ),
        (
            b"P2 2 1 9 9",
            "The drawing's pixel 1 is not a number from 0 to 9.",
        ),
        (
            b"P2 2 1 9 9 10",
            "The drawing's pixel 1 is not a number from 0 to 9.",
        ),
        (
            b"P2 1 1 9 9 9",
            "Something follows the drawing's last pixel.",
        ),
        (b"P5 1 1 9", "No blank follows the drawing's greatest grey."),
        (
            b"P5 2 1 9 \x09",
            "The drawing has 1 bytes of pixels instead of 2.",
        ),
        (
            b"P5 1 1 9 \x09\n",
            "The drawing has 2 bytes of pixels instead of 1.",
        ),
        (
            b"P5 2 1 9 \x09\x0a",
            "The drawing's pixel 1 is not a number from 0 to 9.",
        ),
    ] {
        assert_eq!(Drawing::read(file).unwrap_err(), sentence);
    }
}

#[test]
fn a_mark_outside_is_told() {
    let drawing = Drawing::read(b"P2 3 2 1 1 1 1 1 1 0").unwrap();
    for (x, y) in [(3, 0), (0, 2), (usize::MAX, usize::MAX)] {
        assert_eq!(
            drawing.pixel(x, y).unwrap_err(),
            format!("The mark ({x}, {y}) is outside the drawing of 3 x 2 pixels.")
        );
    }
}

/// Edges as records of two ends and a weight.
fn steps_of(file: &[u8]) -> Vec<(u64, u64, u64)> {
    let numbers = |edge: &Edge| (edge.one, edge.other, edge.weight);
    steps(&Drawing::read(file).unwrap())
        .iter()
        .map(numbers)
        .collect()
}

#[test]
fn steps_of_two_by_two() {
    // Darkness 0 1 / 4 and black.
    assert_eq!(steps_of(b"P2 2 2 9 9 8 5 0"), [(0, 1, 2), (0, 2, 17)]);
}

#[test]
fn steps_of_three_by_three() {
    // Darkness 0 0 2 / 6, black, 0 / 0 1 0.
    let steps = [
        (0, 1, 1),
        (0, 3, 37),
        (1, 2, 5),
        (2, 5, 5),
        (3, 6, 37),
        (5, 8, 1),
        (6, 7, 2),
        (7, 8, 2),
    ];
    assert_eq!(steps_of(b"P2 3 3 9 9 9 7 3 0 9 9 8 9"), steps);
}

#[test]
fn steps_of_a_column_and_the_dearest_step() {
    assert_eq!(
        steps_of(b"P2 1 3 255 255 1 255"),
        [(0, 1, 64_517), (1, 2, 64_517)]
    );
    assert_eq!(steps_of(b"P2 1 1 255 1"), []);
}
