//! Pictures: PNG files read again, colours by what a pixel shows, the same in characters.

mod decoded;

use decoded::decode;
use tracer::distances::Distances;
use tracer::drawing::Drawing;
use tracer::traced::Traced;
use tracer::{picture, png, text};

#[test]
fn a_png_has_the_dots_it_was_given() {
    // A row has a byte more than its dots: 28 x 771 fills a single stored block to its last byte.
    for (width, height) in [(1, 1), (7, 5), (28, 771), (28, 772), (300, 100)] {
        let dots: Vec<u8> = (0..3 * width * height)
            .map(|at| (at * at % 251) as u8)
            .collect();
        let picture = decode(&png::encode(width, height, &dots));
        assert_eq!((picture.width, picture.height), (width, height));
        for at in 0..width * height {
            assert_eq!(
                picture.dot(at % width, at / width),
                dots[3 * at..3 * at + 3]
            );
        }
    }
}

/// White, the mark and black; a grey, black, and a white that no walk reaches.
fn traced() -> Traced {
    let drawing = Drawing::read(b"P2 3 2 9 9 9 0 3 0 9").unwrap();
    Traced::new(
        drawing,
        Distances(vec![Some(1), Some(0), None, Some(37), None, None]),
    )
    .unwrap()
}

#[test]
fn a_picture_shows_the_drawing_and_the_distances() {
    let picture = decode(&picture::png(&traced()));
    // Seven columns of 157 dots are the most in 1,100.
    assert_eq!((picture.width, picture.height), (7 * 157, 2 * 157));
    let square = |column: usize, row: usize| picture.dot(157 * column + 156, 157 * row);
    let (mark, black, white) = ([225, 0, 45], [0; 3], [255; 3]);
    let between = white;
    let drawing = [[white, mark, black], [[85; 3], black, white]];
    for (row, colours) in drawing.iter().enumerate() {
        for (column, colour) in colours.iter().enumerate() {
            assert_eq!(square(column, row), *colour);
        }
        assert_eq!(square(3, row), between);
    }
    let (farthest, unreached) = ([70, 30, 105], [255, 120, 200]);
    assert_eq!([square(5, 0), square(6, 0)], [mark, black]);
    assert_eq!(
        [square(4, 1), square(5, 1), square(6, 1)],
        [farthest, black, unreached]
    );
    // The first part of the ramp, 4/37 on the way from its first colour to its second.
    assert_eq!(square(4, 0), [243, 246, 192]);
}

#[test]
fn a_text_shows_the_drawing_and_the_distances() {
    let lines = [
        "the drawing   the distances",
        " X#           0X#",
        "o#            9#-",
        "X the mark   0 to 9 the distance divided by 4   - no walk   # black",
        "",
    ];
    assert_eq!(text::side_by_side(&traced()), lines.join("\n"));
}
