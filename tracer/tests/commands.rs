//! The commands from a drawing to its distances, against plain Bellman-Ford; and every wrong word or file told in one
//! sentence. The proved program is the one that scripts/programs leaves in target/bin.

mod decoded;

use decoded::decode;
use std::io::Write;
use std::path::{Path, PathBuf};
use std::process::{Command, Output, Stdio};

const TRACER: &str = env!("CARGO_BIN_EXE_tracer");
const PROGRAM: &str = concat!(env!("CARGO_MANIFEST_DIR"), "/../target/bin/distances");
const SLEEVE: &str = concat!(env!("CARGO_MANIFEST_DIR"), "/../examples/sleeve.pgm");

/// The mark's colour in a picture.
const MARK: [u8; 3] = [225, 0, 45];

fn run(program: &str, words: &[&str], input: &[u8]) -> Output {
    let mut child = Command::new(program)
        .args(words)
        .stdin(Stdio::piped())
        .stdout(Stdio::piped())
        .stderr(Stdio::piped())
        .spawn()
        .unwrap_or_else(|error| panic!("{program}: {error}"));
    // A command that ends before it has read everything closes its end.
    let _ = child.stdin.take().unwrap().write_all(input);
    child.wait_with_output().unwrap()
}

/// What a command makes, and that it says nothing else.
fn made(program: &str, words: &[&str], input: &[u8]) -> Vec<u8> {
    let output = run(program, words, input);
    assert_eq!(String::from_utf8_lossy(&output.stderr), "");
    assert!(output.status.success());
    output.stdout
}

/// A drawing of the tests' own.
struct Grey {
    width: usize,
    height: usize,
    white: u8,
    greys: Vec<u8>,
}

impl Grey {
    /// Greys by a simple generator; one pixel in `blacks` is black.
    fn new(width: usize, height: usize, white: u8, blacks: u64) -> Grey {
        let mut state = (width * 1_000 + height) as u64;
        let mut next = |below: u64| {
            state = state
                .wrapping_mul(6_364_136_223_846_793_005)
                .wrapping_add(1_442_695_040_888_963_407);
            (state >> 33) % below
        };
        let mut grey = || match next(blacks) {
            0 => 0,
            _ => next(u64::from(white) + 1) as u8,
        };
        let greys = (0..width * height).map(|_| grey()).collect();
        Grey {
            width,
            height,
            white,
            greys,
        }
    }

    fn file(&self, name: &str) -> PathBuf {
        let file = Path::new(env!("CARGO_TARGET_TMPDIR")).join(name);
        let head = format!("P5 {} {} {}\n", self.width, self.height, self.white);
        std::fs::write(&file, [head.as_bytes(), &self.greys].concat()).unwrap();
        file
    }

    /// What a step between two pixels costs, if it can be taken.
    fn cost(&self, from: usize, to: usize) -> Option<u64> {
        let darker = self.greys[from].min(self.greys[to]);
        let darkness = u64::from(self.white - darker);
        (darker > 0).then_some(1 + darkness.pow(2))
    }

    /// All steps are tried again and again until none makes a distance shorter.
    fn bellman_ford(&self, mark: usize) -> Vec<Option<u64>> {
        let neighbours = self.neighbours();
        let mut distances = vec![None; self.greys.len()];
        distances[mark] = Some(0);
        let mut changed = true;
        while changed {
            changed = false;
            for &(from, to) in &neighbours {
                let (Some(so_far), Some(cost)) = (distances[from], self.cost(from, to)) else {
                    continue;
                };
                if distances[to].is_none_or(|distance| so_far + cost < distance) {
                    distances[to] = Some(so_far + cost);
                    changed = true;
                }
            }
        }
        distances
    }

    fn neighbours(&self) -> Vec<(usize, usize)> {
        let (width, height) = (self.width as i64, self.height as i64);
        let mut pairs = Vec::new();
        for (x, y) in (0..height).flat_map(|y| (0..width).map(move |x| (x, y))) {
            for (over, down) in [(1, 0), (-1, 0), (0, 1), (0, -1)] {
                let (right, below) = (x + over, y + down);
                if (0..width).contains(&right) && (0..height).contains(&below) {
                    pairs.push(((y * width + x) as usize, (below * width + right) as usize));
                }
            }
        }
        pairs
    }

    /// What is to be printed of a mark's distances.
    fn expected(&self, x: usize, y: usize) -> String {
        let distances = self.bellman_ford(y * self.width + x);
        let reached = distances
            .iter()
            .filter(|distance| distance.is_some())
            .count();
        let mut text = format!("reached {reached} of {}\n", distances.len());
        for (pixel, distance) in distances.iter().enumerate() {
            let distance = distance.map_or("-".to_string(), |distance| distance.to_string());
            text.push_str(&format!("{pixel} {distance}\n"));
        }
        text
    }
}

fn text(bytes: Vec<u8>) -> String {
    String::from_utf8(bytes).unwrap()
}

fn sheet(file: &Path, x: usize, y: usize) -> Vec<u8> {
    let (x, y) = (x.to_string(), y.to_string());
    made(TRACER, &["sheet", file.to_str().unwrap(), &x, &y], b"")
}

#[test]
fn distances_are_those_of_bellman_ford() {
    for (at, (width, height, white, blacks)) in [
        (1, 1, 255, 2),
        (1, 9, 255, 40),
        (9, 1, 3, 40),
        (2, 2, 1, 9),
        (17, 5, 9, 7),
        (32, 32, 255, 4),
        (32, 32, 255, 100),
        (40, 25, 9, 15),
    ]
    .into_iter()
    .enumerate()
    {
        let grey = Grey::new(width, height, white, blacks);
        let file = grey.file(&format!("small-{at}.pgm"));
        for (x, y) in [(0, 0), (width - 1, height - 1), (width / 2, height / 3)] {
            let sheet = sheet(&file, x, y);
            let expected = grey.expected(x, y);
            assert_eq!(text(made(PROGRAM, &[], &sheet)), expected);
            assert_eq!(text(made(TRACER, &["distances"], &sheet)), expected);
        }
    }
}

#[test]
fn the_largest_drawing_is_traced() {
    let grey = Grey::new(256, 256, 255, 5);
    let file = grey.file("largest.pgm");
    let distances = made(TRACER, &["distances"], &sheet(&file, 200, 100));
    assert!(text(distances.clone()) == grey.expected(200, 100));
    let picture = made(TRACER, &["picture", file.to_str().unwrap()], &distances);
    let picture = decode(&picture);
    assert_eq!((picture.width, picture.height), (2 * 513, 2 * 256));
    // The mark has arms of four pixels, in the drawing and in the distances.
    for left in [0, 257] {
        let colour = |x: usize, y: usize| picture.dot(2 * (left + x), 2 * y);
        assert!([colour(200, 100), colour(204, 100), colour(200, 96)] == [MARK; 3]);
        assert!([colour(205, 100), colour(200, 95), colour(201, 99)]
            .iter()
            .all(|&other| other != MARK));
    }
}

#[test]
fn the_shipped_drawing_is_traced() {
    let distances = made(PROGRAM, &[], &sheet(Path::new(SLEEVE), 20, 14));
    assert!(text(distances.clone()).starts_with("reached 810 of 840\n0 131\n"));
    let shown = text(made(TRACER, &["text", SLEEVE], &distances));
    assert!(shown
        .contains("o:::o    &++........X..........&      56666555531100000000X00000000002333\n"));
    assert!(made(TRACER, &["picture", SLEEVE], &distances).starts_with(b"\x89PNG"));
}

/// One sentence on the standard error, nothing else, and exit status 1.
fn told(words: &[&str], input: &[u8]) -> String {
    let output = run(TRACER, words, input);
    assert_eq!(output.status.code(), Some(1));
    assert_eq!(output.stdout, b"");
    let sentence = text(output.stderr);
    assert_eq!(sentence.matches('\n').count(), 1, "{sentence}");
    sentence
}

#[test]
fn wrong_words_are_told() {
    for words in [
        &[][..],
        &["sheet"],
        &["sheet", SLEEVE, "1"],
        &["distances", SLEEVE],
        &["picture"],
        &["outline", SLEEVE],
    ] {
        assert!(told(words, b"").starts_with("usage: tracer sheet DRAWING X Y"));
    }
    for x in ["", "-1", "x", "99999999999999999999999"] {
        assert_eq!(
            told(&["sheet", SLEEVE, x, "0"], b""),
            format!("The mark's X is no number: {x}.\n")
        );
    }
    assert_eq!(
        told(&["sheet", SLEEVE, "20", "24"], b""),
        "The mark (20, 24) is outside the drawing of 35 x 24 pixels.\n"
    );
}

#[test]
fn wrong_files_are_told() {
    assert_eq!(
        told(&["sheet", "/dev/null", "0", "0"], b""),
        "The drawing is no PGM: it begins with neither P2 nor P5.\n"
    );
    assert_eq!(
        told(&["sheet", "/dev/zero", "0", "0"], b""),
        "The drawing /dev/zero cannot be read: it has more than 8000000 bytes.\n"
    );
    assert!(told(&["text", "no such file"], b"")
        .starts_with("The drawing no such file cannot be read: "));
    assert!(told(&["text", "/"], b"").starts_with("The drawing / cannot be read: "));
    for command in ["text", "picture"] {
        assert_eq!(
            told(&[command, SLEEVE], b"reached 1 of 1\n0 0\n"),
            "There are distances of 1 pixels, and the drawing has 840.\n"
        );
        assert!(told(&[command, SLEEVE], b"refused 18\n")
            .starts_with("The program refused the sheet with 18 "));
    }
}

#[test]
fn wrong_sheets_are_told() {
    assert!(told(&["distances"], b"").starts_with("The sheet is refused 11: "));
    let mut sheet = sheet(Path::new(SLEEVE), 0, 0);
    // The first row's start.
    sheet[20] = 1;
    assert!(told(&["distances"], &sheet).starts_with("The sheet is refused 14: "));
}
