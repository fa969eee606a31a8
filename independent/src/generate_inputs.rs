//! Random input for the two programs, from a seed.

use crate::generate::{self, Call, Habits, Random};
use crate::generate_sheets::{self, Draft, Edge, Graph};
use crate::programs::MOST_BYTES;
use crate::sheet::sheet_length;

// ---------------------------------------------------------------------------
// Scripts for `queue`

/// Lines of any form, most of them good; some sessions, one after another.
pub fn script(random: &mut Random) -> Vec<u8> {
    let mut script = Vec::new();
    // Lines before an accepted `new`; ids and keys out of range among them.
    for _ in 0..random.pick(&[0, 0, 2, 6]) {
        let habits = Habits {
            wrong: 3,
            ..generate::habits(random)
        };
        let n = random.pick(&[4, 1_024]);
        let call = generate::call(random, n, &habits);
        let line = call_line(random, call);
        add(random, &mut script, line, 6);
    }
    for _ in 0..random.pick(&[1, 1, 1, 2, 3]) {
        session(random, &mut script);
    }
    if random.one_in(60) {
        script.extend(long_line(random));
    }
    if random.one_in(3) {
        // The last line lacks its newline.
        script.pop();
    }
    script
}

/// n, and about how many calls follow.
fn size(random: &mut Random) -> (u64, u64) {
    match random.below(100) {
        0 => (random.pick(&[1_000, 1_023, 1_024]), 3_000),
        1..=3 => (random.pick(&[1_000, 1_023, 1_024]), 60),
        4..=20 => (random.between(41, 300), 100),
        21..=60 => {
            let n = random.between(1, 6);
            (n, 8 * n + 8)
        }
        _ => {
            let n = random.between(1, 40);
            (n, 4 * n + 8)
        }
    }
}

fn session(random: &mut Random, script: &mut Vec<u8>) {
    let (n, calls) = size(random);
    let wrong = random.pick(&[4, 12, 40, 1_000, 1_000]);
    let new = format!("new {}", digits(random, n));
    add(random, script, new.into_bytes(), 40);
    let habits = generate::habits(random);
    for _ in 0..random.below(calls) + 1 {
        let line = match random.below(60) {
            0 if random.one_in(5) => new_line(random),
            _ => {
                let call = generate::call(random, n, &habits);
                call_line(random, call)
            }
        };
        add(random, script, line, wrong);
    }
}

/// A line with its newline; one in so many is of some other form.
fn add(random: &mut Random, script: &mut Vec<u8>, mut line: Vec<u8>, wrong: u64) {
    if random.one_in(wrong) {
        spoil(random, &mut line);
    }
    script.extend(line);
    script.push(b'\n');
}

/// `new` with any number: also one that is refused.
fn new_line(random: &mut Random) -> Vec<u8> {
    let n = random.pick(&[
        0,
        1,
        5,
        1_024,
        1_025,
        1_025,
        65_535,
        65_536,
        65_536,
        65_537,
        65_537,
        1 << 32,
        1 << 40,
        999_999_999_999_999,
    ]);
    format!("new {}", digits(random, n)).into_bytes()
}

fn call_line(random: &mut Random, call: Call) -> Vec<u8> {
    // 15 digits hold no larger number; the next one up has 16.
    let most = 1_000_000_000_000_000;
    let line = match call {
        Call::Decrease(id, key) => {
            let (id, key) = (id.min(most), key.min(most));
            format!("dec {} {}", digits(random, id), digits(random, key))
        }
        Call::Delete(id) => format!("del {}", digits(random, id.min(most))),
        Call::Fresh(n) => format!("new {}", digits(random, n)),
        Call::DeleteMin | Call::Judge => "min".to_string(),
    };
    line.into_bytes()
}

/// A number in decimal, sometimes with leading zeros, rarely too many of them.
fn digits(random: &mut Random, number: u64) -> String {
    match random.below(60) {
        0 => format!("{number:015}"),
        1 => format!("{number:014}"),
        2 => format!("{number:016}"),
        3..=5 => format!("0{number}"),
        _ => number.to_string(),
    }
}

/// Makes a line one of another form; chance may leave it good.
fn spoil(random: &mut Random, line: &mut Vec<u8>) {
    let space = line.iter().position(|&byte| byte == b' ');
    let any = random.index(line.len());
    match random.below(16) {
        0 => line.clear(),
        1 => line.push(b' '),
        2 => line.insert(0, b' '),
        3 => line.insert(space.unwrap_or(0), b' '),
        4 => line.push(b'\r'),
        5 => line[space.unwrap_or(any)] = b'\t',
        6 => line.make_ascii_uppercase(),
        7 => line[any].make_ascii_uppercase(),
        8 => line.insert(space.map_or(0, |at| at + 1), random.pick(b"+-0_.x")),
        9 => line[any] = random.pick(&[0, 127, 128, 200, 255, b'/', b':', b'\n']),
        10 => line.extend(random.pick(&[&b" 1"[..], b" min", b"\0", b" x", b"s", b" 007"])),
        11 => line.truncate(any),
        12 => {
            line.remove(any);
        }
        13 => *line = random.pick(&OTHER_LINES).to_vec(),
        14 => line.extend(random.pick(&[&b"0000000000000000"[..], b"9", b"12345678"])),
        _ => line.insert(any, random.word() as u8),
    }
}

const OTHER_LINES: [&[u8]; 24] = [
    b"",
    b" ",
    b"new",
    b"new ",
    b"dec",
    b"dec 1",
    b"dec 1 ",
    b"dec 1 2 3",
    b"dec  1 2",
    b"del",
    b"del 1 2",
    b"min 1",
    b"min ",
    b" min",
    b"Min",
    b"mi",
    b"mini",
    b"max",
    b"new 0x4",
    b"dec 1 1e3",
    b"dec -1 5",
    b"dec 1 1234567890123456",
    b"refused 7",
    b"\xef\xbb\xbfmin",
];

/// Lines far longer than any room for them.
fn long_line(random: &mut Random) -> Vec<u8> {
    let any = random.between(1_000, 70_000);
    let mut length = random.pick(&[any, 1_024, 4_096, 8_192, 65_536, 65_537]) as usize;
    if random.one_in(40) {
        length = 2_000_000;
    }
    let filler = random.pick(b"0 9mx\0\xff\r");
    let (front, back) = random.pick(&[
        (&b"dec 1 "[..], &b"5"[..]),
        (b"new ", b"4"),
        (b"min", b""),
        (b"", b"min"),
        (b"", b""),
        (b"del ", b"\nmin"),
    ]);
    let mut line = front.to_vec();
    line.resize(front.len() + length, filler);
    line.extend(back);
    line.push(b'\n');
    line
}

// ---------------------------------------------------------------------------
// Input for `distances`

pub fn distances_input(random: &mut Random) -> Vec<u8> {
    match random.below(24) {
        0 => exact_fit(random),
        1 => {
            let mut bytes = exact_fit(random);
            bytes.push(random.pick(&[0, 10, 255]));
            bytes
        }
        2 => {
            let n = random.pick(&[1_023, 1_024, 1_024, 1_025, 1_026, 16_000]);
            let edges = random.index(60);
            some_sheet(random, n, edges)
        }
        3 => {
            let length = MOST_BYTES - 2 + random.index(5);
            (0..length).map(|_| random.word() as u8).collect()
        }
        4 => too_long(random),
        _ => generate_sheets::sheet(random).bytes,
    }
}

/// A good sheet of exactly 65,536 bytes.
fn exact_fit(random: &mut Random) -> Vec<u8> {
    // 4(n+1) + 8h bytes are left for it, h even: then n is 2 more than a
    // multiple of 4.
    let n = 4 * random.between(100, 255) + 2;
    let h = (MOST_BYTES as u64 - sheet_length(n, 0)) / 8;
    debug_assert_eq!(sheet_length(n, h), MOST_BYTES as u64);
    some_sheet(random, n as u32, h as usize / 2)
}

/// Beyond the room of the program, and refused for other reasons as well.
fn too_long(random: &mut Random) -> Vec<u8> {
    let n = random.pick(&[20_000, 40_000, 65_536]);
    let edges = random.index(60);
    let mut bytes = some_sheet(random, n, edges);
    if random.one_in(2) {
        let at = random.index(40);
        bytes[at] ^= 1 << random.below(8);
    }
    bytes
}

fn some_sheet(random: &mut Random, n: u32, edges: usize) -> Vec<u8> {
    let most = random.pick(&[1, 10, 65_536]);
    let source = random.below(u64::from(n)) as u32;
    let ends = generate_sheets::sparse(random, n, edges);
    let edge = |ends: [u32; 2]| {
        let weight = random.below(most) as u32;
        Edge {
            ends,
            weights: [weight, weight],
        }
    };
    let edges = ends.into_iter().map(edge).collect();
    Draft::of(&Graph { n, edges }, source).bytes()
}
