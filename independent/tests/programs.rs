//! The two programs, line by line and sheet by sheet.

use independent::generate::Random;
use independent::generate_inputs;
use independent::generate_sheets::{Draft, Edge, Graph};
use independent::plain::Plain;
use independent::programs::{distances, queue};

fn queue_text(input: &str) -> String {
    String::from_utf8(queue(input.as_bytes())).unwrap()
}

#[test]
fn nothing_gives_nothing() {
    assert_eq!(queue(b""), b"");
    assert_eq!(queue_text("new 4"), "");
    assert_eq!(queue_text("new 4\ndec 1 2\ndel 1\n"), "");
}

/// One line after an accepted `new`, and what is printed for it.
fn after_new(line: &[u8]) -> Vec<u8> {
    let with_newline = queue(&[b"new 4\n", line, b"\n"].concat());
    // The last line may lack its newline; an empty one is none then.
    if !line.is_empty() {
        assert_eq!(queue(&[b"new 4\n", line].concat()), with_newline);
    }
    with_newline
}

#[test]
fn lines_of_other_forms() {
    let lines: [&[u8]; 52] = [
        b"",
        b" ",
        b"new",
        b"new ",
        b"new  4",
        b" new 4",
        b"new 4 ",
        b"new\t4",
        b"new 4\r",
        b"New 4",
        b"NEW 4",
        b"new +4",
        b"new -4",
        b"new 4.",
        b"new 0x4",
        b"new 4 4",
        b"new a",
        b"new4",
        b"dec",
        b"dec 1",
        b"dec 1 ",
        b"dec  1 2",
        b"dec 1  2",
        b"dec 1 2 ",
        b"dec 1 2 3",
        b"dec 1 -2",
        b"dec x 2",
        b"dec 1\t2",
        b"dec 1 2\r",
        b"dec,1,2",
        b"Dec 1 2",
        b"del",
        b"del ",
        b"del 1 2",
        b"del 1 ",
        b" del 1",
        b"del 1\0",
        b"delete 1",
        b"min ",
        b" min",
        b"min 1",
        b"Min",
        b"min\r",
        b"min\t",
        b"mi",
        b"mins",
        b"min\0",
        b"\0",
        b"\xff",
        b"dec 1 \xd9\xa1",
        b"\xef\xbb\xbfmin",
        b"refused 7",
    ];
    for line in lines {
        assert_eq!(after_new(line), b"refused 7\n", "{}", line.escape_ascii());
    }
}

#[test]
fn digits() {
    assert_eq!(after_new(b"dec 000000000000001 000000000000005"), b"");
    assert_eq!(after_new(b"dec 0000000000000001 5"), b"refused 7\n");
    assert_eq!(after_new(b"dec 1 0000000000000005"), b"refused 7\n");
    assert_eq!(after_new(b"dec 4 0"), b"refused 4\n");
    assert_eq!(after_new(b"dec 999999999999999 0"), b"refused 4\n");
    assert_eq!(
        after_new(b"dec 999999999999999 999999999999999"),
        b"refused 4\n"
    );
    assert_eq!(after_new(b"dec 3 999999999999999"), b"refused 5\n");
    assert_eq!(after_new(b"dec 3 1099511627775"), b"");
    assert_eq!(after_new(b"dec 3 1099511627776"), b"refused 5\n");
    assert_eq!(after_new(b"del 4294967296"), b"refused 4\n");
    assert_eq!(after_new(b"new 0"), b"refused 1\n");
    assert_eq!(after_new(b"new 00004"), b"");
    assert_eq!(after_new(b"new 1024"), b"");
    assert_eq!(after_new(b"new 1025"), b"refused 2\n");
    assert_eq!(after_new(b"new 65536"), b"refused 2\n");
    assert_eq!(after_new(b"new 65537"), b"refused 1\n");
    assert_eq!(after_new(b"new 999999999999999"), b"refused 1\n");
    assert_eq!(after_new(b"new 1000000000000000"), b"refused 7\n");
}

#[test]
fn before_an_accepted_new() {
    let input = "min\ndec 9999 1099511627776\ndel 0\nmax\nnew 0\nnew 1025\nmin\nnew 2\nmin\n";
    let output = "refused 3\nrefused 3\nrefused 3\nrefused 7\nrefused 1\nrefused 2\nrefused 3\n\
                  empty 2\n";
    assert_eq!(queue_text(input), output);
}

/// A refused `new` writes nothing: the image held before serves on.
#[test]
fn a_refused_new_leaves_the_image() {
    assert_eq!(
        queue_text("new 3\ndec 1 5\nnew 1025\nnew 0\nmin\nnew 3\nmin\n"),
        "refused 2\nrefused 1\nmin 1 5 1\nempty 3\n"
    );
}

#[test]
fn long_lines() {
    for filler in [b'0', b' ', b'x', b'\0'] {
        let mut input = b"new 4\ndec 1 ".to_vec();
        input.resize(3_000_000, filler);
        input.extend(b"5\nmin");
        assert_eq!(queue(&input), b"refused 7\nempty 3\n");
    }
}

/// What `min` prints, against the plain map, over generated good scripts.
#[test]
fn scripts_by_the_plain_map() {
    let mut random = Random::new(61);
    for _ in 0..400 {
        let n = random.between(1, 60);
        let mut plain = Plain::fresh(n);
        let mut input = format!("new {n}\n");
        let mut wanted = Vec::new();
        for _ in 0..random.below(300) {
            let (id, key) = (random.below(n), random.below(20));
            match random.below(4) {
                0 => {
                    input += &format!("del {id}\n");
                    plain.delete(id);
                }
                1 => {
                    input += "min\n";
                    let min = plain.delete_min();
                    wanted.push(
                        min.map_or("empty".to_string(), |(id, key)| format!("min {id} {key}")),
                    );
                }
                _ => {
                    input += &format!("dec {id} {key}\n");
                    plain.decrease(id, key);
                }
            }
        }
        let output = queue_text(&input);
        // The last word of each line is the reach.
        let lines = output.lines().map(|line| line.rsplit_once(' ').unwrap().0);
        assert!(lines.eq(wanted.iter().map(String::as_str)));
    }
}

// ---------------------------------------------------------------------------
// `distances`

fn path(n: u32) -> Draft {
    let edge = |vertex| Edge {
        ends: [vertex - 1, vertex],
        weights: [1, 1],
    };
    let edges = (1..n).map(edge).collect();
    Draft::of(&Graph { n, edges }, 0)
}

#[test]
fn distances_of_many_vertices() {
    let lines = |n: usize| (0..n).map(|v| format!("{v} {v}\n")).collect::<String>();
    let output = format!("reached 1024 of 1024\n{}", lines(1_024)).into_bytes();
    assert_eq!(distances(&path(1_024).bytes()), output);
    assert_eq!(distances(&path(1_025).bytes()), b"refused 18\n");
    // 18 comes after 11 to 17.
    let mut draft = path(1_025);
    draft.rows[0][1] = 65_536;
    assert_eq!(distances(&draft.bytes()), b"refused 16\n");
}

#[test]
fn distances_of_long_input() {
    assert_eq!(distances(b""), b"refused 11\n");
    // n = 16,378 without edges has 65,536 bytes; one vertex more is too much.
    let edgeless = |n| Draft::of(&Graph { n, edges: vec![] }, 0).bytes();
    assert_eq!(edgeless(16_378).len(), 65_536);
    assert_eq!(distances(&edgeless(16_378)), b"refused 18\n");
    assert_eq!(distances(&edgeless(16_379)), b"refused 11\n");
    // Longer input is 11 whatever else is wrong with it.
    assert_eq!(distances(&vec![0; 65_536]), b"refused 12\n");
    assert_eq!(distances(&vec![0; 65_537]), b"refused 11\n");
}

/// Generated input: the exact fit is really met.
#[test]
fn the_largest_input_is_met() {
    let mut random = Random::new(62);
    let (mut exact, mut long, mut reached) = (0, 0, 0);
    for _ in 0..600 {
        let input = generate_inputs::distances_input(&mut random);
        let output = distances(&input);
        let good = output.starts_with(b"reached");
        exact += u32::from(good && input.len() == 65_536);
        long += u32::from(input.len() == 65_537);
        reached += u32::from(good);
        assert!(input.len() <= 65_536 || output == b"refused 11\n");
    }
    assert!(
        exact > 10 && long > 10 && reached > 50,
        "{exact} {long} {reached}"
    );
}
