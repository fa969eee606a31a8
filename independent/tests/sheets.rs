//! Sheets: the refusals one by one and in pairs, every small sheet, and the
//! page's sentences once more, on sets.

use independent::generate::Random;
use independent::generate_sheets::{self, spoil_all, Draft, Edge, Fault, Graph};
use independent::sheet::{accept, NO_CHOICE};
use std::collections::BTreeSet;

const NO_SOURCE: u32 = NO_CHOICE as u32;

// ---------------------------------------------------------------------------
// The page's sentences

/// 0 for an accepted sheet, else the refusal number, sentence by sentence.
fn literal(bytes: &[u8]) -> u64 {
    if bytes.len() < 20 {
        return 11;
    }
    let number = |at: usize| u32::from_le_bytes(bytes[at..at + 4].try_into().unwrap()) as usize;
    let (n, h, source) = (number(0), number(4), number(16));
    if n == 0 || n > 65_536 || h > 524_288 {
        return 12;
    }
    let first_row = 20 + 4 * (n + 1);
    if number(8) != 20 || number(12) != first_row || bytes.len() != first_row + 8 * h {
        return 11;
    }
    if source >= n && source != 4_294_967_295 {
        return 13;
    }
    let starts: Vec<usize> = (0..=n).map(|vertex| number(20 + 4 * vertex)).collect();
    if starts[0] != 0 || starts[n] != h || !starts.is_sorted() {
        return 14;
    }
    let row = |vertex: usize| -> Vec<(usize, usize)> {
        let places = starts[vertex]..starts[vertex + 1];
        let target_and_weight = |at| (number(first_row + 8 * at), number(first_row + 8 * at + 4));
        places.map(target_and_weight).collect()
    };
    for vertex in 0..n {
        let targets: Vec<usize> = row(vertex).iter().map(|&(target, _)| target).collect();
        let mut ascending = targets.clone();
        ascending.sort();
        ascending.dedup();
        if targets != ascending || targets.iter().any(|&t| t >= n || t == vertex) {
            return 15;
        }
    }
    let rows = || (0..n).flat_map(|vertex| row(vertex).into_iter().map(move |row| (vertex, row)));
    if rows().any(|(_, (_, weight))| weight > 65_535) {
        return 16;
    }
    let named: BTreeSet<(usize, usize)> = rows().map(|(from, (to, _))| (from, to)).collect();
    if named.iter().any(|&(from, to)| !named.contains(&(to, from))) {
        return 17;
    }
    0
}

fn number(bytes: &[u8]) -> u64 {
    accept(bytes).err().unwrap_or(0)
}

#[test]
fn generated_sheets_by_the_sentences() {
    let mut random = Random::new(41);
    for _ in 0..20_000 {
        let made = generate_sheets::sheet(&mut random);
        assert_eq!(number(&made.bytes), literal(&made.bytes));
    }
}

/// All sheets of the right shape with one or two vertices, up to two rows and
/// numbers at the edges.
#[test]
fn every_small_sheet() {
    let mut accepted = 0;
    for n in 1..=2u32 {
        for h in 0..=2u32 {
            let starts = lists(&[0, 1, 2, 3], n as usize + 1);
            let rows = lists(&[0, 1, 2, 3], h as usize);
            let weights = lists(&[0, 65_535, 65_536], h as usize);
            for starts in &starts {
                for targets in &rows {
                    for weights in &weights {
                        let row = |(&target, &weight): (&u32, &u32)| [target, weight];
                        let draft = Draft {
                            n,
                            h,
                            offsets: [20, 20 + 4 * (n + 1)],
                            source: n - 1,
                            starts: starts.clone(),
                            rows: targets.iter().zip(weights).map(row).collect(),
                            behind: Vec::new(),
                            cut: 0,
                        };
                        let bytes = draft.bytes();
                        assert_eq!(number(&bytes), literal(&bytes), "{draft:?}");
                        accepted += u32::from(number(&bytes) == 0);
                    }
                }
            }
        }
    }
    // No edge, with one vertex or two; one edge with two weights for each row.
    assert_eq!(accepted, 2 + 2 * 2);
}

/// All lists of this length with these numbers.
fn lists(numbers: &[u32], length: usize) -> Vec<Vec<u32>> {
    let mut all = vec![Vec::new()];
    for _ in 0..length {
        let longer = |list: &Vec<u32>| {
            let list = list.clone();
            numbers
                .iter()
                .map(move |&number| [&list[..], &[number]].concat())
        };
        all = all.iter().flat_map(longer).collect();
    }
    all
}

// ---------------------------------------------------------------------------
// Refusals

/// 0-1 of 2, 1-2 of 3 and 5, 3 alone.
fn example() -> Draft {
    let edge = |ends, weights| Edge { ends, weights };
    let edges = vec![edge([0, 1], [2, 2]), edge([1, 2], [3, 5])];
    Draft::of(&Graph { n: 4, edges }, 1)
}

fn changed(change: impl FnOnce(&mut Draft)) -> u64 {
    let mut draft = example();
    change(&mut draft);
    let bytes = draft.bytes();
    assert_eq!(number(&bytes), literal(&bytes));
    number(&bytes)
}

#[test]
fn refusals_one_by_one() {
    assert_eq!(changed(|_| {}), 0);
    let length = example().bytes().len();
    for bytes in 0..20 {
        assert_eq!(changed(|draft| draft.cut = length - bytes), 11);
    }
    // From 20 bytes on the numbers are looked at first.
    assert_eq!(changed(|draft| (draft.n, draft.cut) = (0, length - 20)), 12);
    assert_eq!(changed(|draft| (draft.n, draft.cut) = (0, length - 19)), 11);
    assert_eq!(changed(|draft| draft.n = 0), 12);
    assert_eq!(changed(|draft| draft.n = 65_537), 12);
    assert_eq!(changed(|draft| draft.n = 65_536), 11);
    assert_eq!(changed(|draft| draft.h = 524_289), 12);
    assert_eq!(changed(|draft| draft.h = 524_288), 11);
    assert_eq!(changed(|draft| draft.h = u32::MAX), 12);
    assert_eq!(changed(|draft| draft.offsets[0] = 24), 11);
    assert_eq!(changed(|draft| draft.offsets[1] = 44), 11);
    assert_eq!(changed(|draft| draft.cut = 1), 11);
    assert_eq!(changed(|draft| draft.behind = vec![0]), 11);
    assert_eq!(changed(|draft| draft.source = 3), 0);
    assert_eq!(changed(|draft| draft.source = 4), 13);
    assert_eq!(changed(|draft| draft.source = NO_SOURCE - 1), 13);
    assert_eq!(changed(|draft| draft.source = NO_SOURCE), 0);
    assert_eq!(changed(|draft| draft.starts[0] = 1), 14);
    assert_eq!(changed(|draft| draft.starts[4] = 3), 14);
    assert_eq!(changed(|draft| draft.starts[4] = 5), 14);
    assert_eq!(changed(|draft| draft.starts[2] = 5), 14);
    assert_eq!(changed(|draft| draft.rows[3][0] = 4), 15);
    assert_eq!(changed(|draft| draft.rows[3][0] = 2), 15);
    assert_eq!(changed(|draft| draft.rows.swap(1, 2)), 15);
    assert_eq!(changed(|draft| draft.rows[2][0] = 0), 15);
    assert_eq!(changed(|draft| draft.rows[0][1] = 65_535), 0);
    assert_eq!(changed(|draft| draft.rows[3][1] = 65_536), 16);
    assert_eq!(changed(|draft| draft.rows[3][0] = 3), 17);
    assert_eq!(changed(|draft| draft.rows[2][0] = 3), 17);
    // Weights may differ in the two rows.
    assert_eq!(changed(|draft| draft.rows[0][1] = 9), 0);
}

/// A late 15 beats an early 16, and so on.
#[test]
fn each_number_is_tested_over_the_whole_sheet() {
    let late_15 = |draft: &mut Draft| {
        draft.rows[0][1] = 65_536;
        draft.rows[3][0] = 4;
    };
    assert_eq!(changed(late_15), 15);
    let late_16 = |draft: &mut Draft| {
        draft.rows[0][0] = 2;
        draft.rows[3][1] = 65_536;
    };
    assert_eq!(changed(late_16), 16);
}

/// An odd number of half-edges has no number of its own.
#[test]
fn odd_half_edges_are_one_sided() {
    let odd = |draft: &mut Draft| {
        draft.h = 3;
        draft.rows.pop();
        draft.starts = vec![0, 1, 3, 3, 3];
    };
    assert_eq!(changed(odd), 17);
}

#[test]
fn every_fault_and_every_two_answer_the_first() {
    let mut random = Random::new(42);
    for one in Fault::ALL {
        for other in Fault::ALL {
            let mut met = 0;
            for _ in 0..60 {
                let graph = generate_sheets::graph(&mut random);
                let mut draft = Draft::of(&graph, 0);
                if draft.bytes().len() > 100_000 {
                    continue;
                }
                let first = spoil_all(&mut random, &mut draft, &[one, other]);
                let wanted = first.map_or(0, Fault::number);
                assert_eq!(number(&draft.bytes()), wanted, "{one:?} and {other:?}");
                met += u32::from(first == Some(one.min(other)));
            }
            assert!(met > 10, "{one:?} and {other:?}: {met}");
        }
    }
}

// ---------------------------------------------------------------------------
// Reading

#[test]
fn the_reading_of_a_sheet() {
    let bytes = example().bytes();
    let sheet = accept(&bytes).unwrap();
    assert_eq!((sheet.n, sheet.h, sheet.source), (4, 4, 1));
    let rows: Vec<Vec<(usize, u64)>> = (0..4).map(|vertex| sheet.row(vertex).collect()).collect();
    assert_eq!(
        rows,
        [vec![(1, 2)], vec![(0, 2), (2, 3)], vec![(1, 5)], vec![]]
    );
    let mut draft = example();
    draft.source = NO_SOURCE;
    let bytes = draft.bytes();
    assert_eq!(accept(&bytes).unwrap().source, 0);
}

#[test]
fn the_largest_sheet() {
    let mut random = Random::new(43);
    let ends = generate_sheets::sparse(&mut random, 65_536, 262_144);
    let weights = [1, 2];
    let edges = ends
        .into_iter()
        .map(|ends| Edge { ends, weights })
        .collect();
    let graph = Graph { n: 65_536, edges };
    let mut draft = Draft::of(&graph, 65_535);
    let bytes = draft.bytes();
    let sheet = accept(&bytes).unwrap();
    assert_eq!((sheet.h, sheet.source), (524_288, 65_535));
    assert_eq!(literal(&bytes), 0);
    draft.source = 65_536;
    assert_eq!(number(&draft.bytes()), 13);
}

#[test]
fn no_pair_of_ends_comes_twice_in_a_graph() {
    let mut random = Random::new(44);
    for _ in 0..3_000 {
        let graph = generate_sheets::graph(&mut random);
        let ends = |edge: &Edge| {
            (
                edge.ends[0].min(edge.ends[1]),
                edge.ends[0].max(edge.ends[1]),
            )
        };
        let different: BTreeSet<_> = graph.edges.iter().map(ends).collect();
        assert_eq!(different.len(), graph.edges.len());
    }
}
