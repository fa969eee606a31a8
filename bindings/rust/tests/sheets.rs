//! Sheets that are written, read and run over, with numbers worked by hand.

use level_queue::{accept, distances, need, sheet_length, write, Edge, Queue, Sheet};
use level_queue::{MOST_EDGES, MOST_IDS, NO_CHOICE, UNREACHED};

fn edges(list: &[(u64, u64, u64)]) -> Vec<Edge> {
    let edge = |&(one, other, weight): &(u64, u64, u64)| Edge { one, other, weight };
    list.iter().map(edge).collect()
}

fn sheet(n: u64, source: u64, list: &[(u64, u64, u64)]) -> Vec<u8> {
    let mut target = vec![0; sheet_length(n, list.len()).unwrap()];
    let length = write(&mut target, n, source, &edges(list)).unwrap();
    assert_eq!(length, target.len() as u64);
    target
}

/// The number reached and the distances; words past n must stay.
fn run(sheet: &[u8]) -> (u64, Vec<u64>) {
    let n = accept(sheet).unwrap().n;
    let mut found = vec![7; n as usize + 2];
    let mut image = vec![7; need(n).unwrap()];
    let reached = distances(sheet, &mut found, &mut image).unwrap();
    assert_eq!(found.split_off(n as usize), [7, 7]);
    let mut fresh = vec![0; image.len()];
    Queue::fresh(&mut fresh, n).unwrap();
    assert_eq!(image, fresh);
    (reached, found)
}

#[test]
fn worked_examples() {
    let written = sheet(4, 0, &[(0, 1, 2), (1, 2, 2), (0, 2, 5)]);
    assert_eq!(written.len(), 88);
    assert_eq!(run(&written), (3, vec![0, 2, 4, UNREACHED]));
    assert_eq!(run(&sheet(1, 0, &[])), (1, vec![0]));
}

/// 0-2-1-3-4 is the shortest way along; 5 stands alone.
const WAY: [(u64, u64, u64); 5] = [(0, 1, 4), (2, 0, 1), (1, 2, 2), (3, 1, 5), (3, 4, 0)];

#[test]
fn from_either_end() {
    let from_0 = run(&sheet(6, 0, &WAY));
    assert_eq!(from_0, (5, vec![0, 3, 1, 8, 8, UNREACHED]));
    let from_4 = run(&sheet(6, 4, &WAY));
    assert_eq!(from_4, (5, vec![8, 5, 7, 0, 0, UNREACHED]));
    let alone = run(&sheet(6, 5, &WAY));
    let mut least = vec![UNREACHED; 6];
    least[5] = 0;
    assert_eq!(alone, (1, least));
}

#[test]
fn the_order_of_edges_does_not_matter() {
    let mut turned = WAY.map(|(one, other, weight)| (other, one, weight));
    turned.reverse();
    assert_eq!(sheet(6, 2, &turned), sheet(6, 2, &WAY));
}

#[test]
fn no_choice_stands_for_vertex_0() {
    let written = sheet(6, NO_CHOICE, &WAY);
    let read = Sheet {
        n: 6,
        h: 10,
        source: 0,
    };
    assert_eq!(accept(&written), Ok(read));
    assert_eq!(run(&written), run(&sheet(6, 0, &WAY)));
}

#[test]
fn bytes_beyond_the_sheet_stay() {
    let mut target = vec![9; 100];
    let written = write(&mut target, 2, 0, &edges(&[(0, 1, 3)])).unwrap();
    assert_eq!(written, 48);
    assert!(target[48..].iter().all(|&byte| byte == 9));
}

/// Every vertex is joined to four that come 1, 2, 3 and 4 places after it, round
/// a ring: 262,144 edges of weight 1, and half-way round is the farthest.
#[test]
fn as_many_edges_as_there_can_be() {
    let ring = (0..MOST_IDS).flat_map(|one| (1..=4).map(move |step| (one, step)));
    let list: Vec<_> = ring
        .map(|(one, step)| (one, (one + step) % MOST_IDS, 1))
        .collect();
    assert_eq!(list.len(), MOST_EDGES);
    let (reached, found) = run(&sheet(MOST_IDS, 0, &list));
    assert_eq!(reached, MOST_IDS);
    assert_eq!(found[32_768], 8_192);
    assert_eq!(found.iter().max(), Some(&8_192));
    assert_eq!([found[4], found[5], found[65_535]], [1, 2, 1]);
}
