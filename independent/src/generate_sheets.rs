//! Random sheets and writer calls from a seed: good ones, damaged ones, and
//! what must be answered to them.

use crate::generate::Random;
use crate::numbers::MOST_IDS;
use crate::sheet::{sheet_length, MOST_HALF_EDGES, MOST_WEIGHT, NO_CHOICE};
use crate::writer::{Record, MOST_RECORDS};

const NO_SOURCE: u32 = NO_CHOICE as u32;
const WEIGHT: u32 = MOST_WEIGHT as u32;

// ---------------------------------------------------------------------------
// Graphs

/// An edge and its weight in the row of each end.
#[derive(Clone, Copy, Debug)]
pub struct Edge {
    pub ends: [u32; 2],
    pub weights: [u32; 2],
}

/// Each pair of ends comes once, in any order.
#[derive(Clone, Debug)]
pub struct Graph {
    pub n: u32,
    pub edges: Vec<Edge>,
}

type Ends = [u32; 2];

/// n: mostly small, where the corners are, sometimes 1,000, rarely the most.
pub fn vertices(random: &mut Random) -> u32 {
    let n = match random.below(1000) {
        0 => random.pick(&[65_535, 65_536, 65_536, 40_000]),
        1..=8 => random.pick(&[1_000, 1_023, 1_024, 1_025]),
        9..=60 => random.between(41, 300),
        61..=120 => 1,
        121..=500 => random.between(2, 6),
        _ => random.between(2, 40),
    };
    n as u32
}

pub fn graph(random: &mut Random) -> Graph {
    let n = vertices(random);
    let mut ends = match random.below(12) {
        0..=3 if n == MOST_IDS as u32 => sparse(random, n, MOST_RECORDS),
        0 => Vec::new(),
        1 | 2 => some_grid(random, n),
        3 => star(random, n),
        4 => path(n),
        5 if n <= 24 => all_pairs(n),
        6 => two_islands(random, n),
        _ => {
            let count = random.index(4 * n as usize + 1);
            sparse(random, n, count)
        }
    };
    if random.one_in(3) {
        rename(random, n, &mut ends);
    }
    shuffle(random, &mut ends);
    weighted(random, n, ends)
}

/// A grid with this many neighbours inside, 4 or 8.
pub fn grid(width: u32, height: u32, neighbours: u32) -> Vec<Ends> {
    let mut ends = Vec::new();
    for y in 0..height {
        for x in 0..width {
            let here = y * width + x;
            let right = x + 1 < width;
            let below = y + 1 < height;
            if right {
                ends.push([here, here + 1]);
            }
            if below {
                ends.push([here, here + width]);
            }
            if neighbours == 8 && right && below {
                ends.push([here, here + width + 1]);
                ends.push([here + 1, here + width]);
            }
        }
    }
    ends
}

/// A grid in the first of n vertices; those left over are isolated.
fn some_grid(random: &mut Random, n: u32) -> Vec<Ends> {
    let width = random
        .between(1, u64::from(n.isqrt()) + 2)
        .min(u64::from(n)) as u32;
    grid(width, n / width, random.pick(&[4, 8]))
}

fn star(random: &mut Random, n: u32) -> Vec<Ends> {
    let centre = random.below(u64::from(n)) as u32;
    let others = (0..n).filter(|&vertex| vertex != centre);
    others.map(|vertex| [vertex, centre]).collect()
}

fn path(n: u32) -> Vec<Ends> {
    (1..n).map(|vertex| [vertex - 1, vertex]).collect()
}

fn all_pairs(n: u32) -> Vec<Ends> {
    (0..n)
        .flat_map(|one| (one + 1..n).map(move |other| [one, other]))
        .collect()
}

/// Edges between vertices of one parity only.
fn two_islands(random: &mut Random, n: u32) -> Vec<Ends> {
    let count = random.index(4 * n as usize + 1);
    let mut ends = sparse(random, n, count);
    ends.retain(|[one, other]| one % 2 == other % 2);
    ends
}

/// So many edges between random vertices, or all if there are fewer.
pub fn sparse(random: &mut Random, n: u32, count: usize) -> Vec<Ends> {
    let possible = n as usize * (n as usize - 1) / 2;
    if 2 * count >= possible {
        let mut ends = all_pairs(n);
        shuffle(random, &mut ends);
        ends.truncate(count);
        return ends;
    }
    let mut ends: Vec<Ends> = Vec::new();
    while ends.len() < count {
        for _ in ends.len()..count {
            let one = random.below(u64::from(n)) as u32;
            let other = random.below(u64::from(n)) as u32;
            if one != other {
                ends.push([one.min(other), one.max(other)]);
            }
        }
        ends.sort_unstable();
        ends.dedup();
    }
    ends
}

/// Gives the vertices other numbers.
fn rename(random: &mut Random, n: u32, ends: &mut [Ends]) {
    let mut names: Vec<u32> = (0..n).collect();
    shuffle(random, &mut names);
    for two in ends {
        *two = two.map(|vertex| names[vertex as usize]);
    }
}

pub fn shuffle<T>(random: &mut Random, list: &mut [T]) {
    for at in (1..list.len()).rev() {
        list.swap(at, random.index(at + 1));
    }
}

/// Equal weights in both rows, or two of their own.
fn weighted(random: &mut Random, n: u32, ends: Vec<Ends>) -> Graph {
    let style = random.below(7);
    let constant = random.below(MOST_WEIGHT + 1) as u32;
    let unequal = random.one_in(3);
    let mut edges = Vec::with_capacity(ends.len());
    for mut ends in ends {
        let mut weight = || weight(random, style, constant);
        let one = weight();
        let other = if unequal { weight() } else { one };
        if random.one_in(2) {
            ends.reverse();
        }
        let weights = [one, other];
        edges.push(Edge { ends, weights });
    }
    Graph { n, edges }
}

fn weight(random: &mut Random, style: u64, constant: u32) -> u32 {
    let weight = match style {
        0 => 0,
        1 => random.below(2),
        2 => u64::from(constant),
        3 => random.between(1, 255),
        4 => random.pick(&[0, 1, MOST_WEIGHT - 1, MOST_WEIGHT]),
        5 => random.below(10),
        _ => random.between(0, MOST_WEIGHT),
    };
    weight as u32
}

/// A good source.
fn source(random: &mut Random, n: u32) -> u32 {
    let any = random.below(u64::from(n)) as u32;
    random.pick(&[NO_SOURCE, 0, any, any, n - 1])
}

// ---------------------------------------------------------------------------
// Sheets

/// A sheet field by field, so that each can be made wrong alone.
#[derive(Clone, Debug)]
pub struct Draft {
    pub n: u32,
    pub h: u32,
    pub offsets: [u32; 2],
    pub source: u32,
    pub starts: Vec<u32>,
    /// Targets and weights.
    pub rows: Vec<[u32; 2]>,
    /// Bytes behind the rows.
    pub behind: Vec<u8>,
    /// Bytes cut away at the end.
    pub cut: usize,
}

impl Draft {
    /// The good sheet of a graph.
    pub fn of(graph: &Graph, source: u32) -> Draft {
        let mut half_edges = Vec::with_capacity(2 * graph.edges.len());
        for Edge { ends, weights } in &graph.edges {
            half_edges.push((ends[0], ends[1], weights[0]));
            half_edges.push((ends[1], ends[0], weights[1]));
        }
        half_edges.sort_unstable();
        let mut starts = vec![0; graph.n as usize + 1];
        for &(vertex, ..) in &half_edges {
            starts[vertex as usize + 1] += 1;
        }
        for vertex in 0..graph.n as usize {
            starts[vertex + 1] += starts[vertex];
        }
        Draft {
            n: graph.n,
            h: half_edges.len() as u32,
            offsets: [20, 20 + 4 * (graph.n + 1)],
            source,
            starts,
            rows: half_edges
                .iter()
                .map(|&(_, target, weight)| [target, weight])
                .collect(),
            behind: Vec::new(),
            cut: 0,
        }
    }

    pub fn bytes(&self) -> Vec<u8> {
        let header = [
            self.n,
            self.h,
            self.offsets[0],
            self.offsets[1],
            self.source,
        ];
        let numbers = header
            .iter()
            .chain(&self.starts)
            .chain(self.rows.iter().flatten());
        let mut bytes: Vec<u8> = numbers.flat_map(|number| number.to_le_bytes()).collect();
        bytes.extend(&self.behind);
        bytes.truncate(bytes.len().saturating_sub(self.cut));
        bytes
    }

    /// The vertex in whose row this half-edge stands.
    fn vertex_of(&self, place: usize) -> usize {
        self.starts
            .partition_point(|&start| start as usize <= place)
            - 1
    }

    fn row(&self, vertex: usize) -> std::ops::Range<usize> {
        self.starts[vertex] as usize..self.starts[vertex + 1] as usize
    }

    fn insert(&mut self, place: usize, vertex: usize, row: [u32; 2]) {
        self.rows.insert(place, row);
        self.h += 1;
        self.starts[vertex + 1..]
            .iter_mut()
            .for_each(|start| *start += 1);
    }

    fn remove(&mut self, place: usize) {
        let vertex = self.vertex_of(place);
        self.rows.remove(place);
        self.h -= 1;
        self.starts[vertex + 1..]
            .iter_mut()
            .for_each(|start| *start -= 1);
    }
}

/// What can be wrong with a sheet, in the order of test.
#[derive(Clone, Copy, PartialEq, Eq, PartialOrd, Ord, Debug)]
pub enum Fault {
    Short,
    Range,
    Shape,
    Source,
    Starts,
    Targets,
    Weights,
    OneSided,
}

impl Fault {
    pub const ALL: [Fault; 8] = [
        Fault::Short,
        Fault::Range,
        Fault::Shape,
        Fault::Source,
        Fault::Starts,
        Fault::Targets,
        Fault::Weights,
        Fault::OneSided,
    ];

    pub fn number(self) -> u64 {
        match self {
            Fault::Short | Fault::Shape => 11,
            Fault::Range => 12,
            Fault::Source => 13,
            Fault::Starts => 14,
            Fault::Targets => 15,
            Fault::Weights => 16,
            Fault::OneSided => 17,
        }
    }
}

/// Some of the faults put into a good draft; the first of them by order of
/// test, if any could be put there. Those tested late go in first, so that
/// what they need is still there.
pub fn spoil_all(random: &mut Random, draft: &mut Draft, faults: &[Fault]) -> Option<Fault> {
    let mut faults = faults.to_vec();
    faults.sort_unstable();
    faults.dedup();
    let mut first = None;
    for fault in faults.into_iter().rev() {
        if spoil(random, draft, fault) {
            first = Some(fault);
        }
    }
    first
}

/// Puts one fault in. No other that is tested before comes with it.
fn spoil(random: &mut Random, draft: &mut Draft, fault: Fault) -> bool {
    match fault {
        Fault::Short => {
            let length = draft.bytes().len();
            draft.cut += length - random.pick(&[0, 1, 4, 16, 18, 19]);
        }
        Fault::Range => match random.below(2) {
            0 => draft.n = random.pick(&[0, 0, 65_537, 65_537, 1 << 20, 1 << 31, u32::MAX]),
            _ => draft.h = random.pick(&[524_289, 524_289, 524_290, 1 << 29, u32::MAX]),
        },
        Fault::Shape => spoil_shape(random, draft),
        Fault::Source => {
            let any = random.between(u64::from(draft.n), NO_CHOICE - 1) as u32;
            draft.source = random.pick(&[draft.n, draft.n, draft.n + 1, NO_SOURCE - 1, any]);
        }
        Fault::Starts => spoil_starts(random, draft),
        Fault::Targets if draft.rows.is_empty() => return false,
        Fault::Targets => spoil_targets(random, draft),
        Fault::Weights if draft.rows.is_empty() => return false,
        Fault::Weights => {
            let any = random.between(MOST_WEIGHT + 1, u64::from(u32::MAX)) as u32;
            let at = some_place(random, draft.rows.len());
            draft.rows[at][1] = random.pick(&[WEIGHT + 1, WEIGHT + 1, 1 << 24, u32::MAX, any]);
        }
        Fault::OneSided => return spoil_sides(random, draft),
    }
    true
}

/// A place in a list: its ends more often than others.
fn some_place(random: &mut Random, length: usize) -> usize {
    let any = random.index(length);
    random.pick(&[0, any, any, length - 1])
}

/// An offset, or the length, or n or h with nothing else changed.
fn spoil_shape(random: &mut Random, draft: &mut Draft) {
    let one = random.pick(&[1u32, 1, 4, 8, 1 << 30]);
    match random.below(7) {
        0 => draft.offsets[0] = random.pick(&[0, 5, 16, 19, 21, 24, u32::MAX]),
        1 => draft.offsets[1] = draft.offsets[1].wrapping_add(one),
        2 => draft.offsets[1] = draft.offsets[1].wrapping_sub(one),
        // A sheet has at least 28 bytes.
        3 => draft.cut += random.pick(&[1, 2, 4, 8]),
        4 => draft.behind = vec![0; random.pick(&[1, 3, 4, 8])],
        5 if draft.n < MOST_IDS as u32 => draft.n += 1,
        5 => draft.n -= 1,
        _ if u64::from(draft.h) < MOST_HALF_EDGES => draft.h += 1,
        _ => draft.h -= 1,
    }
}

fn spoil_starts(random: &mut Random, draft: &mut Draft) {
    let last = draft.starts.len() - 1;
    let more = random.pick(&[1, 1, 2, 1 << 20, u32::MAX / 2]);
    match random.below(4) {
        0 => draft.starts[0] = more,
        1 => draft.starts[last] = draft.h + more,
        2 if draft.h > 0 => draft.starts[last] = random.below(u64::from(draft.h)) as u32,
        _ => {
            // Above the next one: the starts fall there.
            let at = random.index(last);
            draft.starts[at] = draft.starts[at + 1] + more;
        }
    }
}

fn spoil_targets(random: &mut Random, draft: &mut Draft) {
    let at = some_place(random, draft.rows.len());
    let vertex = draft.vertex_of(at);
    let row = draft.row(vertex);
    let later = row.start < at;
    let n = draft.n;
    match random.below(5) {
        0 => draft.rows[at][0] = vertex as u32,
        1 if later => draft.rows[at][0] = draft.rows[at - 1][0],
        2 if later => draft.rows.swap(at - 1, at),
        3 => draft.rows[row.end - 1][0] = n,
        _ => draft.rows[at][0] = random.pick(&[n, n, n + 1, 65_536.max(n), 1 << 31, u32::MAX]),
    }
}

/// Takes one side of an edge away, gives an edge one side only, or lets a
/// half-edge lead elsewhere. Targets still ascend.
fn spoil_sides(random: &mut Random, draft: &mut Draft) -> bool {
    let n = u64::from(draft.n);
    if !draft.rows.is_empty() && random.one_in(2) {
        let at = some_place(random, draft.rows.len());
        let vertex = draft.vertex_of(at);
        let row = draft.row(vertex);
        let least = if at > row.start {
            draft.rows[at - 1][0] + 1
        } else {
            0
        };
        let most = if at + 1 < row.end {
            draft.rows[at + 1][0]
        } else {
            draft.n
        };
        let free = |&target: &u32| target != vertex as u32 && target != draft.rows[at][0];
        let free: Vec<u32> = (least..most).filter(free).take(100).collect();
        if free.is_empty() || random.one_in(3) {
            draft.remove(at);
        } else {
            draft.rows[at][0] = random.pick(&free);
        }
        return true;
    }
    let vertex = random.below(n) as usize;
    let target = random.below(n) as u32;
    let row = draft.row(vertex);
    let place = row.start + draft.rows[row.clone()].partition_point(|row| row[0] < target);
    let taken = draft.rows[place..row.end]
        .first()
        .is_some_and(|row| row[0] == target);
    if target == vertex as u32 || taken || u64::from(draft.h) == MOST_HALF_EDGES {
        return false;
    }
    draft.insert(place, vertex, [target, random.below(9) as u32]);
    true
}

/// Bytes, and what must be answered to them.
#[derive(Clone, Debug)]
pub struct Made {
    pub bytes: Vec<u8>,
    /// 0 accepted, else the refusal number; `None` where chance had its way.
    pub expected: Option<u64>,
}

pub fn good_sheet(random: &mut Random) -> Made {
    let graph = graph(random);
    let source = source(random, graph.n);
    Made {
        bytes: Draft::of(&graph, source).bytes(),
        expected: Some(0),
    }
}

pub fn sheet(random: &mut Random) -> Made {
    let faults = match random.below(12) {
        0..=3 => return good_sheet(random),
        4..=5 => 1,
        6..=8 => 2,
        9 => 3,
        _ => {
            return Made {
                bytes: wild_sheet(random),
                expected: None,
            }
        }
    };
    let graph = graph(random);
    let mut draft = Draft::of(&graph, source(random, graph.n));
    let faults: Vec<Fault> = (0..faults).map(|_| random.pick(&Fault::ALL)).collect();
    let first = spoil_all(random, &mut draft, &faults);
    Made {
        bytes: draft.bytes(),
        expected: Some(first.map_or(0, Fault::number)),
    }
}

/// Bytes of no known answer.
fn wild_sheet(random: &mut Random) -> Vec<u8> {
    match random.below(4) {
        0 => {
            let length = random.pick(&[0, 1, 19, 20, 21, 27, 28, 29, 36, 100, 1_000]);
            let any = random.index(200);
            let length = random.pick(&[length, any]);
            (0..length).map(|_| random.word() as u8).collect()
        }
        1 => small_numbers(random),
        2 => {
            let mut bytes = good_sheet(random).bytes;
            bytes.truncate(random.index(bytes.len() + 1));
            bytes
        }
        _ => {
            let mut bytes = good_sheet(random).bytes;
            for _ in 0..random.between(1, 3) {
                let at = some_place(random, bytes.len());
                bytes[at] = random.pick(&[0, 1, 255, bytes[at] ^ 1, bytes[at].wrapping_add(1)]);
            }
            bytes
        }
    }
}

/// Right in shape, with small numbers everywhere.
fn small_numbers(random: &mut Random) -> Vec<u8> {
    let n = random.between(1, 4) as u32;
    let h = random.below(5) as u32;
    let mut starts: Vec<u32> = (0..=n)
        .map(|_| random.below(u64::from(h) + 1) as u32)
        .collect();
    if !random.one_in(8) {
        starts.sort_unstable();
        starts[0] = 0;
        starts[n as usize] = h;
    }
    let mut row = || {
        let limit = u64::from(n) + u64::from(random.one_in(8));
        let target = random.below(limit) as u32;
        let weight = random.pick(&[0, 1, 7, WEIGHT]) + u32::from(random.one_in(20));
        [target, weight]
    };
    let rows = (0..h).map(|_| row()).collect();
    let draft = Draft {
        n,
        h,
        offsets: [20, 20 + 4 * (n + 1)],
        source: random.pick(&[0, n - 1, NO_SOURCE]),
        starts,
        rows,
        behind: Vec::new(),
        cut: 0,
    };
    draft.bytes()
}

// ---------------------------------------------------------------------------
// Writer calls

#[derive(Clone, Debug)]
pub struct WriterCall {
    pub n: u64,
    pub source: u64,
    pub records: Vec<Record>,
    /// The target's bytes.
    pub room: usize,
    /// 0 written, else the refusal number.
    pub expected: u64,
}

/// What can be wrong with a writer call, in the order of test.
#[derive(Clone, Copy, PartialEq, Eq, PartialOrd, Ord, Debug)]
pub enum WriterFault {
    Size,
    Ends,
    Weight,
    Twice,
    Source,
    Room,
}

impl WriterFault {
    pub const ALL: [WriterFault; 6] = [
        WriterFault::Size,
        WriterFault::Ends,
        WriterFault::Weight,
        WriterFault::Twice,
        WriterFault::Source,
        WriterFault::Room,
    ];

    pub fn number(self) -> u64 {
        match self {
            WriterFault::Size => 21,
            WriterFault::Ends => 22,
            WriterFault::Weight => 23,
            WriterFault::Twice => 24,
            WriterFault::Source => 13,
            WriterFault::Room => 25,
        }
    }
}

pub fn good_writer_call(random: &mut Random) -> WriterCall {
    let graph = graph(random);
    let record = |edge: &Edge| Record {
        one: edge.ends[0].into(),
        other: edge.ends[1].into(),
        weight: edge.weights[0].into(),
    };
    let length = sheet_length(graph.n.into(), 2 * graph.edges.len() as u64) as usize;
    WriterCall {
        n: graph.n.into(),
        source: source(random, graph.n).into(),
        records: graph.edges.iter().map(record).collect(),
        room: length + random.pick(&[0, 0, 1, 4, 50]),
        expected: 0,
    }
}

pub fn writer_call(random: &mut Random) -> WriterCall {
    let mut call = good_writer_call(random);
    let faults = random.pick(&[0, 0, 0, 1, 1, 2, 2, 2, 3]);
    let faults: Vec<WriterFault> = (0..faults)
        .map(|_| random.pick(&WriterFault::ALL))
        .collect();
    if let Some(first) = spoil_call(random, &mut call, &faults) {
        call.expected = first.number();
    }
    call
}

/// As `spoil_all` does for sheets.
pub fn spoil_call(
    random: &mut Random,
    call: &mut WriterCall,
    faults: &[WriterFault],
) -> Option<WriterFault> {
    let mut faults = faults.to_vec();
    faults.sort_unstable();
    faults.dedup();
    let mut first = None;
    for fault in faults.into_iter().rev() {
        if spoil_call_once(random, call, fault) {
            first = Some(fault);
        }
    }
    first
}

/// A number that its low 32 bits do not tell.
fn high(random: &mut Random, low: u64) -> u64 {
    low | random.pick(&[1 << 32, 1 << 63, 5 << 40])
}

fn spoil_call_once(random: &mut Random, call: &mut WriterCall, fault: WriterFault) -> bool {
    let (n, count) = (call.n, call.records.len());
    if count == 0 && [WriterFault::Ends, WriterFault::Weight, WriterFault::Twice].contains(&fault) {
        return false;
    }
    match fault {
        WriterFault::Size if random.one_in(300) => {
            // One record too many, whatever the records are.
            let any = Record {
                one: 0,
                other: 1,
                weight: 0,
            };
            call.records.resize(MOST_RECORDS + 1, any);
        }
        WriterFault::Size => {
            let high = high(random, n);
            call.n = random.pick(&[0, 0, 65_537, 65_537, high, u64::MAX]);
        }
        WriterFault::Ends => {
            let at = some_place(random, count);
            let wrong = high(random, call.records[at].one);
            let wrong = random.pick(&[n, n, n + 1, wrong, wrong, u64::MAX]);
            let record = &mut call.records[at];
            match random.below(3) {
                0 => record.one = wrong,
                1 => record.other = wrong,
                _ => record.other = record.one,
            }
        }
        WriterFault::Weight => {
            let at = some_place(random, count);
            let wrong = high(random, call.records[at].weight);
            call.records[at].weight = random.pick(&[65_536, 65_536, wrong, wrong, u64::MAX]);
        }
        WriterFault::Twice if count == MOST_RECORDS => return false,
        WriterFault::Twice => {
            let mut again = call.records[some_place(random, count)];
            if random.one_in(2) {
                (again.one, again.other) = (again.other, again.one);
            }
            if random.one_in(2) {
                again.weight = random.below(9);
            }
            let place = random.pick(&[0, count / 2, count]);
            call.records.insert(place, again);
            call.room += 16;
        }
        WriterFault::Source => {
            let low = random.below(n);
            let high = high(random, low);
            let any = random.between(n, NO_CHOICE - 1);
            call.source = random.pick(&[n, n, NO_CHOICE - 1, NO_CHOICE + 1, high, any, u64::MAX]);
        }
        WriterFault::Room => {
            let length = sheet_length(n, 2 * count as u64) as usize;
            let any = random.index(length);
            call.room = random.pick(&[length - 1, length - 1, length - 4, any, 19, 0]);
        }
    }
    true
}
