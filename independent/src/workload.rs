//! Long lists of inner calls, for the bench: what a run asks of its queue, and
//! other ways to use one.

use crate::generate::Random;
use crate::generate_sheets::{self, shuffle, Draft, Edge, Graph};
use crate::numbers::KEY_LIMIT;
use crate::run::{settle_all, OnHeap, Queue};
use crate::sheet::accept;

#[derive(Clone, Copy, PartialEq, Eq, Debug)]
pub enum Step {
    Decrease(u64, u64),
    Delete(u64),
    Min,
}

/// Calls on a fresh image for n.
#[derive(Clone, Debug)]
pub struct Workload {
    pub name: &'static str,
    pub n: u64,
    pub steps: Vec<Step>,
}

/// Takes all steps; the same number comes of the same answers.
pub fn play(steps: &[Step], queue: &mut impl Queue) -> u64 {
    let mut sum = 0u64;
    for &step in steps {
        match step {
            Step::Decrease(id, key) => queue.decrease(id, key),
            Step::Delete(id) => queue.delete(id),
            Step::Min => {
                let (id, key) = queue.delete_min().unwrap_or((1, u64::MAX));
                sum = (sum ^ id).wrapping_mul(0x9e37_79b9_7f4a_7c15) ^ key;
            }
        }
    }
    sum
}

pub fn all(n: u64) -> Vec<Workload> {
    vec![
        grid_run("grid run, 4 neighbours", n, 4),
        grid_run("grid run, 8 neighbours", n, 8),
        uniform(n),
        fill_and_drain(n),
        drag(n),
    ]
}

/// A queue that writes down what is asked of it.
struct Recorder {
    queue: OnHeap,
    steps: Vec<Step>,
}

impl Queue for Recorder {
    fn decrease(&mut self, id: u64, key: u64) {
        self.steps.push(Step::Decrease(id, key));
        self.queue.decrease(id, key);
    }

    fn delete(&mut self, id: u64) {
        self.steps.push(Step::Delete(id));
        self.queue.delete(id);
    }

    fn delete_min(&mut self) -> Option<(u64, u64)> {
        self.steps.push(Step::Min);
        self.queue.delete_min()
    }
}

/// The calls of a run on a square grid, weights 1 to 255, from its middle.
pub fn grid_run(name: &'static str, n: u64, neighbours: u32) -> Workload {
    let side = n.isqrt() as u32;
    let bytes = grid_sheet(side, neighbours, 1, 255);
    let sheet = accept(&bytes).expect("a good sheet");
    let mut recorder = Recorder {
        queue: OnHeap::new(sheet.n as u64),
        steps: Vec::new(),
    };
    settle_all(&sheet, &mut vec![0; sheet.n], &mut recorder);
    Workload {
        name,
        n: sheet.n as u64,
        steps: recorder.steps,
    }
}

/// Ids and keys as chance has it: of four calls, two Decreases, one Delete,
/// one Delete-Min.
pub fn uniform(n: u64) -> Workload {
    let random = &mut Random::new(n);
    let step = |_| match random.below(4) {
        0 | 1 => Step::Decrease(random.below(n), random.below(KEY_LIMIT)),
        2 => Step::Delete(random.below(n)),
        _ => Step::Min,
    };
    Workload {
        name: "uniform",
        n,
        steps: (0..4 * n).map(step).collect(),
    }
}

/// All ids enter, in any order; then all come out, and at last none.
pub fn fill_and_drain(n: u64) -> Workload {
    let random = &mut Random::new(n);
    let mut ids: Vec<u64> = (0..n).collect();
    shuffle(random, &mut ids);
    let fill = ids
        .into_iter()
        .map(|id| Step::Decrease(id, random.below(KEY_LIMIT)));
    let mut steps: Vec<Step> = fill.collect();
    steps.extend((0..=n).map(|_| Step::Min));
    Workload {
        name: "fill and drain",
        n,
        steps,
    }
}

/// Half of the ids are there. Then the same few are deleted and entered again
/// with a new key, again and again, as when an artist drags them about; after
/// each move the smallest of all is taken.
pub fn drag(n: u64) -> Workload {
    let random = &mut Random::new(n);
    let dragged = n.min(64);
    let mut steps: Vec<Step> = (0..n / 2)
        .map(|id| Step::Decrease(2 * id, random.below(KEY_LIMIT)))
        .collect();
    for _ in 0..n / 32 {
        let place = random.below(KEY_LIMIT);
        for id in 0..dragged {
            steps.push(Step::Delete(id));
            steps.push(Step::Decrease(
                id,
                (place + random.below(1 << 20)) % KEY_LIMIT,
            ));
        }
        steps.push(Step::Min);
    }
    Workload {
        name: "drag",
        n,
        steps,
    }
}

/// What a tracer asks of the program `queue`, so many calls: one run after
/// another over a grid of 32 x 32 with 8 neighbours, each from a point of its
/// own, in which the artist takes out a pixel now and then.
pub fn tracing(calls: usize) -> Workload {
    let bytes = grid_sheet(32, 8, 1, 255);
    let mut sheet = accept(&bytes).expect("a good sheet");
    let n = sheet.n as u64;
    let mut tracer = Tracer {
        recorder: Recorder {
            queue: OnHeap::new(n),
            steps: Vec::new(),
        },
        random: Random::new(n),
        n,
    };
    while tracer.recorder.steps.len() < calls {
        sheet.source = tracer.random.index(sheet.n);
        settle_all(&sheet, &mut vec![0; sheet.n], &mut tracer);
    }
    let mut steps = tracer.recorder.steps;
    steps.truncate(calls);
    Workload {
        name: "tracing",
        n,
        steps,
    }
}

/// A queue from which some id is deleted before one Delete-Min in eight.
struct Tracer {
    recorder: Recorder,
    random: Random,
    n: u64,
}

impl Queue for Tracer {
    fn decrease(&mut self, id: u64, key: u64) {
        self.recorder.decrease(id, key);
    }

    fn delete(&mut self, id: u64) {
        self.recorder.delete(id);
    }

    fn delete_min(&mut self) -> Option<(u64, u64)> {
        if self.random.one_in(8) {
            let id = self.random.below(self.n);
            self.recorder.delete(id);
        }
        self.recorder.delete_min()
    }
}

// ---------------------------------------------------------------------------
// Sheets to run on

/// A square grid; the source is its middle.
pub fn grid_sheet(side: u32, neighbours: u32, least: u64, most: u64) -> Vec<u8> {
    oblong_sheet([side, side], neighbours, least, most)
}

/// A grid of this width and height; the source is its middle.
pub fn oblong_sheet([width, height]: [u32; 2], neighbours: u32, least: u64, most: u64) -> Vec<u8> {
    let ends = generate_sheets::grid(width, height, neighbours);
    let middle = height / 2 * width + width / 2;
    weighted_sheet(width * height, ends, middle, least, most)
}

/// Random edges, so many half-edges in all.
pub fn sparse_sheet(n: u32, h: usize, least: u64, most: u64) -> Vec<u8> {
    let ends = generate_sheets::sparse(&mut Random::new(h as u64), n, h / 2);
    weighted_sheet(n, ends, n / 2, least, most)
}

fn weighted_sheet(n: u32, ends: Vec<[u32; 2]>, source: u32, least: u64, most: u64) -> Vec<u8> {
    let random = &mut Random::new(u64::from(n));
    let edge = |ends| {
        let weight = random.between(least, most) as u32;
        Edge {
            ends,
            weights: [weight, weight],
        }
    };
    let edges = ends.into_iter().map(edge).collect();
    Draft::of(&Graph { n, edges }, source).bytes()
}

#[cfg(test)]
mod tests {
    use super::*;
    use crate::image::{inner_fresh, need, Taking};
    use crate::run::OnImage;

    #[test]
    fn tracing_has_all_kinds_of_calls_and_the_queues_answers() {
        let list = tracing(5_000);
        assert_eq!(list.steps.len(), 5_000);
        let count = |kind: fn(&Step) -> bool| list.steps.iter().filter(|&step| kind(step)).count();
        assert!(count(|step| matches!(step, Step::Decrease(..))) > 2_000);
        assert!(count(|step| matches!(step, Step::Delete(_))) > 100);
        assert!(count(|step| matches!(step, Step::Min)) > 1_000);
        let image = &mut vec![0; need(list.n)];
        inner_fresh(image, list.n);
        let taking = Taking::Either;
        let answers = play(&list.steps, &mut OnImage { image, taking });
        assert_eq!(answers, play(&list.steps, &mut OnHeap::new(list.n)));
    }
}
