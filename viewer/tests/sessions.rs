//! What the viewer reads from an image, by the definitions, is what the library then does.

mod images;
mod random;

use std::collections::BTreeMap;

use images::{sound_image, words};
use random::Random;
use viewer::image::{Image, Places};
use viewer::input::Command;
use viewer::pair::{Pair, IDS};
use viewer::reading::{live, next_min};
use viewer::session::{Answer, Session, State};

/// The sizes at which the number of levels changes, and some between.
const SIZES: [usize; 9] = [1, 2, 3, 4, 5, 8, 9, 17, 40];

fn random_command(random: &mut Random, n: usize) -> Command {
    let id = random.below(n as u64);
    match random.below(8) {
        0..=3 => Command::Dec {
            id,
            key: random.below(12),
        },
        4 => Command::Del(id),
        _ => Command::Min,
    }
}

/// The plain map takes a command; what a Delete-Min gives of it.
fn plain(map: &mut BTreeMap<u64, Pair>, command: Command) -> Option<Pair> {
    match command {
        Command::Dec { id, key } => {
            let pair = Pair(key * IDS + id);
            let held = map.entry(id).or_insert(pair);
            *held = pair.min(*held);
            None
        }
        Command::Del(id) => {
            map.remove(&id);
            None
        }
        _ => {
            let least = map.values().min().copied();
            least.and_then(|pair| map.remove(&pair.id()))
        }
    }
}

/// Calls on an image of n ids: each answer is the one foretold, the live map is always the plain
/// map.
fn run(session: &mut Session, random: &mut Random, n: usize, calls: usize) -> [usize; 3] {
    let mut seen = [0; 3];
    let mut map = live(&image(session).levels);
    for _ in 0..calls {
        let command = random_command(random, n);
        let next = next_min(&image(session));
        let answer = session.take(command);
        let least = plain(&mut map, command);
        match answer {
            Answer::Taken => assert_ne!(command, Command::Min),
            Answer::Min { id, key, reach } => {
                assert_eq!(
                    (next.pair, next.reach),
                    (Some(Pair(key * IDS + id)), reach as usize)
                );
                assert_eq!(next.pair, least);
                seen[usize::from(reach > 1)] += 1;
            }
            Answer::Empty { reach } => {
                assert_eq!((next.pair, next.reach), (None, reach as usize));
                assert_eq!(least, None);
                seen[2] += 1;
            }
            Answer::Refused(number) => panic!("{command:?} is refused {number}"),
        }
        assert_eq!(live(&image(session).levels), map, "after {command:?}");
    }
    seen
}

fn image(session: &mut Session) -> Image {
    match session.state() {
        State::Sound(image) => image,
        refused => panic!("{refused:?}"),
    }
}

/// Some Delete-Mins of each kind were seen: stopped at level 0, stopped deeper, empty.
fn all_seen(seen: [usize; 3]) {
    assert!(seen.iter().all(|&times| times > 100), "{seen:?}");
}

#[test]
fn sessions_from_fresh() {
    let mut seen = [0; 3];
    for seed in 0..400 {
        let mut random = Random::seeded(seed);
        let n = SIZES[seed as usize % SIZES.len()];
        let mut session = Session::cleared();
        assert_eq!(session.take(Command::New(n as u64)), Answer::Taken);
        for (at, times) in run(&mut session, &mut random, n, 120)
            .into_iter()
            .enumerate()
        {
            seen[at] += times;
        }
    }
    all_seen(seen);
}

#[test]
fn sessions_from_any_sound_image() {
    let mut seen = [0; 3];
    for seed in 0..6_000 {
        let mut random = Random::seeded(seed);
        let n = SIZES[seed as usize % SIZES.len()];
        let made = sound_image(&mut random, n);
        let mut session = Session::of(words(&made));
        assert_eq!(image(&mut session), made, "seed {seed}");
        for (at, times) in run(&mut session, &mut random, n, 8).into_iter().enumerate() {
            seen[at] += times;
        }
    }
    all_seen(seen);
}

/// The level that stops has the answer itself: the least pair of the levels down to it, within its
/// bound.
#[test]
fn the_stopping_level_holds_the_least() {
    for seed in 0..3_000 {
        let mut random = Random::seeded(seed);
        let image = sound_image(&mut random, SIZES[seed as usize % SIZES.len()]);
        let next = next_min(&image);
        if let Some(pair) = next.pair {
            let levels = &image.levels[..next.reach];
            assert_eq!(live(levels).values().min(), Some(&pair), "seed {seed}");
        }
    }
}

/// What the manual says of where a Delete-Min stops: at the first level whose bound is at least the
/// smallest live pair.
#[test]
fn the_first_bound_that_admits_the_least_stops() {
    for seed in 0..3_000 {
        let mut random = Random::seeded(seed);
        let image = sound_image(&mut random, SIZES[seed as usize % SIZES.len()]);
        let next = next_min(&image);
        let stop = next.pair.map(|pair| {
            image
                .levels
                .iter()
                .position(|level| level.bound.admits(pair))
        });
        assert_eq!(
            stop.unwrap_or(Some(image.levels.len() - 1)),
            Some(next.reach - 1),
            "seed {seed}"
        );
    }
}

#[test]
fn the_need_is_the_librarys() {
    for n in (1..=65_536).step_by(97).chain([65_536]) {
        assert_eq!(level_queue::need(n as u64), Some(Places::of(n).end));
    }
}
