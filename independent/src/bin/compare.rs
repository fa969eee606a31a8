//! Compares the independent code with what is judged: the queue's calls, the
//! acceptance of sheets, the writer and the run of the proved library, call by
//! call; the two built programs, input by input.
//!
//! compare [--topic NAME] [--seconds S] [--seed N] [--only CASE] [--trace]
//!         [--queue PATH] [--distances PATH] [--mistake NAME] [--mistakes]

#[cfg(not(feature = "proved"))]
use independent::harness::Itself;
use independent::harness::{run_case, Counts, Failure, Judged, Sides, Topic};
use independent::mistake::{self, Mistake};
use independent::process::Processes;
#[cfg(feature = "proved")]
use independent::proved::Proved;
use std::panic::{catch_unwind, AssertUnwindSafe};
use std::process::ExitCode;
use std::time::{Duration, Instant};

/// A mistake that is not noticed within this time counts as not noticed.
const MISTAKE_SECONDS: u64 = 30;

struct Wishes {
    topic: Option<Topic>,
    seconds: u64,
    seed: u64,
    only: Option<u64>,
    programs: Processes,
    mistake: Option<Mistake>,
    all_mistakes: bool,
    /// Names every case before it runs: for a library that ends the program.
    trace: bool,
}

const USAGE: &str = "compare [--topic NAME] [--seconds S] [--seed N] [--only CASE] [--trace] \
                     [--queue PATH] [--distances PATH] [--mistake NAME] [--mistakes]";

#[cfg(feature = "proved")]
const CALLS: &dyn Judged = &Proved;
#[cfg(not(feature = "proved"))]
const CALLS: &dyn Judged = &Itself { has_min: true };

impl Wishes {
    fn sides(&self) -> Sides<'_> {
        Sides {
            calls: CALLS,
            programs: &self.programs,
        }
    }

    /// Whether something else than the independent code is judged.
    fn is_judged(&self, topic: Topic) -> bool {
        match topic {
            Topic::Queue => cfg!(feature = "proved"),
            Topic::Sheet => cfg!(feature = "proved_sheet"),
            Topic::Writer => cfg!(feature = "proved_writer"),
            Topic::Run => cfg!(feature = "proved_run"),
            Topic::Programs => self.programs.queue.is_some() || self.programs.distances.is_some(),
        }
    }

    /// What else a case needs to run again as it did.
    fn switches(&self) -> String {
        let mut switches = String::new();
        if let Some(path) = &self.programs.queue {
            switches += &format!(" --queue {}", path.display());
        }
        if let Some(path) = &self.programs.distances {
            switches += &format!(" --distances {}", path.display());
        }
        if let Some(mistake) = self.mistake {
            switches += &format!(" --mistake {}", mistake.name());
        }
        switches
    }

    /// The topic asked for; else all that have something to judge; else all,
    /// by the independent code itself.
    fn topics(&self) -> Vec<Topic> {
        if let Some(topic) = self.topic {
            return vec![topic];
        }
        let mut topics = Topic::ALL.to_vec();
        topics.retain(|&topic| self.is_judged(topic));
        if topics.is_empty() {
            return Topic::ALL.to_vec();
        }
        topics
    }
}

fn main() -> ExitCode {
    let wishes = match wishes() {
        Ok(wishes) => wishes,
        Err(reason) => {
            eprintln!("{reason}");
            eprintln!("{USAGE}");
            return ExitCode::from(2);
        }
    };
    let good = if wishes.all_mistakes {
        all_mistakes(&wishes)
    } else {
        compare(&wishes)
    };
    if good {
        ExitCode::SUCCESS
    } else {
        ExitCode::FAILURE
    }
}

fn wishes() -> Result<Wishes, String> {
    let mut wishes = Wishes {
        topic: None,
        seconds: 10,
        seed: 1,
        only: None,
        programs: Processes::default(),
        mistake: None,
        all_mistakes: false,
        trace: false,
    };
    let mut words = std::env::args().skip(1);
    while let Some(word) = words.next() {
        match word.as_str() {
            "--mistakes" => wishes.all_mistakes = true,
            "--trace" => wishes.trace = true,
            _ => read_value(&mut wishes, &word, words.next())?,
        }
    }
    Ok(wishes)
}

fn read_value(wishes: &mut Wishes, word: &str, value: Option<String>) -> Result<(), String> {
    let value = value.ok_or(format!("{word} needs a value"))?;
    let number = || {
        value
            .parse::<u64>()
            .map_err(|_| format!("{value} is no number"))
    };
    match word {
        "--seconds" => wishes.seconds = number()?,
        "--seed" => wishes.seed = number()?,
        "--only" => wishes.only = Some(number()?),
        "--mistake" => wishes.mistake = Some(mistake_named(&value)?),
        "--topic" => wishes.topic = Some(topic_named(&value)?),
        "--queue" => wishes.programs.queue = Some(value.into()),
        "--distances" => wishes.programs.distances = Some(value.into()),
        _ => return Err(format!("{word} is not known")),
    }
    Ok(())
}

fn topic_named(name: &str) -> Result<Topic, String> {
    let names = Topic::ALL.map(Topic::name);
    Topic::named(name).ok_or_else(|| format!("no topic {name}; there are {}", names.join(" ")))
}

fn mistake_named(name: &str) -> Result<Mistake, String> {
    let names = || {
        Mistake::all()
            .iter()
            .map(|mistake| mistake.name())
            .collect::<Vec<_>>()
    };
    Mistake::named(name)
        .ok_or_else(|| format!("no mistake {name}; there are {}", names().join(" ")))
}

/// A panic of the independent side is a failing case like any other.
fn guarded_case(
    wishes: &Wishes,
    topic: Topic,
    case: u64,
    counts: &mut Counts,
) -> Result<(), Failure> {
    if wishes.trace {
        eprintln!("{} case {case}", topic.name());
    }
    let run = AssertUnwindSafe(|| run_case(topic, wishes.seed, case, wishes.sides(), counts));
    catch_unwind(run).unwrap_or_else(|panic| {
        let words = panic.downcast_ref::<String>().map(String::as_str);
        let words = words.or(panic.downcast_ref::<&str>().copied());
        Err(format!("a panic: {}", words.unwrap_or("without words")))
    })
}

/// Cases until the time is over or one fails.
fn run(
    wishes: &Wishes,
    topic: Topic,
    time: Duration,
    counts: &mut Counts,
) -> Result<(), (u64, Failure)> {
    let start = Instant::now();
    for case in 0.. {
        guarded_case(wishes, topic, case, counts).map_err(|failure| (case, failure))?;
        if start.elapsed() >= time {
            break;
        }
    }
    Ok(())
}

/// All topics, each with its share of the time.
fn compare(wishes: &Wishes) -> bool {
    let topics = match (wishes.topic, wishes.mistake, wishes.only) {
        (Some(topic), ..) => vec![topic],
        (None, Some(mistake), _) => vec![mistake.topic()],
        // A case number belongs to one topic.
        (None, None, Some(_)) => vec![Topic::Queue],
        (None, None, None) => wishes.topics(),
    };
    let time = Duration::from_secs(wishes.seconds) / topics.len() as u32;
    let mut good = true;
    for topic in topics {
        good &= compare_topic(wishes, topic, time);
    }
    good
}

fn compare_topic(wishes: &Wishes, topic: Topic, time: Duration) -> bool {
    mistake::set(wishes.mistake);
    let (mut counts, start) = (Counts::default(), Instant::now());
    let outcome = match wishes.only {
        Some(case) => {
            guarded_case(wishes, topic, case, &mut counts).map_err(|failure| (case, failure))
        }
        None => run(wishes, topic, time, &mut counts),
    };
    mistake::set(None);
    if let Err((case, failure)) = &outcome {
        let (name, seed) = (topic.name(), wishes.seed);
        println!("FAILED: {name} seed {seed} case {case}: {failure}");
        let switches = wishes.switches();
        println!("again alone: compare --topic {name} --seed {seed} --only {case}{switches}");
    }
    let side = match wishes.is_judged(topic) {
        true => "",
        false => " (the independent code beside itself)",
    };
    let each = counts.cases as f64 / start.elapsed().as_secs_f64();
    println!(
        "{}{side}: {}; {each:.0} cases a second",
        topic.name(),
        counts.line()
    );
    outcome.is_ok()
}

/// Runs every mistake of the topics; each must be noticed.
fn all_mistakes(wishes: &Wishes) -> bool {
    std::panic::set_hook(Box::new(|_| {}));
    let (mut noticed, mut missed, mut left_out) = (0, 0, 0);
    let topics = wishes.topics();
    let mistakes = Mistake::all().into_iter();
    for mistake in mistakes.filter(|mistake| topics.contains(&mistake.topic())) {
        let name = mistake.name();
        if mistake.needs_min() && cfg!(all(feature = "proved", not(feature = "proved_min"))) {
            println!("{name:28} left out: it takes the feature proved_min");
            left_out += 1;
            continue;
        }
        match notice(wishes, mistake) {
            Ok(how) => {
                println!("{name:28} noticed in {how}");
                noticed += 1;
            }
            Err(why) => {
                println!("{name:28} NOT NOTICED: {why}");
                missed += 1;
            }
        }
    }
    println!("mistakes: {noticed} noticed, {missed} not noticed, {left_out} left out");
    missed == 0
}

/// How a mistake shows. The case in which it shows must pass without it: else
/// it is not the mistake that was noticed.
fn notice(wishes: &Wishes, mistake: Mistake) -> Result<String, String> {
    let topic = mistake.topic();
    mistake::set(Some(mistake));
    let start = Instant::now();
    let time = Duration::from_secs(MISTAKE_SECONDS);
    let outcome = run(wishes, topic, time, &mut Counts::default());
    mistake::set(None);
    let Err((case, failure)) = outcome else {
        return Err(format!("no case failed in {MISTAKE_SECONDS} seconds"));
    };
    let milliseconds = start.elapsed().as_millis();
    match guarded_case(wishes, topic, case, &mut Counts::default()) {
        Ok(()) => Ok(format!("case {case} after {milliseconds} ms: {failure}")),
        Err(failure) => Err(format!("case {case} fails without it too: {failure}")),
    }
}
