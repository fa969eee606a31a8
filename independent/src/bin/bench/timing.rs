//! Clocks, sides that take turns, and how their times are shown.

/// Whose time with the processor is measured: what else the computer does
/// counts little then.
#[derive(Clone, Copy)]
pub enum Clock {
    /// This thread's.
    Thread,
    /// That of all processes which this one has started and which have ended,
    /// their own time and the system's on their behalf.
    Children,
}

pub struct Watch {
    clock: Clock,
    start: u64,
}

impl Watch {
    pub fn start() -> Watch {
        Watch::by(Clock::Thread)
    }

    pub fn by(clock: Clock) -> Watch {
        Watch {
            clock,
            start: clock::nanoseconds(clock),
        }
    }

    pub fn nanoseconds(&self) -> f64 {
        (clock::nanoseconds(self.clock) - self.start) as f64
    }
}

#[cfg(all(target_os = "linux", target_pointer_width = "64"))]
mod clock {
    use super::Clock;

    /// Seconds, and nanoseconds or microseconds.
    #[derive(Default)]
    #[repr(C)]
    struct Time {
        seconds: i64,
        parts: i64,
    }

    impl Time {
        fn nanoseconds(&self, of_a_part: u64) -> u64 {
            self.seconds as u64 * 1_000_000_000 + self.parts as u64 * of_a_part
        }
    }

    /// What processes have used: of all this only the times are read.
    #[derive(Default)]
    #[repr(C)]
    struct Usage {
        own: Time,
        of_the_system: Time,
        others: [i64; 14],
    }

    extern "C" {
        fn clock_gettime(clock: i32, time: *mut Time) -> i32;
        fn getrusage(whose: i32, usage: *mut Usage) -> i32;
    }

    /// The C library's numbers: the clock of the calling thread's processor
    /// time, and the usage of children that have ended.
    const THREAD: i32 = 3;
    const CHILDREN: i32 = -1;

    pub fn nanoseconds(clock: Clock) -> u64 {
        match clock {
            Clock::Thread => of_this_thread(),
            Clock::Children => of_children(),
        }
    }

    fn of_this_thread() -> u64 {
        let mut time = Time::default();
        // SAFETY: the C library that every program here links writes one time.
        let answer = unsafe { clock_gettime(THREAD, &mut time) };
        assert_eq!(answer, 0, "no clock");
        time.nanoseconds(1)
    }

    fn of_children() -> u64 {
        let mut usage = Usage::default();
        // SAFETY: as above; it writes two times and fourteen numbers.
        let answer = unsafe { getrusage(CHILDREN, &mut usage) };
        assert_eq!(answer, 0, "no usage");
        usage.own.nanoseconds(1_000) + usage.of_the_system.nanoseconds(1_000)
    }
}

#[cfg(not(all(target_os = "linux", target_pointer_width = "64")))]
mod clock {
    use super::Clock;
    use std::sync::OnceLock;
    use std::time::Instant;

    static START: OnceLock<Instant> = OnceLock::new();

    /// The clock on the wall, for whomever.
    pub fn nanoseconds(_clock: Clock) -> u64 {
        START.get_or_init(Instant::now).elapsed().as_nanos() as u64
    }
}

/// Does its work once and tells the nanoseconds it took, without what had to
/// be made ready before.
pub type Side<'a> = Box<dyn FnMut() -> f64 + 'a>;

pub const ROUNDS: usize = 15;

/// A round of a side that repeats its work lasts about so long at least.
const ROUND_NANOSECONDS: f64 = 5e6;

/// The same work often enough to read a clock by.
pub fn repeated<'a>(clock: Clock, mut work: impl FnMut() + 'a) -> Side<'a> {
    let start = Watch::by(clock);
    work();
    let once = start.nanoseconds().max(1.0);
    let times = (ROUND_NANOSECONDS / once).clamp(1.0, 1e4) as u32;
    Box::new(move || {
        let start = Watch::by(clock);
        for _ in 0..times {
            work();
        }
        start.nanoseconds() / f64::from(times)
    })
}

/// The least time of each side; the sides take turns at going first.
pub fn least_times(sides: &mut [Side]) -> Vec<f64> {
    let mut least = vec![f64::INFINITY; sides.len()];
    for round in 0..ROUNDS {
        for turn in 0..sides.len() {
            let side = (turn + round) % sides.len();
            least[side] = least[side].min(sides[side]());
        }
    }
    least
}

/// A time in milliseconds, or a dash for a side that is not there.
pub fn milliseconds(time: Option<f64>) -> String {
    time.map_or("-".to_string(), |time| format!("{:.3}", time / 1e6))
}

pub fn ratio(one: Option<f64>, other: f64) -> String {
    one.map_or("-".to_string(), |one| format!("{:.2}", one / other))
}
