//! A slice of words and the calls on it, all by the proved library.

use std::fmt;

use level_queue::{Min, Queue, Refused};

use crate::faults::faults;
use crate::image::Image;
use crate::input::Command;

/// The words of the program `queue`: enough for 1,024 ids.
const PROGRAM_WORDS: usize = 6_182;

/// "a line of any other form gives `refused 7`"
const OTHER_FORM: u64 = 7;

/// What a command is answered. The program prints nothing for what is only taken.
#[derive(Clone, Copy, Debug, PartialEq, Eq)]
pub enum Answer {
    Taken,
    Min { id: u64, key: u64, reach: u64 },
    Empty { reach: u64 },
    Refused(u64),
}

impl fmt::Display for Answer {
    fn fmt(&self, f: &mut fmt::Formatter) -> fmt::Result {
        match self {
            Answer::Taken => f.write_str("taken"),
            Answer::Min { id, key, reach } => write!(f, "min {id} {key} {reach}"),
            Answer::Empty { reach } => write!(f, "empty {reach}"),
            Answer::Refused(number) => write!(f, "refused {number}"),
        }
    }
}

/// What the words of a slice are.
#[derive(Clone, Debug, PartialEq, Eq)]
pub enum State {
    Sound(Image),
    Refused {
        refused: Refused,
        faults: Vec<String>,
    },
}

pub struct Session {
    words: Vec<u64>,
}

impl Session {
    /// The slice of the program `queue`, cleared.
    pub fn cleared() -> Session {
        Session::of(vec![0; PROGRAM_WORDS])
    }

    pub fn of(words: Vec<u64>) -> Session {
        Session { words }
    }

    pub fn words(&self) -> &[u64] {
        &self.words
    }

    pub fn take(&mut self, command: Command) -> Answer {
        self.call(command)
            .unwrap_or_else(|refused| Answer::Refused(refused.number()))
    }

    fn call(&mut self, command: Command) -> Result<Answer, Refused> {
        let words = &mut self.words;
        Ok(match command {
            Command::New(n) => Queue::fresh(words, n).map(|_| Answer::Taken)?,
            Command::Dec { id, key } => Queue::open(words)?
                .decrease(id, key)
                .map(|()| Answer::Taken)?,
            Command::Del(id) => Queue::open(words)?.delete(id).map(|()| Answer::Taken)?,
            Command::Min => match Queue::open(words)?.delete_min() {
                Min::Pair { id, key, reach } => Answer::Min { id, key, reach },
                Min::Empty { reach } => Answer::Empty { reach },
            },
            Command::Other => Answer::Refused(OTHER_FORM),
        })
    }

    /// What the words are, by the library's test of an image.
    pub fn state(&mut self) -> State {
        match Queue::open(&mut self.words).map(|_| ()) {
            Ok(()) => State::Sound(Image::read(&self.words)),
            Err(refused) => State::Refused {
                refused,
                faults: faults(&self.words),
            },
        }
    }
}
