//! A difference between model and machine: its input, and what differs.

use crate::checker::list_bytes;
use crate::daylog::OPENING;

/// What a difference was found with.
#[derive(Clone)]
pub enum Input {
    /// A script for `play`, with what is done to its saved days.
    Script(Vec<u8>),
    /// A question for the checker.
    Question(Question),
    /// Something that is no case by itself.
    Other,
}

/// A question for the checker: an opening table, a log, a begin record, and a list as bytes.
#[derive(Clone, PartialEq, Eq)]
pub struct Question {
    pub opening: Vec<u8>,
    pub log: Vec<u8>,
    pub begin: u32,
    pub list: Vec<u8>,
}

impl Question {
    /// A question on a saved day: the first 256 bytes are the opening table, if there are so many.
    pub fn on_day(day: &[u8], begin: u32, list: &[u16]) -> Question {
        let (opening, log) = day.split_at(day.len().min(OPENING));
        let list = list_bytes(list);
        Question {
            opening: opening.to_vec(),
            log: log.to_vec(),
            begin,
            list,
        }
    }
}

/// A difference.
#[derive(Clone)]
pub struct Failure {
    pub input: Input,
    pub difference: String,
}

impl Failure {
    /// A difference in what a script does.
    pub fn script(script: &[u8], difference: String) -> Failure {
        Failure {
            input: Input::Script(script.to_vec()),
            difference,
        }
    }

    /// A difference in what the checker answers.
    pub fn question(question: &Question, difference: String) -> Failure {
        Failure {
            input: Input::Question(question.clone()),
            difference,
        }
    }

    /// A difference that is no case by itself.
    pub fn other(difference: String) -> Failure {
        Failure {
            input: Input::Other,
            difference,
        }
    }
}
