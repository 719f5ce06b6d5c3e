//! A failing input made smaller while it still fails.

use crate::checker::{list_bytes, list_from};
use crate::damage::mend;
use crate::daylog::{OPENING, RECORD};
use crate::failure::{Failure, Input, Question};
use crate::profiles::{PLAIN_LOOK, SMALL_LOOK};
use crate::script::lines;
use crate::trial::{Bench, Look};

/// How much may be tried: so many inputs, and so many lines or records of them.
#[derive(Clone, Copy)]
pub struct Effort {
    pub inputs: usize,
    pub lines: usize,
}

impl Effort {
    /// Takes the effort for one more input; false if none is left.
    fn spend(&mut self, lines: usize) -> bool {
        if self.inputs == 0 || self.lines < lines {
            return false;
        }
        self.inputs -= 1;
        self.lines -= lines;
        true
    }
}

/// The failure with the smallest input found.
pub fn shrink(bench: &mut Bench, failure: Failure, effort: Effort) -> Failure {
    match &failure.input {
        Input::Script(script) => {
            let look = look_that_fails(bench, script);
            let lines: Vec<Vec<u8>> = lines(script).into_iter().map(<[u8]>::to_vec).collect();
            let mut fails = |lines: &Vec<Vec<u8>>| {
                let failed = bench.script(&joined(lines), look).err()?;
                matches!(failed.input, Input::Script(_)).then_some(failed)
            };
            smaller_script(lines, failure.clone(), effort, &mut fails)
        }
        Input::Question(question) => {
            let mut fails = |question: &Question| asked(bench, question).err();
            smaller_question(question.clone(), failure.clone(), effort, &mut fails)
        }
        Input::Other => failure,
    }
}

/// The look that a script fails with: the plain one if that is enough.
fn look_that_fails(bench: &mut Bench, script: &[u8]) -> Look {
    match bench.script(script, PLAIN_LOOK) {
        Err(_) => PLAIN_LOOK,
        Ok(()) => SMALL_LOOK,
    }
}

/// Lines as a script.
fn joined(lines: &[Vec<u8>]) -> Vec<u8> {
    lines
        .iter()
        .flat_map(|line| [line.as_slice(), b"\n"].concat())
        .collect()
}

/// Puts a question to the checker, to `accept` and to the report, as far as they take it.
pub fn asked(bench: &mut Bench, question: &Question) -> Result<(), Failure> {
    bench.question(question)?;
    let whole = question.opening.len() == OPENING || question.log.is_empty();
    if !whole || question.opening.len() > OPENING {
        return Ok(());
    }
    let day = [question.opening.as_slice(), &question.log].concat();
    if let Some(list) = list_from(&question.list) {
        bench.accept(&day, question.begin, &list)?;
    }
    bench
        .report(&day)
        .map_err(|difference| Failure::question(question, difference))
}

/// Drops lines by halves, by quarters and so on, then one by one until none can go; then begins, and makes values simple.
fn smaller_script(
    mut lines: Vec<Vec<u8>>,
    mut failure: Failure,
    mut effort: Effort,
    fails: &mut dyn FnMut(&Vec<Vec<u8>>) -> Option<Failure>,
) -> Failure {
    let mut part = lines.len().div_ceil(2);
    while part > 0 {
        let mut dropped = false;
        let mut start = 0;
        while start < lines.len() {
            let mut fewer = lines.clone();
            fewer.drain(start..(start + part).min(lines.len()));
            if !effort.spend(fewer.len()) {
                return failure;
            }
            if let Some(found) = fails(&fewer) {
                (lines, failure, dropped) = (fewer, found, true);
            } else {
                start += part;
            }
        }
        if !(part == 1 && dropped) {
            part /= 2;
        }
    }
    for simpler in [without_begin, with_simple_value] {
        let mut i = 0;
        while i < lines.len() {
            match simpler(&lines, i).filter(|other| effort.spend(other.len())) {
                None => i += 1,
                Some(other) => match fails(&other) {
                    Some(found) => (lines, failure) = (other, found),
                    None => i += 1,
                },
            }
        }
    }
    failure
}

/// The lines without one begin, the handles behind it lowered by a place.
fn without_begin(lines: &[Vec<u8>], at: usize) -> Option<Vec<Vec<u8>>> {
    if lines[at] != b"begin" {
        return None;
    }
    let lowered = |line: &Vec<u8>| {
        let text = String::from_utf8_lossy(line).into_owned();
        let mut words: Vec<String> = text.split(' ').map(str::to_string).collect();
        let on_handle = ["read", "write", "commit", "giveup", "order"].contains(&words[0].as_str());
        let handle = words.get(1).and_then(|word| word.parse::<u32>().ok());
        if let (true, Some(handle)) = (on_handle, handle.filter(|handle| handle % 32 > 0)) {
            words[1] = (handle - 1).to_string();
        }
        words.join(" ").into_bytes()
    };
    Some(
        lines[..at]
            .iter()
            .cloned()
            .chain(lines[at + 1..].iter().map(lowered))
            .collect(),
    )
}

/// The lines with the value in one of them made 0000000000000001, if it is 8 bytes and another.
fn with_simple_value(lines: &[Vec<u8>], at: usize) -> Option<Vec<Vec<u8>>> {
    let text = String::from_utf8_lossy(&lines[at]).into_owned();
    let simple = |word: &str| word.len() == 16 && word.bytes().all(|byte| byte.is_ascii_hexdigit());
    let words: Vec<&str> = text
        .split(' ')
        .map(|word| {
            if simple(word) {
                "0000000000000001"
            } else {
                word
            }
        })
        .collect();
    let mut other = lines.to_vec();
    other[at] = words.join(" ").into_bytes();
    (other != lines).then_some(other)
}

/// Drops records by halves, by quarters and so on, then one by one, with the trailer mended; then numbers of the list.
fn smaller_question(
    mut question: Question,
    mut failure: Failure,
    mut effort: Effort,
    fails: &mut dyn FnMut(&Question) -> Option<Failure>,
) -> Failure {
    let mut part = (question.log.len() / RECORD).div_ceil(2);
    while part > 0 {
        let mut dropped = false;
        let mut start = 1;
        while start < question.log.len() / RECORD {
            let end = (start + part).min(question.log.len() / RECORD);
            let fewer = without_records(&question, start, end).filter(|_| effort.spend(end));
            match fewer.and_then(|fewer| fails(&fewer).map(|found| (fewer, found))) {
                Some((fewer, found)) => (question, failure, dropped) = (fewer, found, true),
                None => start += part,
            }
        }
        if !(part == 1 && dropped) {
            part /= 2;
        }
    }
    let mut at = 0;
    while 2 * at + 1 < question.list.len() {
        let mut fewer = question.clone();
        fewer.list.drain(2 * at..2 * at + 2);
        match fails(&fewer) {
            Some(found) => (question, failure) = (fewer, found),
            None => at += 1,
        }
    }
    failure
}

/// A question without the records from `start` up to `end`; numbers of later records go down.
fn without_records(question: &Question, start: usize, end: usize) -> Option<Question> {
    let list = list_from(&question.list)?;
    let lower = |number: u32| {
        if number as usize >= end {
            number - (end - start) as u32
        } else {
            number
        }
    };
    let kept = list
        .iter()
        .filter(|number| !(start..end).contains(&usize::from(**number)));
    let list: Vec<u16> = kept
        .map(|number| lower(u32::from(*number)) as u16)
        .collect();
    let mut day = vec![0; OPENING];
    day.extend(&question.log[..RECORD * (start - 1)]);
    day.extend(&question.log[RECORD * (end - 1)..]);
    mend(&mut day);
    Some(Question {
        opening: question.opening.clone(),
        log: day[OPENING..].to_vec(),
        begin: lower(question.begin),
        list: list_bytes(&list),
    })
}
