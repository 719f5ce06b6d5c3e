//! What `play` prints for a script: the lines of calls, and the table, the log and saved days to look at.

use std::collections::BTreeMap;

use crate::breaks::{broken, Break};
use crate::daylog::{day_bytes, log_bytes, table_bytes};
use crate::rules::{Machine, Value, GRANTED, LENT};
use crate::tally::Tally;

/// A line has at most so many bytes.
const LINE: usize = 255;

/// A number: decimal digits without a sign, at most 4,294,967,295.
pub fn number(word: &[u8]) -> Option<u32> {
    if word.is_empty() || !word.iter().all(u8::is_ascii_digit) {
        return None;
    }
    word.iter().try_fold(0u32, |sum, digit| {
        sum.checked_mul(10)?.checked_add(u32::from(digit - b'0'))
    })
}

/// A value: an even number of hexadecimal digits of either case, two a byte.
fn value(word: &[u8]) -> Option<Vec<u8>> {
    if word.len() % 2 != 0 {
        return None;
    }
    let digit = |letter: &u8| (*letter as char).to_digit(16).map(|digit| digit as u8);
    let digits: Vec<u8> = word.iter().map(digit).collect::<Option<_>>()?;
    Some(digits.chunks(2).map(|two| 16 * two[0] + two[1]).collect())
}

/// Bytes as hexadecimal digits in lower case.
pub fn hex(bytes: &[u8]) -> String {
    bytes.iter().map(|byte| format!("{byte:02x}")).collect()
}

/// The lines of a script; the last one counts without an end.
pub fn lines(script: &[u8]) -> Vec<&[u8]> {
    let mut lines: Vec<&[u8]> = script.split(|byte| *byte == b'\n').collect();
    if lines.last().is_some_and(|last| last.is_empty()) {
        lines.pop();
    }
    lines
}

/// The words of a line: a comment is left out; spaces, tabs and carriage returns separate.
fn words(line: &[u8]) -> Vec<&[u8]> {
    let said = line.split(|byte| *byte == b'#').next().unwrap_or(&[]);
    said.split(|byte| b" \t\r".contains(byte))
        .filter(|word| !word.is_empty())
        .collect()
}

/// An order that was given: the begin record of its transaction, and the order.
pub struct Given {
    pub begin: usize,
    pub order: Vec<u16>,
}

/// The model as `play` has it: a machine, and what was printed and saved.
pub struct Player {
    pub machine: Machine,
    /// How many lines there were.
    pub line: usize,
    /// Records plus live ones, and live ones, before the last line.
    before: (usize, usize),
    /// What the last line printed, line by line.
    pub printed: Vec<String>,
    /// The order that the last line was given.
    pub given: Option<Given>,
    /// The last save of each name.
    pub saved: BTreeMap<String, Vec<u8>>,
    pub tally: Tally,
}

impl Player {
    /// A player before the first line.
    pub fn new() -> Player {
        Player {
            machine: Machine::new(),
            line: 0,
            before: (0, 0),
            printed: Vec::new(),
            given: None,
            saved: BTreeMap::new(),
            tally: Tally::default(),
        }
    }

    /// Plays one line.
    pub fn play(&mut self, line: &[u8]) {
        self.line += 1;
        let live = self.machine.books.live();
        self.before = (self.machine.books.records + live, live);
        self.printed.clear();
        self.given = None;
        self.machine.weighed = None;
        let words = words(line);
        let longest = if broken(Break::LineLength) {
            LINE + 1
        } else {
            LINE
        };
        if line.len() <= longest && (words.is_empty() || self.call(&words).is_some()) {
            return;
        }
        self.tally.met("line ?", 0);
        self.printed.push(format!("line {} ?", self.line));
    }

    /// Plays the call that the words say; none if they say none.
    fn call(&mut self, words: &[&[u8]]) -> Option<()> {
        match (words[0], &words[1..]) {
            (b"begin", []) => {
                let (answer, handle) = self.machine.begin();
                self.says_handle("begin", answer, handle);
            }
            (b"write", [handle, cell, bytes]) => {
                let answer = self
                    .machine
                    .write(number(handle)?, number(cell)?, &value(bytes)?);
                self.says("write", answer);
            }
            (b"read", [handle, cell]) => {
                let (answer, shown) = self.machine.read(number(handle)?, number(cell)?);
                self.says_value(answer, shown);
            }
            (b"commit", [handle]) => {
                let answer = self.machine.commit(number(handle)?);
                self.says("commit", answer);
            }
            (b"giveup", [handle]) => {
                let answer = self.machine.give_up(number(handle)?);
                self.says("giveup", answer);
            }
            (b"post", [cell, bytes]) => {
                let (answer, handle) = self.machine.post(number(cell)?, &value(bytes)?);
                self.says_handle("post", answer, handle);
            }
            (b"order", [handle]) => self.order(number(handle)?),
            (b"close", []) => self.close(),
            (b"open", []) => self.open(),
            (b"table", []) => self.table(),
            (b"log", []) => self.log(),
            (b"save", [name]) => self.save(name),
            _ => return None,
        }
        Some(())
    }

    /// Prints a call and its number.
    fn says(&mut self, call: &'static str, answer: u8) {
        self.tally.met(call, answer);
        self.tally
            .met_near_bound(call, self.before.0, self.before.1, answer);
        self.tally.judged(self.machine.weighed.is_some(), answer);
        self.printed.push(format!("{call} {answer}"));
    }

    /// Prints a call that answers a handle.
    fn says_handle(&mut self, call: &'static str, answer: u8, handle: u32) {
        self.says(call, answer);
        if answer == GRANTED {
            self.printed = vec![format!("{call} {answer} {handle}")];
        }
    }

    /// Prints a read and the value that it shows.
    fn says_value(&mut self, answer: u8, shown: Option<Value>) {
        self.says("read", answer);
        if let Some(shown) = shown {
            self.printed = vec![format!("read {answer} {}", hex(&shown))];
        }
    }

    /// Order, and the begin records that it gives.
    fn order(&mut self, handle: u32) {
        let (answer, order) = self.machine.order(handle);
        self.says("order", answer);
        if answer == GRANTED {
            let numbers: String = order.iter().map(|number| format!(" {number}")).collect();
            self.printed = vec![format!("order {answer}{numbers}")];
            let begin = self.machine.books.places[(handle % 32) as usize].begin;
            self.given = Some(Given { begin, order });
        }
    }

    /// Close: a granted one ends a day.
    fn close(&mut self) {
        let answer = self.machine.close();
        self.says("close", answer);
        if answer == GRANTED {
            self.tally.days += 1;
        }
    }

    /// Open: it ends a day, too.
    fn open(&mut self) {
        self.machine.open();
        self.tally.days += 1;
        self.says("open", GRANTED);
    }

    /// The table's 32 values.
    fn table(&mut self) {
        let bytes = table_bytes(&self.machine.table);
        let values: String = bytes
            .chunks(8)
            .map(|value| format!(" {}", hex(value)))
            .collect();
        self.printed.push(format!("table{values}"));
    }

    /// The log as it stands, a line for each record and one for the trailer.
    fn log(&mut self) {
        let log = log_bytes(&self.machine.history);
        self.printed.extend(log.chunks(16).map(hex));
    }

    /// Saves the day so far: the opening table and the log as it stands. A name with a slash or a full stop alone stands for no file.
    fn save(&mut self, name: &[u8]) {
        let name = String::from_utf8_lossy(name).into_owned();
        let answer = if name.contains('/') || name == "." {
            LENT
        } else {
            GRANTED
        };
        if answer == GRANTED {
            let day = day_bytes(&self.machine.opening, &self.machine.history);
            self.saved.insert(name, day);
        }
        self.says("save", answer);
    }
}
