//! A writer of scripts that knows how the model stands, so that most of its calls are granted, and some are wild.

use crate::history::Kind;
use crate::random::Random;
use crate::rules::{Status, HANDLES, PLACES};
use crate::script::{hex, Player};

/// How a writer chooses values.
#[derive(Clone, Copy, PartialEq)]
pub enum Values {
    /// Two or three different ones.
    Few,
    /// Every value another.
    Unique,
    /// Any 8 bytes.
    Any,
}

/// A writer: the script so far, and the model as it stands after it.
pub struct Writer {
    pub random: Random,
    pub player: Player,
    pub script: Vec<u8>,
    /// Calls name cells below this, unless they are wild.
    pub cells: usize,
    pub values: Values,
    /// So many words in a thousand are wild.
    pub wild: usize,
    unique: u64,
    saves: usize,
}

impl Writer {
    /// A writer with nothing written.
    pub fn new(random: Random) -> Writer {
        Writer {
            random,
            player: Player::new(),
            script: Vec::new(),
            cells: 4,
            values: Values::Few,
            wild: 0,
            unique: 0,
            saves: 0,
        }
    }

    /// Writes a line, and plays it on the model.
    pub fn say(&mut self, line: &[u8]) {
        self.script.extend(line);
        self.script.push(b'\n');
        self.player.play(line);
    }

    /// Writes a line of text.
    pub fn text(&mut self, line: &str) {
        self.say(line.as_bytes());
    }

    /// The places that stand so.
    pub fn places(&self, status: Status) -> Vec<usize> {
        let books = &self.player.machine.books;
        (0..PLACES)
            .filter(|place| books.places[*place].status == status)
            .collect()
    }

    /// How many transactions are live.
    pub fn live(&self) -> usize {
        self.player.machine.books.live()
    }

    /// How many records the day has.
    pub fn records(&self) -> usize {
        self.player.machine.books.records
    }

    /// The handle of a place as it stands.
    pub fn handle_of(&self, place: usize) -> u32 {
        self.player.machine.books.handle(place)
    }

    /// The handle of a place that stands so, if there is one, or a wild handle.
    pub fn handle(&mut self, status: Status) -> u32 {
        let places = self.places(status);
        if places.is_empty() || self.random.chance(self.wild) {
            return self.wild_handle();
        }
        let place = self.random.pick(&places);
        self.handle_of(place)
    }

    /// A handle of any place as it stands, of another turn, of no place, or out of range.
    fn wild_handle(&mut self) -> u32 {
        let place = self.random.below(PLACES);
        let right = self.handle_of(place);
        match self.random.below(10) {
            0 => right.wrapping_add(32) % HANDLES,
            1 => right.wrapping_sub(32) % HANDLES,
            2 => self
                .random
                .pick(&[HANDLES - 1, HANDLES, HANDLES + 1, u32::MAX, 0, 31, 32]),
            3 => right + HANDLES,
            4 => self.random.next() as u32,
            5 => self.random.next() as u32 % HANDLES,
            6 => {
                let committed = self.places(Status::Committed);
                committed.last().map_or(right, |last| self.handle_of(*last))
            }
            _ => right,
        }
    }

    /// A cell of those that are used, or a wild one.
    pub fn cell(&mut self) -> u32 {
        if !self.random.chance(self.wild) {
            return self.random.below(self.cells) as u32;
        }
        let any = self.random.next() as u32;
        self.random.pick(&[
            0,
            30,
            31,
            32,
            33,
            63,
            64,
            255,
            256,
            288,
            65_536,
            u32::MAX,
            any,
        ])
    }

    /// A value in hexadecimal digits: 8 bytes, or another number of bytes if it is wild.
    pub fn value(&mut self) -> String {
        let mut bytes = match self.values {
            Values::Few => vec![0, 0, 0, 0, 0, 0, 0, self.random.below(3) as u8],
            Values::Unique => {
                self.unique += 1;
                self.unique.to_be_bytes().to_vec()
            }
            Values::Any => self.random.next().to_be_bytes().to_vec(),
        };
        if self.random.chance(self.wild) {
            let length = self.random.pick(&[1, 2, 4, 7, 7, 8, 9, 9, 15, 16, 17, 100]);
            bytes.resize(length, 7);
        }
        let digits = hex(&bytes);
        if self.random.chance(100) {
            digits.to_uppercase()
        } else {
            digits
        }
    }

    /// Begin.
    pub fn begin(&mut self) {
        self.text("begin");
    }

    /// Read, mostly by a live one, and mostly of a cell that it has not written.
    pub fn read(&mut self) {
        let handle = self.handle(Status::Live);
        let mut cell = self.cell();
        let written = self.player.machine.books.places[(handle % 32) as usize].written;
        if (cell as usize) < self.cells && written[cell as usize] && self.random.chance(700) {
            cell = (0..self.cells)
                .find(|other| !written[*other])
                .unwrap_or(cell as usize) as u32;
        }
        let line = format!("read {handle} {cell}");
        self.text(&line);
    }

    /// Write, mostly by a live one.
    pub fn write(&mut self) {
        let line = format!(
            "write {} {} {}",
            self.handle(Status::Live),
            self.cell(),
            self.value()
        );
        self.text(&line);
    }

    /// Commit, mostly of a live one.
    pub fn commit(&mut self) {
        let line = format!("commit {}", self.handle(Status::Live));
        self.text(&line);
    }

    /// Give up, mostly of a live one.
    pub fn give_up(&mut self) {
        let line = format!("giveup {}", self.handle(Status::Live));
        self.text(&line);
    }

    /// Post.
    pub fn post(&mut self) {
        let line = format!("post {} {}", self.cell(), self.value());
        self.text(&line);
    }

    /// A read or commit of a live one that would meet Conflict, if a few tries come upon one; gives whether they did.
    pub fn conflict(&mut self) -> bool {
        let live = self.places(Status::Live);
        for _ in 0..8 * live.len().min(4) {
            let place = self.random.pick(&live);
            let cell = self.random.below(self.cells);
            let machine = &self.player.machine;
            let handle = machine.books.handle(place);
            let line = if self.random.chance(300) {
                machine
                    .would_conflict(Kind::Commit, place, 0, [0; 8])
                    .then(|| format!("commit {handle}"))
            } else {
                let judged = !machine.books.places[place].written[cell];
                let conflict = judged
                    && machine.would_conflict(Kind::JudgedRead, place, cell, machine.table[cell]);
                conflict.then(|| format!("read {handle} {cell}"))
            };
            if let Some(line) = line {
                self.text(&line);
                return true;
            }
        }
        false
    }

    /// Order, of a live or committed one.
    pub fn order(&mut self) {
        let status = self.random.pick(&[Status::Live, Status::Committed]);
        let line = format!("order {}", self.handle(status));
        self.text(&line);
    }

    /// Order of everyone who holds a place.
    pub fn all_orders(&mut self) {
        let held: Vec<usize> = [self.places(Status::Live), self.places(Status::Committed)].concat();
        for place in held {
            let line = format!("order {}", self.handle_of(place));
            self.text(&line);
        }
    }

    /// Everyone's order, and the day saved.
    pub fn save(&mut self) {
        self.all_orders();
        self.saves += 1;
        let line = format!("save day-{}", self.saves);
        self.text(&line);
    }

    /// Everyone who is live commits or gives up.
    pub fn end_all(&mut self) {
        for place in self.places(Status::Live) {
            let call = if self.random.chance(600) {
                "commit"
            } else {
                "giveup"
            };
            let line = format!("{call} {}", self.handle_of(place));
            self.text(&line);
        }
    }

    /// The end of a day: looked at, saved, closed.
    pub fn end_day(&mut self) {
        if self.random.chance(300) {
            self.text("close");
        }
        self.end_all();
        if self.random.chance(500) {
            self.save();
        }
        if self.random.chance(200) {
            self.text("log");
        }
        self.text("close");
        self.text("table");
    }

    /// The end of a script: everything is shown and saved.
    pub fn end(&mut self) {
        self.text("table");
        if self.random.chance(200) {
            self.text("log");
        }
        self.save();
    }
}
