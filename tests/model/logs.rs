//! Logs that are well laid out though no machine would write them: any free place, turns that jump, values that nothing explains.

use crate::daylog::day_bytes;
use crate::history::{Kind, Record};
use crate::random::Random;
use crate::rules::{Status, Table, Value, CELLS, MOST_RECORDS, PLACES};

/// A writer of such logs.
struct LogWriter {
    random: Random,
    places: usize,
    cells: usize,
    /// So many values in a thousand are not those that the table or the draft would have.
    lies: usize,
    /// So many transactions at most.
    most: usize,
    history: Vec<Record>,
    table: Table,
    status: [Status; PLACES],
    turns: [u16; PLACES],
    drafts: [[Option<Value>; CELLS]; PLACES],
    begun: usize,
}

impl LogWriter {
    /// One of a few values.
    fn any_value(&mut self) -> Value {
        [0, 0, 0, 0, 0, 0, 0, self.random.below(3) as u8]
    }

    /// The value that is right, or another.
    fn value_or_lie(&mut self, right: Value) -> Value {
        if self.random.chance(self.lies) {
            self.any_value()
        } else {
            right
        }
    }

    /// Adds a record.
    fn add(&mut self, kind: Kind, place: usize, cell: usize, value: Value) {
        self.history.push(Record {
            kind,
            place,
            cell,
            turn: self.turns[place],
            value,
        });
    }

    /// A begin or a post at any place that is free.
    fn start(&mut self) {
        let free: Vec<usize> = (0..self.places)
            .filter(|place| self.status[*place] == Status::Free)
            .collect();
        if free.is_empty() || self.begun == self.most {
            return;
        }
        self.begun += 1;
        let place = self.random.pick(&free);
        self.turns[place] = match self.random.below(4) {
            0 => self.random.next() as u16,
            1 => self.turns[place],
            _ => self.turns[place].wrapping_add(1),
        };
        self.drafts[place] = [None; CELLS];
        if self.random.chance(800) {
            self.status[place] = Status::Live;
            self.add(Kind::Begin, place, 0, [0; 8]);
        } else {
            let (cell, value) = (self.random.below(self.cells), self.any_value());
            self.status[place] = Status::Committed;
            self.table[cell] = value;
            self.add(Kind::Post, place, cell, value);
        }
    }

    /// A read of one's own writing, or a judged one, or one that met Conflict.
    fn read(&mut self, place: usize) {
        let cell = self.random.below(self.cells);
        if let Some(draft) = self.drafts[place][cell] {
            let value = self.value_or_lie(draft);
            self.add(Kind::OwnRead, place, cell, value);
        } else if self.random.chance(20) {
            self.status[place] = Status::Free;
            self.add(Kind::ConflictAtRead, place, cell, [0; 8]);
        } else {
            let value = self.value_or_lie(self.table[cell]);
            self.add(Kind::JudgedRead, place, cell, value);
        }
    }

    /// A commit, whatever a machine would have said to it.
    fn commit(&mut self, place: usize) {
        self.status[place] = Status::Committed;
        for cell in 0..CELLS {
            if let Some(draft) = self.drafts[place][cell] {
                self.table[cell] = draft;
            }
        }
        self.add(Kind::Commit, place, 0, [0; 8]);
    }

    /// One more record, or none if the one that was chosen does not fit.
    fn step(&mut self) {
        let live: Vec<usize> = (0..self.places)
            .filter(|place| self.status[*place] == Status::Live)
            .collect();
        let choice = self.random.below(100);
        if live.is_empty() || choice < 20 {
            return self.start();
        }
        let place = self.random.pick(&live);
        match choice {
            20..=54 => self.read(place),
            55..=79 => {
                let (cell, value) = (self.random.below(self.cells), self.any_value());
                self.drafts[place][cell] = Some(value);
                self.add(Kind::Write, place, cell, value);
            }
            80..=95 => self.commit(place),
            _ => {
                self.status[place] = Status::Free;
                let kind = self.random.pick(&[Kind::GiveUp, Kind::ConflictAtCommit]);
                self.add(kind, place, 0, [0; 8]);
            }
        }
    }
}

/// A day with such a log: its opening table, then the log. At most so many transactions.
pub fn random_day(mut random: Random, most: usize) -> Vec<u8> {
    let records = match random.below(200) {
        0 => random.between(MOST_RECORDS - 2, MOST_RECORDS),
        1..=9 => random.between(100, 800),
        _ => random.between(0, 60),
    };
    let mut opening = [[0; 8]; CELLS];
    if random.chance(500) {
        opening
            .iter_mut()
            .for_each(|value| value[7] = random.below(3) as u8);
    }
    let mut writer = LogWriter {
        places: random.pick(&[1, 2, 3, 5, 8, 32]),
        cells: random.pick(&[1, 2, 2, 3, 4, 32]),
        lies: random.pick(&[0, 0, 50, 300]),
        most,
        history: Vec::new(),
        table: opening,
        status: [Status::Free; PLACES],
        turns: [random.pick(&[0, 65_535, 7]); PLACES],
        drafts: [[None; CELLS]; PLACES],
        begun: 0,
        random,
    };
    for _ in 0..3 * records {
        if writer.history.len() < records {
            writer.step();
        }
    }
    day_bytes(&opening, &writer.history)
}
