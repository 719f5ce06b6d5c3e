//! Books, step rules and numbers given back, in the order of document 01.
//!
//! The model also keeps the history of the day, and judges from that; the books stand beside it as document 01 describes them.

use crate::breaks::{broken, Break};
use crate::history::{Day, Kind, Record};
use crate::judging;

/// Places for transactions.
pub const PLACES: usize = 32;
/// Cells of the table.
pub const CELLS: usize = 32;
/// At most so many records a day.
pub const MOST_RECORDS: usize = 4000;
/// Handles are below this.
pub const HANDLES: u32 = 2_097_152;

/// What a cell holds.
pub type Value = [u8; 8];
/// The trigger table, and the draft of one place.
pub type Table = [Value; CELLS];

/// The numbers given back.
pub const GRANTED: u8 = 0;
pub const LENT: u8 = 1;
pub const UNSOUND: u8 = 2;
pub const STALE: u8 = 3;
pub const ENDED: u8 = 4;
pub const CELL: u8 = 5;
pub const FULL: u8 = 6;
pub const LOG_FULL: u8 = 7;
pub const BUSY: u8 = 8;
pub const CONFLICT: u8 = 9;
pub const BAD_LOG: u8 = 10;
pub const UNKNOWN: u8 = 11;
pub const NO_ORDER: u8 = 12;

/// How a place stands.
#[derive(Clone, Copy, Debug, PartialEq, Eq)]
pub enum Status {
    Free,
    Live,
    Committed,
}

/// The books of one place; record numbers count from 1, and 0 is none.
#[derive(Clone, Debug, PartialEq, Eq)]
pub struct Place {
    pub turn: u16,
    pub status: Status,
    pub begin: usize,
    pub commit: usize,
    pub written: [bool; CELLS],
    pub first_read: [usize; CELLS],
    pub last_read: [usize; CELLS],
}

/// The books: the record count and the places.
#[derive(Clone, Debug, PartialEq, Eq)]
pub struct Books {
    pub records: usize,
    pub places: Vec<Place>,
}

/// A call that is judged: what came before it, the record that it adds if granted, and the begin record of its transaction.
#[derive(Clone, Debug)]
pub struct Weighed {
    pub before: usize,
    pub record: Record,
    pub begin: usize,
}

/// The step machine with its table, its drafts and the history of the day.
pub struct Machine {
    pub books: Books,
    pub table: Table,
    pub drafts: [Table; PLACES],
    pub history: Vec<Record>,
    /// The transactions that the history tells of.
    day: Day,
    /// The table at the opening or the last close.
    pub opening: Table,
    /// What the last call was weighed with, if it was judged.
    pub weighed: Option<Weighed>,
}

impl Place {
    /// A free place: zero in all but its turn.
    fn free(turn: u16) -> Place {
        Place {
            turn,
            status: Status::Free,
            begin: 0,
            commit: 0,
            written: [false; CELLS],
            first_read: [0; CELLS],
            last_read: [0; CELLS],
        }
    }

    /// Whether one place is as sound books have it.
    fn sound(&self, records: usize) -> bool {
        let from_begin = |record: usize| self.begin <= record && record <= records;
        let reads_sound = |(first, last): (&usize, &usize)| {
            (*first, *last) == (0, 0)
                || (*first != 0 && from_begin(*first) && first <= last && from_begin(*last))
        };
        let all_reads = self.first_read.iter().zip(&self.last_read).all(reads_sound);
        let begun = self.begin != 0 && self.begin <= records;
        match self.status {
            Status::Free => *self == Place::free(self.turn),
            Status::Live => begun && self.commit == 0 && all_reads,
            Status::Committed => begun && self.commit != 0 && from_begin(self.commit) && all_reads,
        }
    }
}

/// Whether no number but 0 stands twice among these.
fn no_two_the_same(mut numbers: Vec<usize>) -> bool {
    numbers.retain(|number| *number != 0);
    numbers.sort_unstable();
    numbers.windows(2).all(|two| two[0] != two[1])
}

impl Books {
    /// Books with every place free, turns 0, no records.
    fn open() -> Books {
        Books {
            records: 0,
            places: vec![Place::free(0); PLACES],
        }
    }

    /// How many transactions are live.
    pub fn live(&self) -> usize {
        self.places
            .iter()
            .filter(|place| place.status == Status::Live)
            .count()
    }

    /// Whether the books are sound.
    pub fn sound(&self) -> bool {
        self.records + self.live() <= MOST_RECORDS
            && self.places.iter().all(|place| place.sound(self.records))
            && no_two_the_same(self.places.iter().map(|place| place.begin).collect())
            && no_two_the_same(self.places.iter().map(|place| place.commit).collect())
    }

    /// The lowest free place.
    fn free_place(&self) -> Option<usize> {
        let mut free = (0..PLACES).filter(|place| self.places[*place].status == Status::Free);
        if broken(Break::LowestPlace) {
            free.last()
        } else {
            free.next()
        }
    }

    /// The handle of a place as it stands: place + 32 × turn.
    pub fn handle(&self, place: usize) -> u32 {
        place as u32 + 32 * u32::from(self.places[place].turn)
    }

    /// Whether records after the call plus live ones after it stay within 4,000, with one record more and so many more live ones.
    fn has_room(&self, more_live: usize) -> bool {
        self.records + 1 + self.live() + more_live <= MOST_RECORDS
    }
}

impl Machine {
    /// A machine as opened, over a table of zeros.
    pub fn new() -> Machine {
        Machine {
            books: Books::open(),
            table: [[0; 8]; CELLS],
            drafts: [[[0; 8]; CELLS]; PLACES],
            history: Vec::new(),
            day: Day::new(),
            opening: [[0; 8]; CELLS],
            weighed: None,
        }
    }

    /// Open: books with every place free, turns 0, no records. A new day begins with the table as it is.
    pub fn open(&mut self) {
        self.weighed = None;
        let turns: Vec<u16> = self.books.places.iter().map(|place| place.turn).collect();
        self.books = Books::open();
        if broken(Break::OpenTurns) {
            self.books.places = turns.into_iter().map(Place::free).collect();
        }
        self.history.clear();
        self.day = Day::new();
        self.opening = self.table;
    }

    /// Begin: the lowest free place and its handle.
    pub fn begin(&mut self) -> (u8, u32) {
        self.weighed = None;
        let itself = if broken(Break::LogFullBegin) { 0 } else { 1 };
        let has_room = self.books.has_room(itself);
        if broken(Break::FullLate) && !has_room {
            return (LOG_FULL, 0);
        }
        let Some(place) = self.books.free_place() else {
            return (FULL, 0);
        };
        if !has_room {
            return (LOG_FULL, 0);
        }
        self.hold(place, Status::Live);
        self.record(Kind::Begin, place, 0, [0; 8]);
        self.books.places[place].begin = self.books.records;
        (GRANTED, self.books.handle(place))
    }

    /// Write: 8 bytes into the place's draft of that cell; it is not judged.
    pub fn write(&mut self, handle: u32, cell: u32, value: &[u8]) -> u8 {
        self.weighed = None;
        if let (true, Err(number)) = (broken(Break::LentLate), self.live_place(handle)) {
            return number;
        }
        let Ok(value) = Value::try_from(value) else {
            return LENT;
        };
        let (place, cell) = match self.named(handle, cell) {
            Ok(found) => found,
            Err(number) => return number,
        };
        if !self.books.has_room(0) {
            return LOG_FULL;
        }
        self.drafts[place][cell] = value;
        self.books.places[place].written[cell] = true;
        self.record(Kind::Write, place, cell, value);
        GRANTED
    }

    /// Read: of a written cell its draft, not judged; of any other the table's 8 bytes, judged.
    pub fn read(&mut self, handle: u32, cell: u32) -> (u8, Option<Value>) {
        self.weighed = None;
        let (place, cell) = match self.named(handle, cell) {
            Ok(found) => found,
            Err(number) => return (number, None),
        };
        if !self.books.has_room(0) && !self.goes_on_by_mistake(place, cell) {
            return (LOG_FULL, None);
        }
        if self.books.places[place].written[cell] {
            return self.own_read(place, cell);
        }
        let shown = if broken(Break::ZeroRead) {
            [0; 8]
        } else {
            self.table[cell]
        };
        if self.is_conflict(Kind::JudgedRead, place, cell, shown) {
            self.turn_back(Kind::ConflictAtRead, place, cell);
            return (CONFLICT, None);
        }
        self.record(Kind::JudgedRead, place, cell, shown);
        let number = self.books.records;
        let books = &mut self.books.places[place];
        if books.first_read[cell] == 0 {
            books.first_read[cell] = number;
        }
        books.last_read[cell] = number;
        (GRANTED, Some(shown))
    }

    /// A read of a cell that the transaction has written: it shows its draft.
    fn own_read(&mut self, place: usize, cell: usize) -> (u8, Option<Value>) {
        let draft = self.drafts[place][cell];
        let shown = if broken(Break::OwnRead) {
            self.table[cell]
        } else {
            draft
        };
        if !broken(Break::NoRecord) {
            self.record(Kind::OwnRead, place, cell, shown);
        }
        (GRANTED, Some(shown))
    }

    /// Whether a read goes on though the log is full, with a rule broken.
    fn goes_on_by_mistake(&self, place: usize, cell: usize) -> bool {
        let one_late = self.books.records + self.books.live() == MOST_RECORDS;
        let judged = !self.books.places[place].written[cell];
        (broken(Break::LogFullRead) && one_late)
            || (broken(Break::ConflictFirst)
                && judged
                && self.would_conflict(Kind::JudgedRead, place, cell, self.table[cell]))
    }

    /// Commit: judged as if granted; then the written cells' drafts go into the table and the place becomes committed.
    pub fn commit(&mut self, handle: u32) -> u8 {
        self.weighed = None;
        let place = match self.live_place(handle) {
            Ok(place) => place,
            Err(number) => return number,
        };
        if broken(Break::LogFullEnd) && !self.books.has_room(0) {
            return LOG_FULL;
        }
        if self.is_conflict(Kind::Commit, place, 0, [0; 8]) {
            self.turn_back(Kind::ConflictAtCommit, place, 0);
            return CONFLICT;
        }
        for cell in 0..CELLS {
            if self.books.places[place].written[cell] {
                self.table[cell] = self.drafts[place][cell];
                if broken(Break::CommitAll) {
                    break;
                }
            }
        }
        self.record(Kind::Commit, place, 0, [0; 8]);
        self.books.places[place].status = Status::Committed;
        self.books.places[place].commit = self.books.records;
        GRANTED
    }

    /// Give up: frees the place.
    pub fn give_up(&mut self, handle: u32) -> u8 {
        self.weighed = None;
        let place = match self.live_place(handle) {
            Ok(place) => place,
            Err(number) => return number,
        };
        self.record(Kind::GiveUp, place, 0, [0; 8]);
        self.free(place);
        GRANTED
    }

    /// Post: begin, write and commit in one record; writes the table, leaves the drafts, and is never judged.
    pub fn post(&mut self, cell: u32, value: &[u8]) -> (u8, u32) {
        self.weighed = None;
        let Ok(value) = Value::try_from(value) else {
            return (LENT, 0);
        };
        let free = self.books.free_place();
        if cell >= CELLS as u32 && (free.is_some() || !broken(Break::CellLate)) {
            return (CELL, 0);
        }
        let Some(place) = free else {
            return (FULL, 0);
        };
        if !self.books.has_room(0) {
            return (LOG_FULL, 0);
        }
        let cell = cell as usize;
        self.hold(place, Status::Committed);
        self.table[cell] = value;
        self.record(Kind::Post, place, cell, value);
        let books = &mut self.books.places[place];
        books.written[cell] = true;
        books.begin = self.books.records;
        books.commit = self.books.records;
        (GRANTED, self.books.handle(place))
    }

    /// Order: the transaction's order as begin records. It adds no record.
    pub fn order(&mut self, handle: u32) -> (u8, Vec<u16>) {
        self.weighed = None;
        let place = match self.held_place(handle) {
            Ok(place) => place,
            Err(number) => return (number, Vec::new()),
        };
        if broken(Break::OrderEnded) && self.books.places[place].status == Status::Committed {
            return (ENDED, Vec::new());
        }
        let one = self.day.begun_at(self.books.places[place].begin);
        match one.and_then(|one| judging::given_order(&self.day.transactions, one)) {
            Some(order) => (GRANTED, order),
            None => (UNSOUND, Vec::new()),
        }
    }

    /// Close: frees every place, keeps turns, sets records to 0. A new day begins with the table as it is.
    pub fn close(&mut self) -> u8 {
        self.weighed = None;
        if self.books.live() > 0 {
            return BUSY;
        }
        for place in 0..PLACES {
            self.free(place);
            if broken(Break::TurnsKept) {
                self.books.places[place].turn = 0;
            }
        }
        self.books.records = 0;
        self.history.clear();
        self.day = Day::new();
        if !broken(Break::OpeningTable) {
            self.opening = self.table;
        }
        GRANTED
    }

    /// The place that a handle names if that is held and the turn agrees, else Stale.
    fn held_place(&self, handle: u32) -> Result<usize, u8> {
        if handle >= HANDLES {
            return Err(STALE);
        }
        let place = (handle % 32) as usize;
        let books = &self.books.places[place];
        let turn_agrees = u32::from(books.turn) == handle / 32 || broken(Break::StaleTurn);
        if books.status == Status::Free || !turn_agrees {
            return Err(STALE);
        }
        Ok(place)
    }

    /// The place that a handle names if that is live, else Stale or Ended.
    fn live_place(&self, handle: u32) -> Result<usize, u8> {
        let place = self.held_place(handle)?;
        match self.books.places[place].status {
            Status::Committed => Err(ENDED),
            _ => Ok(place),
        }
    }

    /// The live place and the cell that a read or write names, else Stale, Ended or Cell.
    fn named(&self, handle: u32, cell: u32) -> Result<(usize, usize), u8> {
        let in_range = cell < CELLS as u32;
        if broken(Break::TestOrder) && !in_range {
            return Err(CELL);
        }
        let place = self.live_place(handle)?;
        if in_range {
            Ok((place, cell as usize))
        } else {
            Err(CELL)
        }
    }

    /// Takes a free place: its turn goes up by one and passes from 65,535 to 0.
    fn hold(&mut self, place: usize, status: Status) {
        let turn = match self.books.places[place].turn {
            65_535 if broken(Break::TurnWrap) => 1,
            65_535 => 0,
            turn => turn + 1,
        };
        self.books.places[place] = Place::free(turn);
        self.books.places[place].status = status;
    }

    /// Frees a place: clears its books but not its turn, nor its draft bytes.
    fn free(&mut self, place: usize) {
        self.books.places[place] = Place::free(self.books.places[place].turn);
    }

    /// Adds one record.
    fn record(&mut self, kind: Kind, place: usize, cell: usize, value: Value) {
        let record = self.record_of(kind, place, cell, value);
        self.history.push(record);
        self.day.add(&record);
        self.books.records += 1;
    }

    /// The record that a call at this place adds.
    fn record_of(&self, kind: Kind, place: usize, cell: usize, value: Value) -> Record {
        Record {
            kind,
            place,
            cell,
            turn: self.books.places[place].turn,
            value,
        }
    }

    /// Whether a read of the table's value, or a commit, by a live one would meet Conflict, weighed with itself counted as granted.
    pub fn would_conflict(&self, kind: Kind, place: usize, cell: usize, value: Value) -> bool {
        let record = self.record_of(kind, place, cell, value);
        judging::conflict(&self.day.transactions, &self.day.with(&record))
    }

    /// Whether a judged call meets Conflict; what it was weighed with is kept.
    fn is_conflict(&mut self, kind: Kind, place: usize, cell: usize, value: Value) -> bool {
        let record = self.record_of(kind, place, cell, value);
        let begin = self.books.places[place].begin;
        self.weighed = Some(Weighed {
            before: self.history.len(),
            record,
            begin,
        });
        self.would_conflict(kind, place, cell, value)
    }

    /// Conflict: one record, and the place is free.
    fn turn_back(&mut self, kind: Kind, place: usize, cell: usize) {
        self.record(kind, place, cell, [0; 8]);
        if !broken(Break::ConflictFrees) {
            self.free(place);
        }
    }

    /// Whether the books are sound and say of each held place what the history says of its transaction.
    pub fn books_tell_the_history(&self) -> bool {
        let told = |place: &Place| {
            let Some(one) = self.day.begun_at(place.begin) else {
                return place.status == Status::Free;
            };
            let reads_of = |cell: usize| {
                one.reads
                    .iter()
                    .filter(move |read| read.cell == cell)
                    .map(|read| read.record)
            };
            let reads_agree = (0..CELLS).all(|cell| {
                place.first_read[cell] == reads_of(cell).min().unwrap_or(0)
                    && place.last_read[cell] == reads_of(cell).max().unwrap_or(0)
            });
            place.commit == one.commit.unwrap_or(0) && place.written == one.written && reads_agree
        };
        self.books.records == self.history.len()
            && self.books.sound()
            && self.books.places.iter().all(told)
    }
}
