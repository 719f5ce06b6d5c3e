//! The order checker, straight from document 01: which lists of begin records are accepted.

use crate::breaks::{broken, Break};
use crate::daylog::{read_log, OPENING};
use crate::history::{transactions, Transaction};
use crate::judging;
use crate::rules::{Table, Value, BAD_LOG, CELLS, GRANTED, LENT, NO_ORDER, UNKNOWN};
use crate::script::number;

/// A table from its 256 bytes.
pub fn table_from(bytes: &[u8]) -> Option<Table> {
    if bytes.len() != OPENING {
        return None;
    }
    let mut table = [[0; 8]; CELLS];
    for (cell, value) in table.iter_mut().zip(bytes.chunks(8)) {
        *cell = Value::try_from(value).ok()?;
    }
    Some(table)
}

/// A list as little-endian pairs of bytes.
pub fn list_bytes(list: &[u16]) -> Vec<u8> {
    list.iter()
        .flat_map(|number| number.to_le_bytes())
        .collect()
}

/// A list from its bytes; none if they are odd.
pub fn list_from(bytes: &[u8]) -> Option<Vec<u16>> {
    if bytes.len() % 2 != 0 {
        return None;
    }
    Some(
        bytes
            .chunks(2)
            .map(|two| u16::from_le_bytes([two[0], two[1]]))
            .collect(),
    )
}

/// The number that the checker answers, for any bytes: 1, 10, 11, 12 in this order, or 0.
pub fn check(opening: &[u8], log: &[u8], begin: u32, list: &[u8]) -> u8 {
    let (Some(opening), Some(list)) = (table_from(opening), list_from(list)) else {
        return LENT;
    };
    let Some(history) = read_log(log) else {
        return BAD_LOG;
    };
    check_day(&opening, &transactions(&history), begin, &list)
}

/// The number that the checker answers on a well laid out log.
pub fn check_day(opening: &Table, day: &[Transaction], begin: u32, list: &[u16]) -> u8 {
    let Some(one) = day.iter().find(|one| one.begin as u64 == u64::from(begin)) else {
        return UNKNOWN;
    };
    if Order::of(day, one).accepts(opening, list) {
        GRANTED
    } else {
        NO_ORDER
    }
}

/// What a list has to keep: the company, and who of it stands before whom.
pub struct Order<'a> {
    company: Vec<&'a Transaction>,
    before: Vec<Vec<bool>>,
}

impl<'a> Order<'a> {
    /// What a list for this transaction has to keep.
    pub fn of(day: &'a [Transaction], one: &'a Transaction) -> Order<'a> {
        let company = judging::company(day, one);
        let before = judging::pairs(&company, judging::Asker::Checker);
        Order { company, before }
    }

    /// Whether a list is accepted.
    pub fn accepts(&self, opening: &Table, list: &[u16]) -> bool {
        if broken(Break::EveryList) || broken(Break::NoList) {
            return broken(Break::EveryList);
        }
        if !self.is_the_company(list) || !self.keeps_every_pair(list) {
            return false;
        }
        let named = |begin: &u16| {
            self.company
                .iter()
                .find(|one| one.begin == usize::from(*begin))
                .copied()
        };
        let listed: Vec<&Transaction> = list.iter().filter_map(named).collect();
        judged_reads_explained(opening, &listed)
            && listed.iter().all(|one| own_reads_explained(one))
    }

    /// Whether the list is the company without repeats.
    fn is_the_company(&self, list: &[u16]) -> bool {
        let times = |begin: usize| {
            list.iter()
                .filter(|number| usize::from(**number) == begin)
                .count()
        };
        let left_out = self
            .company
            .iter()
            .filter(|one| times(one.begin) == 0)
            .count();
        let repeated = self.company.iter().any(|one| times(one.begin) > 1);
        let strange = list.iter().any(|number| {
            self.company
                .iter()
                .all(|one| one.begin != usize::from(*number))
        });
        let most_left_out = if broken(Break::LeftOut) { 1 } else { 0 };
        left_out <= most_left_out && (!repeated || broken(Break::Repeats)) && !strange
    }

    /// Whether whoever stands before another is earlier in the list.
    fn keeps_every_pair(&self, list: &[u16]) -> bool {
        let position: Vec<usize> = self
            .company
            .iter()
            .map(|one| {
                list.iter()
                    .position(|number| usize::from(*number) == one.begin)
                    .unwrap_or(usize::MAX)
            })
            .collect();
        let all = 0..self.company.len();
        all.clone().all(|k| {
            all.clone()
                .all(|m| !self.before[k][m] || position[k] < position[m])
        })
    }
}

/// Whether every judged read has the value last committed to its cell by a transaction earlier in the list, or the opening value.
fn judged_reads_explained(opening: &Table, listed: &[&Transaction]) -> bool {
    let mut listed = listed.to_vec();
    if broken(Break::Replay) {
        listed.sort_by_key(|one| one.commit.unwrap_or(usize::MAX));
    }
    let mut table = *opening;
    for one in listed {
        let explained = one.reads.iter().all(|read| read.value == table[read.cell]);
        if !explained && !broken(Break::Values) {
            return false;
        }
        if one.commit.is_some() {
            for write in &one.writes {
                table[write.cell] = write.value;
            }
        }
    }
    true
}

/// Whether every own read has the transaction's latest earlier written value.
fn own_reads_explained(one: &Transaction) -> bool {
    one.own_reads.iter().all(|read| {
        let earlier = one
            .writes
            .partition_point(|write| write.record < read.record);
        let latest = one.writes[..earlier]
            .iter()
            .rev()
            .find(|write| write.cell == read.cell);
        let latest = latest.map(|write| write.value);
        latest == Some(read.value) || broken(Break::OwnValue)
    })
}

/// What `accept` prints for its words and its input.
pub fn accept_text(words: &[Vec<u8>], input: &[u8]) -> String {
    let begin = words.first().and_then(|word| word_number(word));
    let list: Option<Vec<u16>> = words
        .iter()
        .skip(1)
        .map(|word| word_number(word).and_then(|number| u16::try_from(number).ok()))
        .collect();
    let (Some(begin), Some(list)) = (begin, list) else {
        return format!("refused {LENT}\n");
    };
    let (opening, log) = input.split_at(input.len().min(OPENING));
    match check(opening, log, begin, &list_bytes(&list)) {
        GRANTED => "accepted\n".to_string(),
        number => format!("refused {number}\n"),
    }
}

/// A word of at most 4,096 bytes as a number of 32 bits.
fn word_number(word: &[u8]) -> Option<u32> {
    if word.len() > 4096 {
        return None;
    }
    number(word)
}
