//! Every tiny log: all records of a small alphabet behind every tiny log that is well laid out, and every list put to the checker.

use crate::daylog::{log_bytes, read_log, table_bytes};
use crate::failure::{Failure, Question};
use crate::history::{transactions, Record, KINDS};
use crate::rules::{Table, CELLS};
use crate::small::try_every_list;
use crate::trial::Bench;

/// The records that tiny logs are made of: every kind, two places, two turns, two cells, two values.
fn alphabet() -> Vec<Record> {
    let mut records = Vec::new();
    for kind in KINDS {
        for choice in 0..16 {
            let (place, turn) = (choice % 2, (choice / 2 % 2) as u16);
            let (cell, value) = (choice / 4 % 2, [(choice / 8) as u8; 8]);
            let unused = (!kind.uses_cell() && cell > 0) || (!kind.uses_value() && value[0] > 0);
            if !unused {
                records.push(Record {
                    kind,
                    place,
                    cell,
                    turn,
                    value,
                });
            }
        }
    }
    records
}

/// The histories of two records that are well laid out.
fn starts() -> Vec<Vec<Record>> {
    let mut starts = Vec::new();
    for first in alphabet() {
        for second in alphabet() {
            if read_log(&log_bytes(&[first, second])).is_some() {
                starts.push(vec![first, second]);
            }
        }
    }
    starts
}

/// How many starts the seeds choose from.
pub fn choices() -> u64 {
    starts().len() as u64
}

/// Every log with the start of this seed and up to so many records more.
pub fn run(bench: &mut Bench, seed: u64, more: usize) -> Result<(), Failure> {
    let starts = starts();
    let start = &starts[(seed * 1_000_003 % starts.len() as u64) as usize];
    let mut opening = [[0; 8]; CELLS];
    opening[1] = [1; 8];
    go_on(bench, &opening, &alphabet(), start, more)
}

/// Puts every record behind a history: a log that is badly laid out is asked for once, any other for every list, and gone on with.
fn go_on(
    bench: &mut Bench,
    opening: &Table,
    alphabet: &[Record],
    history: &[Record],
    more: usize,
) -> Result<(), Failure> {
    if more == 0 {
        return Ok(());
    }
    for record in alphabet {
        let longer = [history, &[*record]].concat();
        let log = log_bytes(&longer);
        if read_log(&log).is_none() {
            bench.question(&Question {
                opening: table_bytes(opening),
                log,
                begin: 1,
                list: vec![1, 0],
            })?;
            continue;
        }
        for one in transactions(&longer) {
            try_every_list(bench, opening, &longer, one.begin)?;
        }
        go_on(bench, opening, alphabet, &longer, more - 1)?;
    }
    Ok(())
}
