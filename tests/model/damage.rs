//! Damaged days: a byte changed, the log cut or lengthened, records swapped, dropped or doubled; in half of the cases with the trailer mended.

use crate::daylog::{trailer_bytes, OPENING, RECORD};
use crate::random::Random;
use crate::rules::MOST_RECORDS;

/// A day with one to three damages.
pub fn damaged(random: &mut Random, day: &[u8]) -> Vec<u8> {
    let mut day = day.to_vec();
    let times = random.pick(&[1, 1, 1, 2, 3]);
    for _ in 0..times {
        damage(random, &mut day);
    }
    if random.chance(500) {
        mend(&mut day);
    }
    day
}

/// One damage.
fn damage(random: &mut Random, day: &mut Vec<u8>) {
    let records = (day.len().saturating_sub(OPENING) / RECORD).saturating_sub(1);
    match random.below(12) {
        0..=4 if records > 0 => change_record(random, day, records),
        5 => change_trailer(random, day),
        6 if day.len() >= OPENING => {
            let at = random.below(OPENING);
            day[at] ^= 1 << random.below(8);
        }
        7 => cut(random, day),
        8 => lengthen(random, day),
        _ if records > 1 => move_records(random, day, records),
        _ => change_trailer(random, day),
    }
}

/// Changes one byte of a record: the kind, place, cell, byte 3, turn, bytes 6 and 7, or the value.
fn change_record(random: &mut Random, day: &mut [u8], records: usize) {
    let start = OPENING + RECORD * random.below(records);
    let at = random.pick(&[0, 0, 0, 1, 1, 2, 2, 2, 3, 4, 5, 6, 7, 8, 9, 12, 15, 15]);
    let byte = &mut day[start + at];
    *byte = match random.below(4) {
        0 => *byte ^ (1 << random.below(8)),
        1 => byte.wrapping_add(random.pick(&[1, 255])),
        2 => random.below(12) as u8,
        _ => random.pick(&[0, 1, 5, 9, 10, 31, 32, 33, 128, 255]),
    };
}

/// Changes one byte of the trailer: a field, or one of the letters.
fn change_trailer(random: &mut Random, day: &mut [u8]) {
    if day.len() < RECORD {
        return;
    }
    let at = day.len() - RECORD + random.below(RECORD);
    day[at] = match random.below(3) {
        0 => day[at] ^ (1 << random.below(8)),
        1 => day[at].wrapping_add(random.pick(&[1, 255, 16, 240])),
        _ => random.next() as u8,
    };
}

/// Cuts a day: by a few bytes, by a record, into the opening table, to nothing.
fn cut(random: &mut Random, day: &mut Vec<u8>) {
    let length = day.len();
    let left = match random.below(10) {
        0 => 0,
        1 => random.below(OPENING),
        2 => random.pick(&[255, 256, 257, 271, 272]),
        _ => length.saturating_sub(random.pick(&[1, 15, 16, 16, 17, 32, 48])),
    };
    day.truncate(left);
}

/// Lengthens a day: by a byte, by 16, by a second trailer, to over 64,016 bytes of log.
fn lengthen(random: &mut Random, day: &mut Vec<u8>) {
    let length = day.len();
    match random.below(8) {
        0 => day.push(random.next() as u8),
        1 => day.resize(
            length + random.pick(&[15, 16, 17, 32]),
            random.pick(&[0, 1, 255]),
        ),
        2 | 3 if length >= OPENING + RECORD => day.extend_from_within(length - RECORD..),
        4 => day.resize(
            OPENING + RECORD * (MOST_RECORDS + 1) + random.pick(&[1, 16, 32, 6000, 240_000]),
            0,
        ),
        5 if length > OPENING + 2 * RECORD => {
            // give ups and begins in turn, until there are as many records as a day has, or one more
            let more = random.pick(&[MOST_RECORDS, MOST_RECORDS + 1]);
            fill_up(day, more);
        }
        _ => {
            let bytes: Vec<u8> = (0..16).map(|_| random.below(12) as u8).collect();
            day.extend(bytes);
        }
    }
}

/// Puts begins and give ups of the first free place behind the records until there are so many, with a true trailer.
fn fill_up(day: &mut Vec<u8>, records: usize) {
    day.truncate(OPENING + (day.len() - OPENING) / RECORD * RECORD - RECORD);
    let named = |place: u8| {
        day[OPENING..]
            .chunks(RECORD)
            .any(|record| record[1] == place)
    };
    let place = (0..32).find(|place| !named(*place)).unwrap_or(0);
    let mut kind = 1;
    while day.len() < OPENING + RECORD * records {
        day.extend([kind, place, 0, 0, 1, 0, 0, 0, 0, 0, 0, 0, 0, 0, 0, 0]);
        kind = 7 - kind;
    }
    day.extend([0; RECORD]);
    mend(day);
}

/// Swaps two records, drops one, doubles one, or puts a copy of one elsewhere; the trailer stays as it is, or tells the new count.
fn move_records(random: &mut Random, day: &mut Vec<u8>, records: usize) {
    let one = OPENING + RECORD * random.below(records);
    let other = OPENING + RECORD * random.below(records);
    let copy = day[one..one + RECORD].to_vec();
    match random.below(4) {
        0 => {
            day.copy_within(other..other + RECORD, one);
            day[other..other + RECORD].copy_from_slice(&copy);
        }
        1 => {
            day.drain(one..one + RECORD);
        }
        2 => {
            day.splice(one..one, copy);
        }
        _ => {
            day.splice(other..other, copy);
        }
    }
}

/// Makes the trailer true, as far as the length lets it.
pub fn mend(day: &mut [u8]) {
    let length = day.len();
    if length < OPENING + RECORD {
        return;
    }
    let body = &day[OPENING..length - RECORD];
    let commits = body
        .chunks(RECORD)
        .filter(|record| record[0] == 5 || record[0] == 9)
        .count();
    let trailer = trailer_bytes(body.len() / RECORD, commits);
    day[length - RECORD..].copy_from_slice(&trailer);
}
