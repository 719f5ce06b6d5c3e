//! Brute force on small days: every ordered list of distinct begin records is put to the checker.
//!
//! A judged call meets Conflict exactly if, were it granted, no list would be accepted; and the given order is the least accepted list.

use std::collections::HashMap;

use crate::checker::{list_bytes, Order};
use crate::daylog::{day_bytes, log_bytes, table_bytes};
use crate::failure::{Failure, Question};
use crate::history::{transactions, Record, Transaction};
use crate::programs::entry;
use crate::rules::{Machine, Table, GRANTED, NO_ORDER};
use crate::script::Given;
use crate::trial::Bench;

/// Every ordered list of distinct numbers from these, the empty list too: all orders of all choices.
pub fn every_list(numbers: &[u16]) -> Vec<Vec<u16>> {
    let mut lists: Vec<Vec<u16>> = vec![Vec::new()];
    let mut done = 0;
    while done < lists.len() {
        let list = lists[done].clone();
        for number in numbers.iter().filter(|number| !list.contains(number)) {
            let mut longer = list.clone();
            longer.push(*number);
            lists.push(longer);
        }
        done += 1;
    }
    lists
}

/// The lists that were accepted, by opening table with log, and begin record; many days of a script begin alike.
pub type Accepted = HashMap<(Vec<u8>, usize), Vec<Vec<u16>>>;

/// The lists that are accepted for one transaction; each list is put to the proved checker and to the model's, once for each log.
pub fn accepted_lists(
    bench: &mut Bench,
    opening: &Table,
    history: &[Record],
    begin: usize,
) -> Result<Vec<Vec<u16>>, Failure> {
    let key = (day_bytes(opening, history), begin);
    if let Some(known) = bench.accepted.get(&key) {
        return Ok(known.clone());
    }
    let accepted = try_every_list(bench, opening, history, begin)?;
    bench.accepted.insert(key, accepted.clone());
    Ok(accepted)
}

/// Puts every list to the proved checker and to the model's, for one transaction; gives the accepted ones.
pub fn try_every_list(
    bench: &mut Bench,
    opening: &Table,
    history: &[Record],
    begin: usize,
) -> Result<Vec<Vec<u16>>, Failure> {
    let day: Vec<Transaction> = transactions(history);
    let begins: Vec<u16> = day.iter().map(|one| one.begin as u16).collect();
    let Some(one) = day.iter().find(|one| one.begin == begin) else {
        return Ok(Vec::new());
    };
    let order = Order::of(&day, one);
    let (opening_bytes, log) = (table_bytes(opening), log_bytes(history));
    let mut accepted = Vec::new();
    for list in every_list(&begins) {
        let bytes = list_bytes(&list);
        let answer = entry(&opening_bytes, &log, begin as u32, &bytes);
        bench.tally.list(answer);
        let expected = if order.accepts(opening, &list) {
            GRANTED
        } else {
            NO_ORDER
        };
        if answer != expected {
            let question = Question {
                opening: opening_bytes,
                log,
                begin: begin as u32,
                list: bytes,
            };
            let difference = format!("the checker answers {answer}, the model {expected}");
            return Err(Failure::question(&question, difference));
        }
        if answer == GRANTED {
            accepted.push(list);
        }
    }
    Ok(accepted)
}

/// Whether a history has at most so many transactions.
fn is_small(history: &[Record], most: usize) -> bool {
    history.iter().filter(|record| record.kind.starts()).count() <= most
}

/// A judged call of a small day: play printed 9 exactly if no list would be accepted, were it granted.
pub fn weigh(
    bench: &mut Bench,
    machine: &Machine,
    said: &str,
    most: usize,
    script: &[u8],
) -> Result<(), Failure> {
    let Some(weighed) = &machine.weighed else {
        return Ok(());
    };
    let before = &machine.history[..weighed.before];
    if !is_small(before, most) {
        return Ok(());
    }
    let history = [before, &[weighed.record]].concat();
    bench.tally.weighed += 1;
    let accepted = accepted_lists(bench, &machine.opening, &history, weighed.begin)?;
    let conflict = said.split(' ').nth(1) == Some("9");
    if conflict == accepted.is_empty() {
        return Ok(());
    }
    let difference = format!(
        "play prints \"{said}\", and {} lists would be accepted",
        accepted.len()
    );
    Err(Failure::script(script, difference))
}

/// An order given on a small day: it is the least of the accepted lists, number by number.
pub fn least(
    bench: &mut Bench,
    machine: &Machine,
    given: &Given,
    most: usize,
    script: &[u8],
) -> Result<(), Failure> {
    if !is_small(&machine.history, most) {
        return Ok(());
    }
    let accepted = accepted_lists(bench, &machine.opening, &machine.history, given.begin)?;
    if accepted.iter().min() == Some(&given.order) {
        return Ok(());
    }
    let difference = format!(
        "the order given is {:?}, the least accepted {:?}",
        given.order,
        accepted.iter().min()
    );
    Err(Failure::script(script, difference))
}
