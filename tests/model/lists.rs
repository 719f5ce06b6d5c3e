//! Lists of begin records that are put to the checker: orders that are right, and orders with one thing wrong.

use crate::history::Transaction;
use crate::judging::{company, given_order, pairs, Asker};
use crate::random::Random;

/// A begin record and a list.
pub type Asked = (u32, Vec<u16>);

/// At most so many transactions of a day are asked for; of a long day fewer, since the checker takes longer there.
const MOST_ASKED: usize = 8;
const MOST_ASKED_OF_LONG: usize = 2;
/// A day with more records is a long one.
const LONG: usize = 100;

/// Questions on a day: lists for its transactions, and begin records that are no begins.
pub fn questions(random: &mut Random, day: &[Transaction], records: usize) -> Vec<Asked> {
    let mut asked = Vec::new();
    let mut which: Vec<usize> = (0..day.len()).collect();
    let most = if records > LONG {
        MOST_ASKED_OF_LONG
    } else {
        MOST_ASKED
    };
    if which.len() > most {
        random.shuffle(&mut which);
        which.truncate(most);
    }
    for i in which {
        let one = &day[i];
        asked.extend(
            lists(random, day, one, records)
                .into_iter()
                .map(|list| (one.begin as u32, list)),
        );
    }
    let some = asked.last().map_or(vec![1], |last| last.1.clone());
    for begin in no_begins(random, day, records) {
        asked.push((begin, some.clone()));
    }
    asked
}

/// Numbers that name no begin, and some that may.
fn no_begins(random: &mut Random, day: &[Transaction], records: usize) -> Vec<u32> {
    let known = day.first().map_or(1, |one| one.begin as u32);
    vec![
        0,
        records as u32 + 1,
        random.between(1, records + 2) as u32,
        random.between(1, 4000) as u32,
        known + 65_536,
        u32::MAX,
        random.next() as u32,
    ]
}

/// Lists for one transaction: the given order, others that keep every pair, and wrong ones.
fn lists(
    random: &mut Random,
    day: &[Transaction],
    one: &Transaction,
    records: usize,
) -> Vec<Vec<u16>> {
    let company: Vec<u16> = company(day, one)
        .iter()
        .map(|member| member.begin as u16)
        .collect();
    let order = given_order(day, one).unwrap_or(company.clone());
    let mut reversed = order.clone();
    reversed.reverse();
    let mut shuffled = order.clone();
    random.shuffle(&mut shuffled);
    let mut swapped = order.clone();
    if order.len() > 1 {
        let i = random.below(order.len() - 1);
        swapped.swap(i, i + 1);
    }
    let another = &day[random.below(day.len())];
    let of_another = given_order(day, another).unwrap_or_default();
    let mut lists = vec![
        company,
        any_order(random, day, one),
        reversed,
        shuffled,
        swapped,
        of_another,
        Vec::new(),
    ];
    lists.extend(spoilt(random, day, &order, records));
    lists.push(order);
    lists
}

/// An order that keeps every pair, taken at random; what there is of it if there is a cycle.
fn any_order(random: &mut Random, day: &[Transaction], one: &Transaction) -> Vec<u16> {
    let company = company(day, one);
    let before = pairs(&company, Asker::Judging);
    let mut left: Vec<usize> = (0..company.len()).collect();
    let mut order = Vec::new();
    loop {
        let ready: Vec<usize> = left
            .iter()
            .copied()
            .filter(|m| left.iter().all(|k| !before[*k][*m]))
            .collect();
        if ready.is_empty() {
            return order;
        }
        let next = random.pick(&ready);
        order.push(company[next].begin as u16);
        left.retain(|m| *m != next);
    }
}

/// An order with one left out, one repeated, one named twice and another not, one too many, one instead of another, far too many.
fn spoilt(
    random: &mut Random,
    day: &[Transaction],
    order: &[u16],
    records: usize,
) -> Vec<Vec<u16>> {
    let extra = stranger(random, day, order, records);
    let mut too_many = order.to_vec();
    too_many.insert(random.below(order.len() + 1), extra);
    let mut long = order.to_vec();
    long.resize(random.between(32, 40), extra);
    let mut spoilt = vec![too_many, long];
    if !order.is_empty() {
        let at = random.below(order.len());
        let mut left_out = order.to_vec();
        left_out.remove(at);
        let mut repeated = order.to_vec();
        repeated.insert(random.below(order.len() + 1), order[at]);
        let mut twice = order.to_vec();
        twice[at] = random.pick(order);
        let mut instead = order.to_vec();
        instead[at] = extra;
        spoilt.extend([left_out, repeated, twice, instead]);
    }
    spoilt
}

/// A number that an order does not have: another transaction, or no begin record at all.
fn stranger(random: &mut Random, day: &[Transaction], order: &[u16], records: usize) -> u16 {
    let begins = day.iter().map(|one| one.begin as u16);
    let others: Vec<u16> = begins.filter(|begin| !order.contains(begin)).collect();
    if !others.is_empty() && random.chance(700) {
        return random.pick(&others);
    }
    let any = random.next() as u16;
    let record = random.between(1, records.max(1)) as u16;
    random.pick(&[0, records as u16 + 1, 65_535, any, record])
}
