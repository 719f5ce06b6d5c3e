//! Scripts of small days: random ones of up to six transactions, and every interleaving of short transactions.

use crate::random::Random;
use crate::writer::{Values, Writer};

/// So many random days in one script.
const DAYS: usize = 12;

/// A script of random small days with at most this many transactions each.
pub fn random_days(name: &str, seed: u64, most: usize) -> Vec<u8> {
    let mut writer = Writer::new(Random::new(name, seed));
    for _ in 0..DAYS {
        writer.cells = writer.random.between(1, 3);
        writer.values = writer.random.pick(&[Values::Few, Values::Unique]);
        let transactions = writer.random.between(2, most);
        random_day(&mut writer, transactions);
        if writer.random.chance(400) {
            writer.text("open");
        } else {
            writer.end_all();
            writer.text("close");
        }
    }
    writer.script
}

/// One random day with so many transactions at most; after some granted calls the orders are asked for.
fn random_day(writer: &mut Writer, transactions: usize) {
    let mut begun = 0;
    let together = writer.random.between(1, transactions);
    for _ in 0..writer.random.between(4 * transactions, 8 * transactions) {
        if writer.random.chance(300) && writer.conflict() {
            continue;
        }
        let may_begin = begun < transactions;
        let live = writer.live();
        match writer.random.below(20) {
            0 if may_begin => {
                begun += 1;
                writer.post();
            }
            1..=9 if may_begin && live < together => {
                begun += 1;
                writer.begin();
            }
            _ if live == 0 => continue,
            1..=9 => writer.read(),
            10..=15 => writer.write(),
            16 => writer.give_up(),
            _ => writer.commit(),
        }
        let (one, all) = if transactions < 5 { (300, 50) } else { (20, 3) };
        if writer.random.chance(one) {
            writer.order();
        } else if writer.random.chance(all) {
            writer.all_orders();
        }
    }
    writer.all_orders();
}

/// What one transaction does between its begin and its commit, or a post by itself.
#[derive(Clone)]
enum Plan {
    Calls(Vec<(bool, usize)>),
    Post(usize),
}

impl Plan {
    /// How many calls it takes.
    fn length(&self) -> usize {
        match self {
            Plan::Calls(calls) => calls.len() + 2,
            Plan::Post(_) => 1,
        }
    }
}

/// Every plan with at most so many reads and writes of two cells, and the two posts.
fn plans(most: usize) -> Vec<Plan> {
    let mut all = vec![Vec::new()];
    let mut done = 0;
    while done < all.len() {
        let calls = all[done].clone();
        if calls.len() < most {
            for call in [(false, 0), (false, 1), (true, 0), (true, 1)] {
                all.push([calls.clone(), vec![call]].concat());
            }
        }
        done += 1;
    }
    let mut plans: Vec<Plan> = all.into_iter().map(Plan::Calls).collect();
    plans.extend([Plan::Post(0), Plan::Post(1)]);
    plans
}

/// Every order in which the calls of transactions of these lengths can come, the transactions starting one after the other.
fn interleavings(lengths: &[usize]) -> Vec<Vec<usize>> {
    let total: usize = lengths.iter().sum();
    let mut all: Vec<Vec<usize>> = vec![Vec::new()];
    for _ in 0..total {
        let mut longer = Vec::new();
        for path in &all {
            let taken = |who: usize| path.iter().filter(|one| **one == who).count();
            let started = (0..lengths.len()).filter(|who| taken(*who) > 0).count();
            for who in
                (0..lengths.len()).filter(|who| *who <= started && taken(*who) < lengths[*who])
            {
                longer.push([path.clone(), vec![who]].concat());
            }
        }
        all = longer;
    }
    all
}

/// Writes the next call of a transaction with this value, if it has one; gives its handle once it is answered.
fn next_call(writer: &mut Writer, plan: &Plan, done: usize, value: usize, handle: &mut u32) {
    let line = match plan {
        Plan::Post(cell) => format!("post {cell} {value:016x}"),
        Plan::Calls(_) if done == 0 => "begin".to_string(),
        Plan::Calls(calls) if done > calls.len() => format!("commit {handle}"),
        Plan::Calls(calls) => match calls[done - 1] {
            (false, cell) => format!("read {handle} {cell}"),
            (true, cell) => format!("write {handle} {cell} {value:016x}"),
        },
    };
    writer.text(&line);
    let answer = writer.player.printed[0].clone();
    let mut words = answer.split(' ').skip(1);
    if let (Some("0"), true, Some(word)) = (words.next(), done == 0, words.next()) {
        *handle = word.parse().unwrap_or(0);
    }
}

/// One day for one interleaving. A transaction that met Conflict makes no more calls. Values are unique, or all zero.
fn interleaved_day(writer: &mut Writer, plans: &[Plan], path: &[usize]) {
    let mut handles = vec![0; plans.len()];
    let mut done = vec![0; plans.len()];
    let mut over = vec![false; plans.len()];
    for who in path {
        if over[*who] {
            continue;
        }
        let value = if writer.values == Values::Unique {
            1 + 16 * who + done[*who]
        } else {
            0
        };
        next_call(writer, &plans[*who], done[*who], value, &mut handles[*who]);
        done[*who] += 1;
        over[*who] = writer.player.printed[0].ends_with(" 9");
        let judged = writer.player.machine.weighed.is_some();
        if judged && !over[*who] {
            let line = format!("order {}", handles[*who]);
            writer.text(&line);
        }
    }
    writer.text("open");
}

/// Which plans an enumeration has: for each transaction at most so many reads and writes.
pub type Sizes = &'static [usize];

/// How many choices of plans there are.
pub fn choices(sizes: Sizes) -> u64 {
    sizes.iter().map(|most| plans(*most).len() as u64).product()
}

/// A script with a day for each interleaving of one choice of plans, or for so many of them taken at random.
/// Seeds that follow each other name choices that lie far apart; as many seeds as there are choices name each of them once.
pub fn every_interleaving(name: &str, seed: u64, sizes: Sizes, days: usize) -> Vec<u8> {
    let mut writer = Writer::new(Random::new(name, seed));
    writer.values = if seed / choices(sizes) % 2 == 0 {
        Values::Unique
    } else {
        Values::Few
    };
    let mut choice = (seed % choices(sizes)) * 1_000_003 % choices(sizes);
    let mut chosen = Vec::new();
    for most in sizes {
        let all = plans(*most);
        chosen.push(all[(choice % all.len() as u64) as usize].clone());
        choice /= all.len() as u64;
    }
    let lengths: Vec<usize> = chosen.iter().map(Plan::length).collect();
    let mut paths = interleavings(&lengths);
    if paths.len() > days {
        writer.random.shuffle(&mut paths);
        paths.truncate(days);
    }
    for path in paths {
        interleaved_day(&mut writer, &chosen, &path);
    }
    writer.script
}
