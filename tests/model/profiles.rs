//! The profiles: what is run, how often, and how one seed of it is run.

use crate::checker::list_bytes;
use crate::daylog::{log_bytes, OPENING};
use crate::failure::{Failure, Question};
use crate::history::transactions;
use crate::random::Random;
use crate::script::{lines, Player};
use crate::smalldays::choices;
use crate::trial::{day_of, Bench, Look};
use crate::{checker, damage, daylog, logs, schedules, scripts, small, smalldays, tinylogs};

/// How a script's days are looked at, unless they are small ones.
pub const PLAIN_LOOK: Look = Look {
    accepts: 2,
    small: 3,
};
/// How small days, and cases, are looked at.
pub const SMALL_LOOK: Look = Look {
    accepts: 4,
    small: 6,
};

/// After so many seeds a profile would begin again: it enumerates choices of plans, with unique values and with zeros.
pub fn most(name: &str) -> u64 {
    match name {
        "two-by-two" => 2 * choices(&[2, 2]),
        "two-by-three" => 2 * choices(&[3, 3]),
        "three-by-one" => 2 * choices(&[1, 1, 1]),
        "two-one-one" => 6 * choices(&[2, 1, 1]),
        "three-by-two" => 2 * choices(&[2, 2, 2]),
        "six-calls" | "seven-calls" => schedules::starts(),
        "four-records" | "five-records" => tinylogs::choices(),
        _ => u64::MAX,
    }
}

/// How one seed of a profile is run.
type Run = fn(&mut Bench, &'static str, u64) -> Result<(), Failure>;

/// A profile: its name, how many seeds a default run has of it, how many a short one, and how one is run.
pub struct Profile {
    pub name: &'static str,
    pub count: u64,
    pub short: u64,
    pub run: Run,
}

/// A profile from its parts.
const fn profile(name: &'static str, count: u64, short: u64, run: Run) -> Profile {
    Profile {
        name,
        count,
        short,
        run,
    }
}

/// Every profile. Of those that enumerate, a default run has all of two-by-two, six-calls and four-records.
pub const ALL: &[Profile] = &[
    profile("short", 600, 30, run_script),
    profile("few-cells", 400, 5, run_script),
    profile("many-cells", 120, 0, run_script),
    profile("handles", 150, 5, run_script),
    profile("posts", 200, 5, run_script),
    profile("days", 150, 5, run_script),
    profile("lines", 200, 5, run_script),
    profile("full-house", 100, 2, run_script),
    profile("mixed", 250, 0, run_script),
    profile("house", 60, 0, run_script),
    profile("give-ups", 20, 0, run_script),
    profile("damage", 200, 10, run_damage),
    profile("logs", 250, 5, run_logs),
    profile("entry", 100, 5, run_entry),
    profile("words", 8, 1, run_words),
    profile("log-full", 30, 8, run_script),
    profile("log-full-none", 15, 1, run_script),
    profile("turn-wrap", 2, 1, run_script),
    profile("two-by-two", 1058, 0, run_two_by_two),
    profile("two-by-three", 150, 0, run_two_by_three),
    profile("three-by-one", 120, 0, run_three_by_one),
    profile("two-one-one", 250, 0, run_two_one_one),
    profile("three-by-two", 100, 0, run_three_by_two),
    profile("six-calls", 56, 0, run_six_calls),
    profile("seven-calls", 3, 0, run_seven_calls),
    profile("four-records", 252, 0, run_four_records),
    profile("five-records", 30, 0, run_five_records),
    profile("small", 400, 0, run_small),
    profile("six", 40, 0, run_six),
];

/// A script of a profile, played and looked at.
fn run_script(bench: &mut Bench, name: &'static str, seed: u64) -> Result<(), Failure> {
    bench.script(&scripts::script(name, seed), PLAIN_LOOK)
}

/// Every interleaving of two transactions with up to two reads and writes of two cells.
fn run_two_by_two(bench: &mut Bench, name: &'static str, seed: u64) -> Result<(), Failure> {
    bench.script(
        &smalldays::every_interleaving(name, seed, &[2, 2], usize::MAX),
        SMALL_LOOK,
    )
}

/// Every interleaving of two transactions with up to three reads and writes of two cells.
fn run_two_by_three(bench: &mut Bench, name: &'static str, seed: u64) -> Result<(), Failure> {
    bench.script(
        &smalldays::every_interleaving(name, seed, &[3, 3], usize::MAX),
        SMALL_LOOK,
    )
}

/// Every interleaving of three transactions with up to one read or write of two cells.
fn run_three_by_one(bench: &mut Bench, name: &'static str, seed: u64) -> Result<(), Failure> {
    bench.script(
        &smalldays::every_interleaving(name, seed, &[1, 1, 1], usize::MAX),
        SMALL_LOOK,
    )
}

/// Interleavings of three transactions, one of which has up to two reads and writes of two cells, the others up to one.
fn run_two_one_one(bench: &mut Bench, name: &'static str, seed: u64) -> Result<(), Failure> {
    let sizes: [smalldays::Sizes; 3] = [&[2, 1, 1], &[1, 2, 1], &[1, 1, 2]];
    let sizes = sizes[(seed % 3) as usize];
    bench.script(
        &smalldays::every_interleaving(name, seed / 3, sizes, 120),
        SMALL_LOOK,
    )
}

/// Interleavings of three transactions with up to two reads and writes of two cells.
fn run_three_by_two(bench: &mut Bench, name: &'static str, seed: u64) -> Result<(), Failure> {
    bench.script(
        &smalldays::every_interleaving(name, seed, &[2, 2, 2], 100),
        SMALL_LOOK,
    )
}

/// Every schedule of six calls, each granted or a Conflict, by up to three transactions over two cells.
fn run_six_calls(bench: &mut Bench, _: &'static str, seed: u64) -> Result<(), Failure> {
    bench.script(&schedules::script(seed, 6), SMALL_LOOK)
}

/// Every schedule of seven calls, each granted or a Conflict, by up to three transactions over two cells.
fn run_seven_calls(bench: &mut Bench, _: &'static str, seed: u64) -> Result<(), Failure> {
    bench.script(&schedules::script(seed, 7), SMALL_LOOK)
}

/// Every log of up to four records from a small alphabet, whatever a machine would write.
fn run_four_records(bench: &mut Bench, _: &'static str, seed: u64) -> Result<(), Failure> {
    tinylogs::run(bench, seed, 2)
}

/// Every log of up to five records from a small alphabet, whatever a machine would write.
fn run_five_records(bench: &mut Bench, _: &'static str, seed: u64) -> Result<(), Failure> {
    tinylogs::run(bench, seed, 3)
}

/// Random days with up to four transactions.
fn run_small(bench: &mut Bench, name: &'static str, seed: u64) -> Result<(), Failure> {
    bench.script(&smalldays::random_days(name, seed, 4), SMALL_LOOK)
}

/// Random days with up to six transactions.
fn run_six(bench: &mut Bench, name: &'static str, seed: u64) -> Result<(), Failure> {
    bench.script(&smalldays::random_days(name, seed, 6), SMALL_LOOK)
}

/// The days that a script of this profile and seed saves, and the one at its end.
fn days_of(profile: &str, seed: u64) -> Vec<Vec<u8>> {
    let mut player = Player::new();
    for line in lines(&scripts::script(profile, seed)) {
        player.play(line);
    }
    let mut days: Vec<Vec<u8>> = player.saved.values().cloned().collect();
    days.push(day_of(&player));
    days
}

/// Damaged days put to the checker, and some of them to the programs.
fn run_damage(bench: &mut Bench, name: &'static str, seed: u64) -> Result<(), Failure> {
    let mut random = Random::new(name, seed);
    let profile = match random.below(60) {
        0 => "log-full",
        1 => "give-ups",
        _ => random.pick(&[
            "short",
            "short",
            "few-cells",
            "posts",
            "days",
            "full-house",
            "mixed",
        ]),
    };
    let days = days_of(profile, random.next());
    for i in 0..60 {
        let day = damage::damaged(&mut random, &days[i % days.len()]);
        let accepts = if i % 12 == 0 { 2 } else { 0 };
        bench.day(&day, &mut random, accepts)?;
        if i % 6 == 0 {
            reported(bench, &day)?;
        }
    }
    Ok(())
}

/// Puts a day to the report; a difference is kept as a question.
fn reported(bench: &mut Bench, day: &[u8]) -> Result<(), Failure> {
    let result = bench.report(day);
    result.map_err(|difference| Failure::question(&Question::on_day(day, 1, &[1]), difference))
}

/// Logs that no machine would write: every list where there are few transactions, lists of many kinds on the others.
fn run_logs(bench: &mut Bench, name: &'static str, seed: u64) -> Result<(), Failure> {
    let mut random = Random::new(name, seed);
    for i in 0..20 {
        let most = random.pick(&[2, 3, 4, usize::MAX, usize::MAX]);
        let day = logs::random_day(Random::new(name, random.next()), most);
        let (opening, log) = day.split_at(OPENING);
        let history = daylog::read_log(log).unwrap_or_default();
        if most <= 4 {
            let opening = checker::table_from(opening).unwrap_or([[0; 8]; 32]);
            for one in transactions(&history) {
                small::accepted_lists(bench, &opening, &history, one.begin)?;
            }
        }
        let accepts = if i == 0 { 3 } else { 0 };
        bench.day(&day, &mut random, accepts)?;
        if i < 2 {
            reported(bench, &day)?;
        }
        let spoilt = damage::damaged(&mut random, &day);
        bench.day(&spoilt, &mut random, 0)?;
    }
    Ok(())
}

/// The entry for C with an opening table of any length, a list of odd bytes, any bytes as log.
fn run_entry(bench: &mut Bench, name: &'static str, seed: u64) -> Result<(), Failure> {
    let mut random = Random::new(name, seed);
    let days = days_of("short", random.next());
    for i in 0..100 {
        let day = &days[i % days.len()];
        let mut opening = day[..OPENING].to_vec();
        let mut log = day[OPENING..].to_vec();
        let mut list = list_bytes(&[1, random.between(1, 9) as u16]);
        if random.chance(300) {
            opening.resize(random.pick(&[0, 1, 8, 128, 255, 257, 272, 512]), 0);
        }
        if random.chance(300) {
            list.resize(random.pick(&[0, 1, 2, 3, 5, 63, 64, 65, 66, 67, 1001]), 0);
        }
        match random.below(6) {
            0 => log = any_bytes(&mut random),
            1 => log = log_bytes(&[]),
            2 => log.clear(),
            _ => {}
        }
        let begin = random.pick(&[0, 1, 1, 1, 2, 3, 65_537, u32::MAX]);
        bench.question(&Question {
            opening,
            log,
            begin,
            list,
        })?;
    }
    Ok(())
}

/// Any bytes, of a length that a log may have, mostly, and sometimes with the letters at the end.
fn any_bytes(random: &mut Random) -> Vec<u8> {
    let length = random.pick(&[
        1, 15, 16, 17, 32, 48, 160, 1600, 64_000, 64_016, 64_017, 64_032,
    ]);
    let most = random.pick(&[2, 10, 256]);
    let mut bytes: Vec<u8> = (0..length).map(|_| random.below(most) as u8).collect();
    if length >= 16 && random.chance(500) {
        let trailer = daylog::trailer_bytes(length / 16 - 1, random.below(4));
        bytes[length - 16..].copy_from_slice(&trailer);
    }
    bytes
}

/// Words for `accept` that are no numbers, or look so.
const WORDS: &[&str] = &[
    "",
    "x",
    "1x",
    "x1",
    "-1",
    "+1",
    " 1",
    "1 ",
    "1.0",
    "0x1",
    "1e0",
    "\t1",
    "#1",
    "01",
    "0000000001",
    "0",
    "1",
    "2",
    "4",
    "65535",
    "65536",
    "065535",
    "065536",
    "4294967295",
    "4294967296",
    "18446744073709551617",
    "\u{661}",
    "--",
    "-h",
];

/// Words of any kind put to the program `accept`, on a day, a damaged one and one that is too short.
fn run_words(bench: &mut Bench, name: &'static str, seed: u64) -> Result<(), Failure> {
    let mut random = Random::new(name, seed);
    let day = days_of("short", random.next()).pop().unwrap_or_default();
    let days = [
        day.clone(),
        day[..day.len() - 1].to_vec(),
        day[..100].to_vec(),
        Vec::new(),
    ];
    for i in 0..60 {
        let mut words: Vec<Vec<u8>> = Vec::new();
        for _ in 0..random.pick(&[0, 1, 2, 2, 3, 3, 4, 5, 33, 34, 40, 3000]) {
            words.push(any_word(&mut random));
        }
        let day = &days[if i % 3 == 0 { random.below(4) } else { 0 }];
        bench.accept_words(day, &words).map_err(|difference| {
            let said: Vec<String> = words
                .iter()
                .map(|word| format!("{:?}", String::from_utf8_lossy(word)))
                .collect();
            Failure::other(format!("accept {}: {difference}", said.join(" ")))
        })?;
    }
    Ok(())
}

/// A word for `accept`: mostly a number.
fn any_word(random: &mut Random) -> Vec<u8> {
    match random.below(12) {
        0 | 1 => random.pick(WORDS).as_bytes().to_vec(),
        2 => {
            let mut word = vec![b'0'; random.pick(&[100, 4094, 4095, 4096])];
            word.push(b'1');
            word
        }
        3 => vec![random.between(1, 255) as u8],
        _ => random.between(1, 12).to_string().into_bytes(),
    }
}
