//! One trial of the machine against the model: a script played by both, a day put to the report, a question put to the checker.

use crate::breaks::nothing_broken;
use crate::checker;
use crate::daylog::{day_bytes, log_bytes, read_log, table_bytes, OPENING};
use crate::failure::{Failure, Question};
use crate::history::{transactions, Transaction};
use crate::judging::given_order;
use crate::lists;
use crate::programs::{entry, Programs};
use crate::random::Random;
use crate::report::report_text;
use crate::rules::{BAD_LOG, GRANTED, LENT};
use crate::script::{lines, Player};
use crate::small;
use crate::tally::Tally;

/// What a trial needs: the programs, the counts, and the lists that were accepted on small days of this script.
pub struct Bench {
    pub programs: Programs,
    pub tally: Tally,
    pub accepted: small::Accepted,
}

/// How closely a script is looked at.
#[derive(Clone, Copy)]
pub struct Look {
    /// So many questions on each saved day go to the program `accept`, too.
    pub accepts: usize,
    /// Every list is put to the checker where a day has at most so many transactions.
    pub small: usize,
}

impl Bench {
    /// Plays a script by machine and model, and looks at every line, every order given, every judged call of a small day, every saved day.
    pub fn script(&mut self, script: &[u8], look: Look) -> Result<(), Failure> {
        self.accepted.clear();
        let result = self.played(script, look);
        if result.is_err() {
            self.programs.clear();
        }
        result
    }

    /// The same, with files left behind where something differs.
    fn played(&mut self, script: &[u8], look: Look) -> Result<(), Failure> {
        let fail = |difference| Failure::script(script, difference);
        let printed = self.programs.play(script).map_err(fail)?;
        self.tally.scripts += 1;
        self.tally.processes += 1;
        let mut printed = lines(&printed).into_iter();
        let mut player = Player::new();
        for line in lines(script) {
            player.play(line);
            let said = self.same_lines(&player, &mut printed).map_err(fail)?;
            self.given(&player, &said, script, look)?;
            if player.machine.weighed.is_some() {
                small::weigh(self, &player.machine, &said, look.small, script)?;
            }
        }
        if let Some(more) = printed.next() {
            let more = String::from_utf8_lossy(more).into_owned();
            return Err(fail(format!("play goes on with \"{more}\"")));
        }
        if nothing_broken() && !player.machine.books_tell_the_history() {
            return Err(fail(
                "the model's books do not tell its history".to_string(),
            ));
        }
        self.tally.add(&player.tally);
        self.saved(&player, script, look)
    }

    /// Holds what play printed for the last line against the model; gives the first of these lines.
    fn same_lines<'a>(
        &self,
        player: &Player,
        printed: &mut impl Iterator<Item = &'a [u8]>,
    ) -> Result<String, String> {
        let mut first = String::new();
        for (i, expected) in player.printed.iter().enumerate() {
            let said = match printed.next() {
                Some(said) => String::from_utf8_lossy(said).into_owned(),
                None => "nothing more".to_string(),
            };
            if said != *expected {
                return Err(format!(
                    "line {}: play {}",
                    player.line,
                    unlike(&said, expected)
                ));
            }
            if i == 0 {
                first = said;
            }
        }
        Ok(first)
    }

    /// Puts an order that play printed to the checker, on the log as it stands.
    fn given(
        &mut self,
        player: &Player,
        said: &str,
        script: &[u8],
        look: Look,
    ) -> Result<(), Failure> {
        let Some(given) = &player.given else {
            return Ok(());
        };
        let numbers = said.split(' ').skip(2).map(|word| word.parse::<u16>());
        let order: Vec<u16> = numbers.collect::<Result<_, _>>().unwrap_or_default();
        let machine = &player.machine;
        let question = Question {
            opening: table_bytes(&machine.opening),
            log: log_bytes(&machine.history),
            begin: given.begin as u32,
            list: checker::list_bytes(&order),
        };
        let answer = self.question(&question)?;
        if answer != 0 {
            let difference = format!("line {}: the order given meets {answer}", player.line);
            return Err(Failure::script(script, difference));
        }
        small::least(self, machine, given, look.small, script)
    }

    /// Holds every saved day against the model: its bytes, the report, the checker and `accept`; and no other file was written.
    fn saved(&mut self, player: &Player, script: &[u8], look: Look) -> Result<(), Failure> {
        let fail = |difference| Failure::script(script, difference);
        let mut random = Random::new("saved", script.len() as u64);
        for (name, expected) in &player.saved {
            let day = self.programs.take_saved(name).map_err(fail)?;
            if day != *expected {
                return Err(fail(format!(
                    "the saved day {name} has other bytes than the model's"
                )));
            }
            self.report(&day).map_err(fail)?;
            self.day(&day, &mut random, look.accepts)?;
            if nothing_broken() && !everyone_has_an_order(&day) {
                return Err(fail(format!(
                    "the saved day {name} has a transaction with no order"
                )));
            }
        }
        match self.programs.other_file() {
            Some(name) => Err(fail(format!("play wrote a file {name}"))),
            None => Ok(()),
        }
    }

    /// Puts a day to the report.
    pub fn report(&mut self, day: &[u8]) -> Result<(), String> {
        let printed = self.programs.report(day)?;
        self.tally.processes += 1;
        let expected = report_text(day);
        if printed != expected {
            return Err(format!("report {}", unlike(&printed, &expected)));
        }
        let refused = printed
            .strip_prefix("refused ")
            .and_then(|rest| rest.trim().parse().ok());
        self.tally.met("report", refused.unwrap_or(0));
        Ok(())
    }

    /// Puts lists of many kinds to the checker, on a day; so many of them to `accept`, too, the order that the rule names among them.
    pub fn day(&mut self, day: &[u8], random: &mut Random, accepts: usize) -> Result<(), Failure> {
        let history = read_log(&day[day.len().min(OPENING)..]).unwrap_or_default();
        let all = transactions(&history);
        let asked = lists::questions(random, &all, history.len());
        self.questions(day, &asked)?;
        for i in 0..accepts {
            let (begin, list) = match all.last() {
                Some(one) if i == 0 => {
                    (one.begin as u32, given_order(&all, one).unwrap_or_default())
                }
                _ => asked[random.below(asked.len())].clone(),
            };
            self.accept(day, begin, &list)?;
        }
        Ok(())
    }

    /// Puts many questions on one day to the proved checker and to the model's.
    fn questions(&mut self, day: &[u8], asked: &[lists::Asked]) -> Result<(), Failure> {
        let (opening, log) = day.split_at(day.len().min(OPENING));
        let table = checker::table_from(opening);
        let all = read_log(log).map(|history| transactions(&history));
        for (begin, list) in asked {
            let expected = match (&table, &all) {
                (None, _) => LENT,
                (_, None) => BAD_LOG,
                (Some(table), Some(all)) => checker::check_day(table, all, *begin, list),
            };
            let answer = entry(opening, log, *begin, &checker::list_bytes(list));
            self.tally.list(answer);
            if answer != expected {
                return Err(differs(
                    &Question::on_day(day, *begin, list),
                    answer,
                    expected,
                ));
            }
        }
        Ok(())
    }

    /// Puts a question to the proved checker and to the model's; gives the answer.
    pub fn question(&mut self, question: &Question) -> Result<u8, Failure> {
        let Question {
            opening,
            log,
            begin,
            list,
        } = question;
        let answer = entry(opening, log, *begin, list);
        self.tally.list(answer);
        let expected = checker::check(opening, log, *begin, list);
        if answer != expected {
            return Err(differs(question, answer, expected));
        }
        Ok(answer)
    }

    /// Puts a list to the program `accept`.
    pub fn accept(&mut self, day: &[u8], begin: u32, list: &[u16]) -> Result<(), Failure> {
        let mut words = vec![begin.to_string().into_bytes()];
        words.extend(list.iter().map(|number| number.to_string().into_bytes()));
        let result = self.accept_words(day, &words);
        result.map_err(|difference| {
            Failure::question(&Question::on_day(day, begin, list), difference)
        })
    }

    /// Puts any words to the program `accept`.
    pub fn accept_words(&mut self, day: &[u8], words: &[Vec<u8>]) -> Result<(), String> {
        let printed = self.programs.accept(words, day)?;
        self.tally.processes += 1;
        let expected = checker::accept_text(words, day);
        if printed != expected {
            return Err(format!("accept {}", unlike(&printed, &expected)));
        }
        let refused = printed
            .strip_prefix("refused ")
            .and_then(|rest| rest.trim().parse().ok());
        self.tally.met("accept", refused.unwrap_or(0));
        Ok(())
    }
}

/// Says how two texts differ: their first line, and in it the first word, that is not the same.
fn unlike(printed: &str, expected: &str) -> String {
    let lines = |text: &str| {
        text.lines()
            .map(str::to_string)
            .chain(["".to_string()])
            .collect::<Vec<_>>()
    };
    let (printed, expected) = (lines(printed), lines(expected));
    let pair = printed
        .iter()
        .zip(&expected)
        .find(|(one, other)| one != other);
    let (one, other) = pair.map_or(("", ""), |(one, other)| (one.as_str(), other.as_str()));
    let same = one
        .split(' ')
        .zip(other.split(' '))
        .take_while(|(one, other)| one == other)
        .count();
    let from = |text: &str| {
        text.split(' ')
            .skip(same.saturating_sub(1))
            .take(4)
            .collect::<Vec<_>>()
            .join(" ")
    };
    let what = one.split(' ').next().unwrap_or("");
    format!(
        "prints \"{what} .. {}\", the model \"{}\"",
        from(one),
        from(other)
    )
}

/// The difference between what the checker and the model answer to a question.
fn differs(question: &Question, answer: u8, expected: u8) -> Failure {
    Failure::question(
        question,
        format!("the checker answers {answer}, the model {expected}"),
    )
}

/// Whether every transaction of a day that a machine wrote has an order that explains it, those too that gave up or met Conflict.
/// Of a long day the last ones are looked at.
fn everyone_has_an_order(day: &[u8]) -> bool {
    let (opening, log) = day.split_at(day.len().min(OPENING));
    let (Some(table), Some(history)) = (checker::table_from(opening), read_log(log)) else {
        return false;
    };
    let all = transactions(&history);
    let explained = |one: &Transaction| match given_order(&all, one) {
        Some(order) => checker::check_day(&table, &all, one.begin as u32, &order) == GRANTED,
        None => false,
    };
    all.iter().rev().take(40).all(explained)
}

/// The day that a player has come to, as `save` would write it.
pub fn day_of(player: &Player) -> Vec<u8> {
    day_bytes(&player.machine.opening, &player.machine.history)
}
