//! Holds the built programs of Nogturshan against a model that is written from document 01 alone.
//!
//!   model [long [N]] [--seed N] [--profile NAME] [--self-test]
//!
//! Run in the repository's folder, after the programs are built; tests/model.sh does so.

mod badlines;
mod breaks;
mod cases;
mod checker;
mod damage;
mod daylog;
mod failure;
mod history;
mod judging;
mod lists;
mod logs;
mod profiles;
mod programs;
mod random;
mod report;
mod rules;
mod run;
mod schedules;
mod script;
mod scripts;
mod selftest;
mod shrink;
mod small;
mod smalldays;
mod tally;
mod tinylogs;
mod trial;
mod trials;
mod writer;

use std::path::{Path, PathBuf};
use std::process::exit;

use failure::Failure;
use profiles::Profile;
use run::{bench, Item};
use shrink::Effort;
use tally::Tally;

/// As many threads as the machine of the gate has cores.
const THREADS: usize = 2;
/// The first seed of a default run.
const FIRST_SEED: u64 = 1;

/// What the arguments ask for.
struct Options {
    times: u64,
    long: bool,
    seed: Option<u64>,
    profile: Option<String>,
    broken: bool,
    short: bool,
    only_cases: bool,
    self_test: bool,
    cases: PathBuf,
}

/// Ends with a word on how to call it.
fn usage() -> ! {
    eprintln!("usage: model [long [N]] [--seed N] [--profile NAME] [--self-test]");
    exit(2)
}

/// The options that the arguments name.
fn options() -> Options {
    let mut options = Options {
        times: 1,
        long: false,
        seed: None,
        profile: None,
        broken: false,
        short: false,
        only_cases: false,
        self_test: false,
        cases: PathBuf::from("tests/cases"),
    };
    let mut arguments = std::env::args().skip(1).peekable();
    while let Some(argument) = arguments.next() {
        match argument.as_str() {
            "long" => {
                options.long = true;
                options.times = arguments
                    .next_if(|next| !next.starts_with("--"))
                    .map_or(12, |next| whole(&next));
            }
            "--seed" => options.seed = Some(whole(&arguments.next().unwrap_or_default())),
            "--profile" => options.profile = arguments.next(),
            "--break" => {
                options.broken = true;
                if !breaks::break_rule(&arguments.next().unwrap_or_default()) {
                    usage();
                }
            }
            "--short" => options.short = true,
            "--only-cases" => options.only_cases = true,
            "--self-test" => options.self_test = true,
            "--cases" => options.cases = arguments.next().map_or_else(|| usage(), PathBuf::from),
            _ => usage(),
        }
    }
    options
}

/// A whole number from a word.
fn whole(word: &str) -> u64 {
    word.parse().unwrap_or_else(|_| usage())
}

/// What is run: the seeds of the profiles.
fn plan(options: &Options) -> Vec<Item> {
    let mut items = Vec::new();
    let wanted = |profile: &Profile| {
        options
            .profile
            .as_ref()
            .is_none_or(|name| name == profile.name)
    };
    let first = match (options.seed, options.long) {
        (Some(seed), _) => seed,
        (None, true) => FIRST_SEED + 1_000_000,
        (None, false) => FIRST_SEED,
    };
    for profile in profiles::ALL.iter().filter(|profile| wanted(profile)) {
        let count = match (
            options.profile.is_some() && options.seed.is_some(),
            options.short,
        ) {
            (true, _) => 1,
            (_, true) => profile.short,
            _ => (profile.count * options.times).min(profiles::most(profile.name)),
        };
        println!("{:<14} seeds from {first}, {count} of them", profile.name);
        items.extend((first..first + count).map(|seed| Item { profile, seed }));
    }
    items
}

/// Runs the cases that stand in the folder, and the long trials; gives false if one fails.
fn run_cases(root: &Path, options: &Options, tally: &mut Tally) -> bool {
    let mut bench = bench(root, 0);
    let mut count = match cases::run(&mut bench, &options.cases) {
        Ok(count) => count,
        Err((path, failure)) => {
            println!(
                "DIFFERENCE found by the case {}: {}",
                path.display(),
                failure.difference
            );
            return false;
        }
    };
    if !options.only_cases {
        for (name, script) in trials::all() {
            if let Err(failure) = cases::run_script(&mut bench, &script) {
                println!(
                    "DIFFERENCE found by the trial {name}: {}",
                    failure.difference
                );
                return false;
            }
            count += 1;
        }
    }
    if breaks::nothing_broken() && !trials::report_is_the_documents() {
        println!("DIFFERENCE the model's report on case A is not that of document 01");
        return false;
    }
    println!("{count} cases agree");
    tally.add(&bench.tally);
    true
}

/// Makes a failing input small, keeps it, and says what it is.
fn failed(root: &Path, options: &Options, item: &Item, failure: Failure) {
    let (profile, seed) = (item.profile.name, item.seed);
    println!(
        "DIFFERENCE found by {profile}, seed {seed}: {}",
        failure.difference
    );
    let effort = match options.short {
        true => Effort {
            inputs: 40,
            lines: 15_000,
        },
        false => Effort {
            inputs: 2000,
            lines: 1_500_000,
        },
    };
    let small = shrink::shrink(&mut bench(root, 0), failure, effort);
    println!("made small: {}", small.difference);
    if let Some(path) = cases::keep(&options.cases, &format!("{profile}-{seed}"), &small) {
        println!("kept as {}", path.display());
    }
    println!("to repeat it: tests/model.sh --profile {profile} --seed {seed}");
}

/// The last lines: what was run.
fn summary(tally: &Tally) {
    tally.print_numbers();
    println!(
        "{} scripts, {} calls, {} of them judged, {} Conflicts, {} days closed or opened anew",
        tally.scripts,
        tally.calls(),
        tally.judged,
        tally.conflicts,
        tally.days
    );
    println!(
        "{} lists put to the checker, {} of them accepted; every list at {} judged calls; {} programs run",
        tally.lists, tally.accepted, tally.weighed, tally.processes
    );
}

/// Says what is missing, if something is.
fn look_for_programs(root: &Path) {
    for name in ["play", "report", "accept"] {
        if !root.join("target/bin").join(name).exists() {
            eprintln!("target/bin/{name} is not built");
            exit(1);
        }
    }
}

/// Runs the seeds that the options ask for; gives whether model and machine agree.
fn run_profiles(root: &Path, options: &Options, tally: &mut Tally) -> bool {
    let items = plan(options);
    if items.is_empty() {
        usage();
    }
    let threads = if options.short { 1 } else { THREADS };
    let outcome = run::run(root, &items, threads);
    if let Some((i, failure)) = outcome.failed {
        failed(root, options, &items[i], failure);
        return false;
    }
    tally.add(&outcome.tally);
    summary(tally);
    true
}

/// Runs the self-test; gives whether every broken rule was found.
fn run_self_test(root: &Path) -> bool {
    println!("with one rule of the model broken, a difference is found and made small, and the kept case fails again:");
    let all = selftest::run(root, THREADS);
    let count = breaks::ALL.len();
    println!(
        "{}",
        if all {
            format!("all {count} broken rules are found")
        } else {
            "not every broken rule is found".to_string()
        }
    );
    all
}

/// Whether every call met every number that it can meet.
fn all_met(tally: &Tally) -> bool {
    let never_met = tally.never_met();
    if !never_met.is_empty() {
        println!("never met: {}", never_met.join(", "));
    }
    never_met.is_empty()
}

fn main() {
    let options = options();
    let root = std::env::current_dir().expect("a folder to run in");
    look_for_programs(&root);
    let mut tally = Tally::default();
    let whole = !options.broken && !options.short && options.profile.is_none();
    let with_cases = options.only_cases || (whole && !options.self_test);
    let mut agree = !with_cases || run_cases(&root, &options, &mut tally);
    if options.only_cases {
        exit(if agree { 0 } else { 1 });
    }
    agree = agree && (!whole || run_self_test(&root));
    if options.self_test {
        exit(if agree { 0 } else { 1 });
    }
    agree = agree && run_profiles(&root, &options, &mut tally);
    agree = agree && (!whole || all_met(&tally));
    if !agree {
        exit(1);
    }
    println!("model and machine agree");
}
