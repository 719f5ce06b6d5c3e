//! The trials of document 01 that take a long script: days near 4,000 records, a full house, a turn that wraps.

use crate::report::report_text;
use crate::rules::{MOST_RECORDS, PLACES};
use crate::script::{lines, Player};
use crate::trial::day_of;

/// A name, and a script in which comments say what document 01 tells.
pub type Trial = (&'static str, Vec<u8>);

/// Begins and give ups of place 0 from this turn on, so many of each, a day closed when it is full.
fn uses(from: usize, times: usize, per_day: usize) -> String {
    let mut text = String::new();
    for i in 0..times {
        text += &format!("begin\ngiveup {}\n", 32 * ((from + i + 1) % 65_536));
        if (i + 1) % per_day == 0 {
            text += "close\n";
        }
    }
    text
}

/// Records 3,998, none live: begin granted.
fn records_3998() -> String {
    let handle = 32 * MOST_RECORDS / 2;
    uses(0, 1999, usize::MAX)
        + &format!("begin # => begin 0 {handle}\nsave day\ncommit {handle} # => commit 0\nlog\n")
}

/// Records 3,999, none live: begin 7, post granted.
fn records_3999() -> String {
    let mut text = uses(0, 1999, usize::MAX);
    text += "post 0 0000000000000001 # => post 0 64000\nbegin # => begin 7\n";
    text += "post 0 0000000000000002 # => post 0 33\npost 0 0000000000000003 # => post 7\nbegin # => begin 7\nsave day\n";
    text
}

/// Records 3,999, one live: read 7, commit goes on.
fn records_3999_live() -> String {
    let mut text = uses(0, 1998, usize::MAX);
    let handle = 32 * 1999;
    text += &format!("begin\nread {handle} 0\nread {handle} 0\n");
    text +=
        &format!("read {handle} 0 # => read 7\nwrite {handle} 0 0000000000000001 # => write 7\n");
    text += &format!("begin # => begin 7\npost 1 0000000000000001 # => post 7\ncommit {handle} # => commit 0\nlog\nsave day\n");
    text
}

/// 32 held: begin 6. One gives up: next begin takes its place, turn one up.
fn full_house() -> String {
    let mut text = "begin\n".repeat(PLACES);
    text += "begin # => begin 6\npost 0 0000000000000001 # => post 6\ngiveup 45 # => giveup 0\nbegin # => begin 0 77\nbegin # => begin 6\n";
    text += "commit 77 # => commit 0\nbegin # => begin 6\ngiveup 77 # => giveup 4\nsave day\nclose # => close 8\n";
    text
}

/// Turn 65,535: next is 0. Handle 2,097,151 names place 31, turn 65,535; 2,097,152 is Stale.
fn turn_wraps() -> String {
    let mut text = uses(0, 65_534, 1990);
    text += "close\nbegin # => begin 0 2097120\norder 2097120 # => order 0 1\norder 2097152 # => order 3\norder 0 # => order 3\n";
    text += "giveup 2097120 # => giveup 0\nbegin # => begin 0 0\norder 0 # => order 0 3\norder 2097120 # => order 3\n";
    text += "giveup 0 # => giveup 0\nbegin # => begin 0 32\norder 32 # => order 0 5\nsave day\n";
    text
}

/// Place 31 at turn 65,535: its handle is 2,097,151.
fn last_handle() -> String {
    let mut text = "begin\n".repeat(31);
    let mut records = 31;
    let mut turn = 1;
    for use_of_31 in 1..65_535 {
        text += &format!("begin\ngiveup {}\n", 31 + 32 * use_of_31);
        records += 2;
        if records + 31 + 2 > MOST_RECORDS {
            (0..31).for_each(|place| text += &format!("giveup {}\n", place + 32 * turn));
            text += "close\n";
            text += &"begin\n".repeat(31);
            records = 31;
            turn += 1;
        }
    }
    text += "begin # => begin 0 2097151\nread 2097151 0 # => read 0 0000000000000000\n";
    text += "read 2097152 0 # => read 3\nwrite 2097151 1 0000000000000001 # => write 0\ncommit 2097151 # => commit 0\n";
    text += "commit 2097151 # => commit 4\ncommit 2097152 # => commit 3\nsave day\n";
    text
}

/// Case A, closed as it stands.
const CASE_A: &str = "begin\nread 32 0\nbegin\nbegin\nwrite 34 0 0000000000000007\ncommit 34\nread 33 0\nread 33 1\n\
    write 32 1 0000000000000005\ncommit 32\ncommit 33\n";

/// What document 01 says that the report prints for case A.
const REPORT_A: &str =
    "records 11 commits 2\n1 place 0 committed moment 10\n3 place 1 conflict moment 8\n\
    4 place 2 committed moment 6\n";

/// Whether the model's report on case A is document 01's.
pub fn report_is_the_documents() -> bool {
    let mut player = Player::new();
    lines(CASE_A.as_bytes())
        .into_iter()
        .for_each(|line| player.play(line));
    report_text(&day_of(&player)) == REPORT_A
}

/// All of these trials.
pub fn all() -> Vec<Trial> {
    let trials = [
        ("nothing", String::new()),
        ("no-end", "begin".to_string()),
        ("only-an-end", "\n".to_string()),
        ("only-a-comment", "# begin".to_string()),
        ("records-3998", records_3998()),
        ("records-3999", records_3999()),
        ("records-3999-live", records_3999_live()),
        ("full-house", full_house()),
        ("turn-wraps", turn_wraps()),
        ("last-handle", last_handle()),
    ];
    trials
        .into_iter()
        .map(|(name, text)| (name, text.into_bytes()))
        .collect()
}
