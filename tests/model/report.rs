//! The report program's text.

use crate::breaks::{broken, Break};
use crate::daylog::{commits, read_log, OPENING};
use crate::history::{transactions, Stands};
use crate::judging::moment;
use crate::rules::{BAD_LOG, LENT};

/// How a transaction stands, in a word.
fn word(stands: Stands) -> &'static str {
    match stands {
        Stands::Live => "live",
        Stands::Committed => "committed",
        Stands::GaveUp => "gaveup",
        Stands::Conflict => "conflict",
        Stands::Post if broken(Break::PostStands) => "committed",
        Stands::Post => "post",
    }
}

/// The report on 256 opening bytes and a log: records and commits; then each transaction's begin record, place, how it stands, moment.
pub fn report_text(input: &[u8]) -> String {
    if input.len() < OPENING {
        return format!("refused {LENT}\n");
    }
    let Some(history) = read_log(&input[OPENING..]) else {
        return format!("refused {BAD_LOG}\n");
    };
    let mut text = format!("records {} commits {}\n", history.len(), commits(&history));
    for one in transactions(&history) {
        let (begin, place, stands) = (one.begin, one.place, word(one.stands));
        text += &format!("{begin} place {place} {stands} moment {}\n", moment(&one));
    }
    text
}
