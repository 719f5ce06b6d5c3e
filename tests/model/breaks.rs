//! Rules made wrong on purpose, one at a time, to show that a wrong rule is found.
//!
//! Without `--break` none of them is broken, and the model says what document 01 says.

use std::sync::OnceLock;

/// A rule of document 01 that can be broken.
#[derive(Clone, Copy, Debug, PartialEq, Eq)]
pub enum Break {
    LowestPlace,
    TurnWrap,
    TurnsKept,
    OpenTurns,
    LogFullBegin,
    LogFullRead,
    LogFullEnd,
    TestOrder,
    LentLate,
    FullLate,
    CellLate,
    ConflictFirst,
    StaleTurn,
    OrderEnded,
    OwnRead,
    ZeroRead,
    NoRecord,
    ConflictFrees,
    CommitAll,
    OpeningTable,
    RealTime,
    WriteWrite,
    WriteRead,
    ReadWrite,
    FirstRead,
    ReadChanged,
    LiveReaders,
    GivenUpReaders,
    ConflictAll,
    GrantAll,
    Moment,
    LowestBegin,
    CommitOrder,
    TrailerPosts,
    LayoutTurn,
    LayoutOwn,
    LayoutCommitted,
    LayoutValue,
    LayoutLength,
    ListRealTime,
    ListWriteWrite,
    ListWriteRead,
    ListReadWrite,
    EveryList,
    NoList,
    Repeats,
    LeftOut,
    Values,
    OwnValue,
    Replay,
    PostStands,
    LineLength,
}

/// Every break: its name, and how the model is wrong then.
pub const ALL: &[(&str, Break, &str)] = &[
    (
        "lowest-place",
        Break::LowestPlace,
        "begin and post take the highest free place",
    ),
    (
        "turn-wrap",
        Break::TurnWrap,
        "a turn passes from 65,535 to 1",
    ),
    ("turns-kept", Break::TurnsKept, "close sets the turns to 0"),
    ("open-turns", Break::OpenTurns, "open keeps the turns"),
    (
        "log-full-begin",
        Break::LogFullBegin,
        "a begin needs no room for its end",
    ),
    (
        "log-full-read",
        Break::LogFullRead,
        "a read meets Log full one record later",
    ),
    (
        "log-full-end",
        Break::LogFullEnd,
        "a commit meets Log full as a write does",
    ),
    (
        "test-order",
        Break::TestOrder,
        "Cell is tested before Stale and Ended",
    ),
    (
        "lent-late",
        Break::LentLate,
        "the length of a written value is tested after Stale and Ended",
    ),
    (
        "full-late",
        Break::FullLate,
        "Log full is tested before Full",
    ),
    (
        "cell-late",
        Break::CellLate,
        "a post tests Full before Cell",
    ),
    (
        "conflict-first",
        Break::ConflictFirst,
        "a read tests Conflict before Log full",
    ),
    (
        "stale-turn",
        Break::StaleTurn,
        "the turn of a handle is not looked at",
    ),
    (
        "order-ended",
        Break::OrderEnded,
        "order of a committed transaction meets Ended",
    ),
    (
        "own-read",
        Break::OwnRead,
        "a read of a written cell shows the table",
    ),
    ("zero-read", Break::ZeroRead, "a judged read shows zero"),
    ("no-record", Break::NoRecord, "an own read adds no record"),
    (
        "conflict-frees",
        Break::ConflictFrees,
        "Conflict leaves its place live",
    ),
    (
        "commit-all",
        Break::CommitAll,
        "a commit takes only the lowest written cell into the table",
    ),
    (
        "opening-table",
        Break::OpeningTable,
        "a close keeps the old opening table",
    ),
    (
        "real-time",
        Break::RealTime,
        "the judging has no pairs of real time",
    ),
    (
        "write-write",
        Break::WriteWrite,
        "the judging has no pairs of write then write",
    ),
    (
        "write-read",
        Break::WriteRead,
        "the judging has no pairs of write then read",
    ),
    (
        "read-write",
        Break::ReadWrite,
        "the judging has no pairs of read then write",
    ),
    (
        "first-read",
        Break::FirstRead,
        "only the first read of a transaction is judged",
    ),
    (
        "read-changed",
        Break::ReadChanged,
        "Conflict if a cell that was read has changed since",
    ),
    (
        "live-readers",
        Break::LiveReaders,
        "live readers are of the company",
    ),
    (
        "given-up-readers",
        Break::GivenUpReaders,
        "readers that gave up are of the company",
    ),
    (
        "conflict-all",
        Break::ConflictAll,
        "every judged call meets Conflict",
    ),
    (
        "grant-all",
        Break::GrantAll,
        "no judged call meets Conflict",
    ),
    (
        "moment",
        Break::Moment,
        "a read that met Conflict is a moment",
    ),
    (
        "lowest-begin",
        Break::LowestBegin,
        "the given order takes the highest begin record",
    ),
    (
        "commit-order",
        Break::CommitOrder,
        "the given order is the order of the commits",
    ),
    (
        "trailer-posts",
        Break::TrailerPosts,
        "the trailer's total leaves out the posts",
    ),
    (
        "layout-turn",
        Break::LayoutTurn,
        "a record may have another turn than its place",
    ),
    (
        "layout-own",
        Break::LayoutOwn,
        "a judged read may name a cell that was written before",
    ),
    (
        "layout-committed",
        Break::LayoutCommitted,
        "a begin may name a committed place",
    ),
    (
        "layout-value",
        Break::LayoutValue,
        "an unused value may be anything",
    ),
    (
        "layout-length",
        Break::LayoutLength,
        "a log may have 4,001 records",
    ),
    (
        "list-real-time",
        Break::ListRealTime,
        "the checker has no pairs of real time",
    ),
    (
        "list-write-write",
        Break::ListWriteWrite,
        "the checker has no pairs of write then write",
    ),
    (
        "list-write-read",
        Break::ListWriteRead,
        "the checker has no pairs of write then read",
    ),
    (
        "list-read-write",
        Break::ListReadWrite,
        "the checker has no pairs of read then write",
    ),
    ("every-list", Break::EveryList, "every list is accepted"),
    ("no-list", Break::NoList, "no list is accepted"),
    (
        "repeats",
        Break::Repeats,
        "a list may name a transaction twice",
    ),
    (
        "left-out",
        Break::LeftOut,
        "a list may leave out one of the company",
    ),
    (
        "values",
        Break::Values,
        "the values of judged reads are not looked at",
    ),
    (
        "own-value",
        Break::OwnValue,
        "the values of own reads are not looked at",
    ),
    (
        "replay",
        Break::Replay,
        "values are replayed by commit record, not in the list's order",
    ),
    (
        "post-stands",
        Break::PostStands,
        "the report calls a post committed",
    ),
    (
        "line-length",
        Break::LineLength,
        "a line may have 256 bytes",
    ),
];

static BROKEN: OnceLock<Break> = OnceLock::new();

/// Breaks the rule with this name, for the rest of the run; false if there is none.
pub fn break_rule(name: &str) -> bool {
    match ALL.iter().find(|one| one.0 == name) {
        Some(found) => BROKEN.set(found.1).is_ok(),
        None => false,
    }
}

/// Whether this rule is broken.
pub fn broken(rule: Break) -> bool {
    BROKEN.get() == Some(&rule)
}

/// Whether every rule is as document 01 has it.
pub fn nothing_broken() -> bool {
    BROKEN.get().is_none()
}
