//! Generators of scripts, by profile.

use crate::badlines::bad_line;
use crate::random::Random;
use crate::rules::{Status, MOST_RECORDS, PLACES};
use crate::writer::{Values, Writer};

/// What a plain profile is made of: ranges from which a script chooses, and how often it makes each call.
struct Plain {
    name: &'static str,
    lines: (usize, usize),
    cells: (usize, usize),
    live: (usize, usize),
    wild: usize,
    /// begin, read, write, commit, give up, post, order, end of the day, close, open, save, table, log, bad line
    weights: [usize; 14],
}

/// The plain profiles.
const PLAIN: &[Plain] = &[
    Plain {
        name: "short",
        lines: (5, 60),
        cells: (1, 6),
        live: (1, 5),
        wild: 40,
        weights: [120, 250, 200, 130, 20, 40, 60, 8, 8, 3, 8, 5, 5, 5],
    },
    Plain {
        name: "few-cells",
        lines: (60, 400),
        cells: (2, 4),
        live: (3, 10),
        wild: 15,
        weights: [120, 300, 220, 130, 15, 25, 60, 3, 3, 1, 4, 3, 1, 1],
    },
    Plain {
        name: "many-cells",
        lines: (200, 900),
        cells: (12, 32),
        live: (8, 32),
        wild: 15,
        weights: [100, 400, 260, 50, 20, 10, 40, 2, 3, 1, 2, 3, 1, 1],
    },
    Plain {
        name: "handles",
        lines: (60, 300),
        cells: (2, 32),
        live: (2, 12),
        wild: 450,
        weights: [150, 200, 200, 110, 50, 60, 90, 4, 5, 3, 3, 3, 1, 2],
    },
    Plain {
        name: "posts",
        lines: (40, 200),
        cells: (1, 5),
        live: (1, 6),
        wild: 25,
        weights: [80, 250, 120, 100, 30, 150, 70, 10, 5, 2, 4, 4, 2, 1],
    },
    Plain {
        name: "days",
        lines: (150, 600),
        cells: (2, 6),
        live: (1, 6),
        wild: 30,
        weights: [120, 250, 180, 120, 25, 40, 60, 40, 25, 12, 12, 5, 5, 2],
    },
    Plain {
        name: "lines",
        lines: (40, 200),
        cells: (2, 5),
        live: (1, 6),
        wild: 60,
        weights: [80, 120, 100, 60, 15, 30, 30, 5, 5, 2, 3, 4, 2, 450],
    },
    Plain {
        name: "give-ups",
        lines: (1000, 5000),
        cells: (2, 12),
        live: (2, 20),
        wild: 10,
        weights: [160, 350, 200, 12, 150, 3, 20, 1, 1, 0, 1, 1, 0, 1],
    },
    Plain {
        name: "full-house",
        lines: (120, 400),
        cells: (2, 32),
        live: (26, 33),
        wild: 15,
        weights: [300, 150, 100, 90, 8, 60, 30, 0, 4, 0, 2, 2, 1, 1],
    },
];

/// Takes a plain profile up: cells, live ones, values.
fn take_up(writer: &mut Writer, plain: &Plain) -> usize {
    writer.cells = writer.random.between(plain.cells.0, plain.cells.1);
    writer.values = writer
        .random
        .pick(&[Values::Few, Values::Unique, Values::Any]);
    writer.wild = plain.wild;
    writer.random.between(plain.live.0, plain.live.1)
}

/// One call or so of a plain profile.
fn step(writer: &mut Writer, plain: &Plain, live: usize) {
    if writer.random.chance(50) && writer.conflict() {
        return;
    }
    let few_live = 2 * writer.live() < live && !writer.places(Status::Free).is_empty();
    if few_live && writer.random.chance(400) {
        return writer.begin();
    }
    match writer.random.weighted(&plain.weights) {
        0 if writer.live() < live => writer.begin(),
        0 => writer.read(),
        1 => writer.read(),
        2 => writer.write(),
        3 => writer.commit(),
        4 => writer.give_up(),
        5 => writer.post(),
        6 => writer.order(),
        7 => writer.end_day(),
        8 => writer.text("close"),
        9 => writer.text("open"),
        10 => writer.save(),
        11 => writer.text("table"),
        12 => writer.text("log"),
        _ => bad_line(writer),
    }
    if writer.live() == 0 && !writer.places(Status::Committed).is_empty() {
        house_may_be_full(writer);
    }
}

/// With no place free and nobody live a day can only be closed; mostly it is.
fn house_may_be_full(writer: &mut Writer) {
    if writer.places(Status::Free).is_empty() && writer.random.chance(500) {
        writer.end_day();
    }
}

/// A script of one plain profile.
fn plain(writer: &mut Writer, plain: &Plain) {
    let lines = writer.random.between(plain.lines.0, plain.lines.1);
    let live = take_up(writer, plain);
    while writer.player.line < lines {
        step(writer, plain, live);
    }
    writer.end();
}

/// A script that goes from one plain profile to another.
fn mixed(writer: &mut Writer) {
    for _ in 0..writer.random.between(2, 6) {
        let plain = &PLAIN[writer.random.below(PLAIN.len())];
        let live = take_up(writer, plain);
        let end = writer.player.line + writer.random.between(20, 120);
        while writer.player.line < end {
            step(writer, plain, live);
        }
    }
    writer.end();
}

/// Calls that add records and leave the live ones as they are, until records plus live ones come to this.
/// Only some cells are written, so that reads of the others are judged.
fn fill(writer: &mut Writer, target: usize) {
    let cells = writer.cells;
    while writer.records() + writer.live() < target {
        let room = target - writer.records() - writer.live();
        match writer.random.below(8) {
            0..=2 => writer.read(),
            3 if room >= 2 && !writer.places(Status::Free).is_empty() => {
                let place = writer.places(Status::Free)[0];
                writer.begin();
                let line = format!("giveup {}", writer.handle_of(place));
                writer.text(&line);
            }
            _ => {
                writer.cells = cells / 2;
                writer.write();
                writer.cells = cells;
            }
        }
        if writer.live() == 0 {
            writer.begin();
        }
    }
}

/// Every call that can meet Log full, in any order, each at most once.
fn all_that_meet_log_full(writer: &mut Writer) {
    let mut calls = [0, 1, 2, 3];
    writer.random.shuffle(&mut calls);
    for call in calls {
        // one record short of the bound a begin is refused already: it is tried there before the room is gone
        if writer.records() + writer.live() + 1 == MOST_RECORDS && writer.random.chance(700) {
            writer.begin();
        }
        if writer.random.chance(400) {
            writer.conflict();
        }
        if writer.random.chance(700) {
            match call {
                0 => writer.begin(),
                1 => writer.post(),
                2 => writer.write(),
                _ => writer.read(),
            }
        }
    }
}

/// A day that comes near to 4,000 records, with none, one or several live ones at the bounds.
fn log_full(writer: &mut Writer) {
    writer.cells = writer.random.between(2, 8);
    writer.values = Values::Any;
    let live = writer.random.pick(&[1, 1, 2, 3, 3, 8, 31]);
    for _ in 0..live {
        writer.begin();
    }
    let posts = if writer.random.chance(400) {
        PLACES - live
    } else {
        writer.random.below(6).min(PLACES - live)
    };
    for _ in 0..posts {
        writer.post();
    }
    let target = writer.random.between(MOST_RECORDS - 5, MOST_RECORDS - 1);
    fill(writer, target);
    writer.wild = 30;
    if writer.random.chance(300) {
        writer.end_all();
    }
    while writer.records() < MOST_RECORDS && writer.live() > 0 {
        for _ in 0..writer.random.between(1, 3) {
            all_that_meet_log_full(writer);
        }
        if writer.random.chance(500) {
            writer.commit();
        } else {
            writer.give_up();
        }
    }
    for _ in 0..4 {
        all_that_meet_log_full(writer);
        writer.order();
    }
    writer.end();
    writer.end_day();
    all_that_meet_log_full(writer);
    writer.end();
}

/// A day with just so many records and nobody live: begin, post, and what follows.
fn log_full_none_live(writer: &mut Writer) {
    let target = writer.random.between(MOST_RECORDS - 4, MOST_RECORDS);
    for _ in 0..writer.random.below(4) {
        writer.post();
    }
    while writer.records() < target {
        if writer.records() + 1 == target {
            writer.post();
            continue;
        }
        writer.begin();
        let handle = writer.handle(Status::Live);
        let most = (target - writer.records() - 1).min(writer.random.between(0, 60));
        for _ in 0..most {
            let line = format!("read {handle} {}", writer.cell());
            writer.text(&line);
        }
        if writer.live() > 0 {
            let call = if writer.random.chance(50) {
                "commit"
            } else {
                "giveup"
            };
            writer.text(&format!("{call} {handle}"));
        }
    }
    for _ in 0..6 {
        all_that_meet_log_full(writer);
        if writer.random.chance(400) {
            writer.commit();
        }
    }
    writer.end();
    writer.end_day();
    writer.end();
}

/// A house with 32 held, live or committed, and what Full does there.
fn house(writer: &mut Writer) {
    let posts = writer.random.pick(&[0, 0, 16, 32]);
    while !writer.places(Status::Free).is_empty() {
        if writer.places(Status::Committed).len() < posts {
            writer.post();
        } else {
            writer.begin();
        }
    }
    for _ in 0..writer.random.between(10, 200) {
        match writer.random.below(12) {
            0 => writer.begin(),
            1 => writer.post(),
            2 => writer.commit(),
            3 => writer.give_up(),
            4..=7 => writer.write(),
            8 => writer.order(),
            _ => writer.read(),
        }
    }
    while writer.live() > 0 {
        let line = format!("commit {}", writer.handle(Status::Live));
        writer.text(&line);
        if writer.random.chance(200) {
            writer.begin();
        }
    }
    writer.end();
    writer.text("close");
    writer.end();
}

/// A place that is used 65,536 times and more: its turn passes from 65,535 to 0, and an old handle is valid again.
fn turn_wrap(writer: &mut Writer) {
    let below = writer.random.pick(&[0, 0, 1, 5, 31]);
    let old = below as u32 + 32;
    let start = 65_530 - writer.random.below(20);
    for _ in 0..below {
        writer.begin();
    }
    let mut uses = 0;
    while uses < start {
        writer.begin();
        uses += 1;
        if uses == 1 {
            let line = format!("read {old} 0");
            writer.text(&line);
        }
        let line = format!("giveup {}", writer.handle_of(below));
        writer.text(&line);
        if writer.records() + 2 * writer.live() + 4 > MOST_RECORDS {
            for place in 0..below {
                let line = format!("giveup {}", writer.handle_of(place));
                writer.text(&line);
            }
            writer.text("close");
            for _ in 0..below {
                writer.begin();
            }
        }
    }
    around_the_wrap(writer, below, old);
    writer.end();
}

/// Calls with handles around the wrap of a place's turn.
fn around_the_wrap(writer: &mut Writer, place: usize, old: u32) {
    for _ in 0..writer.random.between(24, 40) {
        if writer.records() + writer.live() + 8 > MOST_RECORDS {
            writer.end_all();
            writer.text("close");
            continue;
        }
        if writer.random.chance(200) {
            bad_line(writer);
        }
        writer.begin();
        let right = writer.handle_of(place);
        for handle in [
            right,
            right ^ 2_097_120,
            old,
            place as u32,
            2_097_120 + place as u32,
        ] {
            let call = writer.random.pick(&["order", "write", "read"]);
            let line = match call {
                "order" => format!("order {handle}"),
                "read" => format!("read {handle} {}", writer.cell()),
                _ => format!("write {handle} {} {}", writer.cell(), writer.value()),
            };
            writer.text(&line);
        }
        if writer.places(Status::Live).contains(&place) {
            let line = format!("giveup {right}");
            writer.text(&line);
        }
    }
}

/// The script of a profile and a seed.
pub fn script(name: &str, seed: u64) -> Vec<u8> {
    let mut writer = Writer::new(Random::new(name, seed));
    match name {
        "mixed" => mixed(&mut writer),
        "house" => house(&mut writer),
        "log-full" => log_full(&mut writer),
        "log-full-none" => log_full_none_live(&mut writer),
        "turn-wrap" => turn_wrap(&mut writer),
        _ => {
            let found = PLAIN.iter().find(|plain| plain.name == name);
            plain(&mut writer, found.expect("a plain profile of this name"));
        }
    }
    if writer.random.chance(300) {
        bad_line(&mut writer);
    }
    if writer.random.chance(300) {
        writer.script.pop();
    }
    writer.script
}
