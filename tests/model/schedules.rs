//! Every short schedule: all sequences of so many calls, each granted or a Conflict, by up to three transactions over two cells.

use crate::random::Random;
use crate::rules::Status;
use crate::writer::Writer;

/// At most so many transactions begin in a schedule.
const MOST_BEGUN: usize = 3;
/// So many calls at the start of a schedule are chosen by the seed.
const CHOSEN: usize = 3;

/// The calls that can come next, as lines. Before a cell is touched only cell 0 is: the cells can be exchanged.
fn next_calls(writer: &Writer) -> Vec<String> {
    let history = &writer.player.machine.history;
    let begun = history.iter().filter(|record| record.kind.starts()).count();
    let touched = history.iter().any(|record| record.kind.uses_cell());
    let cells = if touched { 0..2 } else { 0..1 };
    let value = format!("{:016x}", 1 + history.len());
    let mut calls = Vec::new();
    if begun < MOST_BEGUN {
        calls.push("begin".to_string());
        calls.extend(cells.clone().map(|cell| format!("post {cell} {value}")));
    }
    for place in writer.places(Status::Live) {
        let handle = writer.handle_of(place);
        calls.extend(cells.clone().map(|cell| format!("read {handle} {cell}")));
        calls.extend(
            cells
                .clone()
                .map(|cell| format!("write {handle} {cell} {value}")),
        );
        calls.push(format!("commit {handle}"));
        calls.push(format!("giveup {handle}"));
    }
    calls
}

/// Every schedule of so many calls that starts with these.
fn schedules(start: Vec<String>, calls: usize) -> Vec<Vec<String>> {
    let mut all = vec![start];
    while all.first().is_some_and(|schedule| schedule.len() < calls) {
        let mut longer = Vec::new();
        for schedule in &all {
            let mut writer = Writer::new(Random::new("schedule", 0));
            schedule.iter().for_each(|line| writer.text(line));
            for call in next_calls(&writer) {
                longer.push([schedule.clone(), vec![call]].concat());
            }
        }
        all = longer;
    }
    all
}

/// How many starts the seeds choose from.
pub fn starts() -> u64 {
    schedules(Vec::new(), CHOSEN).len() as u64
}

/// A script with a day for each schedule of so many calls that has the start of this seed; at the end of a day all orders are asked for.
pub fn script(seed: u64, calls: usize) -> Vec<u8> {
    let starts = schedules(Vec::new(), CHOSEN);
    let start = starts[(seed * 1_000_003 % starts.len() as u64) as usize].clone();
    let mut writer = Writer::new(Random::new("schedule", seed));
    for schedule in schedules(start, calls) {
        schedule.iter().for_each(|line| writer.text(line));
        writer.all_orders();
        writer.text("open");
    }
    writer.script
}
