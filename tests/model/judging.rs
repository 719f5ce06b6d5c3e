//! What is judged: the moment of a transaction, its company, who stands before whom, and the given order.
//!
//! All of it is told from the history of the day, not from the books.

use crate::breaks::{broken, Break};
use crate::history::{Stands, Transaction};
use crate::rules::CELLS;

/// The moment: the record of its commit or post; else of its last judged read that was granted; else of its begin.
pub fn moment(one: &Transaction) -> usize {
    if let Some(commit) = one.commit {
        return commit;
    }
    if let (true, Some(record)) = (broken(Break::Moment), one.conflict_at_read) {
        return record;
    }
    match one.reads.last() {
        Some(read) => read.record,
        None => one.begin,
    }
}

/// The company: itself and every transaction of the day committed before its moment, by begin record.
/// The day may have the transaction as it was before the call that is weighed.
pub fn company<'a>(day: &'a [Transaction], one: &'a Transaction) -> Vec<&'a Transaction> {
    let moment = moment(one);
    let belongs = |other: &&Transaction| {
        let committed_before = other.commit.is_some_and(|commit| commit < moment);
        other.begin != one.begin && (committed_before || counts_by_mistake(other))
    };
    let mut company: Vec<&Transaction> = day.iter().filter(belongs).collect();
    company.push(one);
    company.sort_by_key(|member| member.begin);
    company
}

/// Whether a reader that is not committed counts, with a rule broken.
fn counts_by_mistake(other: &Transaction) -> bool {
    let stands = match other.stands {
        Stands::Live => broken(Break::LiveReaders),
        Stands::GaveUp => broken(Break::GivenUpReaders),
        _ => false,
    };
    stands && !other.reads.is_empty()
}

/// Real time: K is committed and its commit record is below M's begin record.
fn real_time(k: &Transaction, m: &Transaction) -> bool {
    k.commit.is_some_and(|commit| commit < m.begin)
}

/// Write then write: both committed, a cell in common, K's commit first.
fn write_then_write(k: &Transaction, m: &Transaction) -> bool {
    let (Some(first), Some(second)) = (k.commit, m.commit) else {
        return false;
    };
    first < second && (0..CELLS).any(|cell| k.written[cell] && m.written[cell])
}

/// Write then read: K committed a cell before a judged read of it by M.
fn write_then_read(k: &Transaction, m: &Transaction) -> bool {
    let Some(commit) = k.commit else {
        return false;
    };
    m.reads
        .iter()
        .any(|read| commit < read.record && k.written[read.cell])
}

/// Read then write: K made a judged read of a cell before M committed that cell.
fn read_then_write(k: &Transaction, m: &Transaction) -> bool {
    let Some(commit) = m.commit else {
        return false;
    };
    k.reads
        .iter()
        .any(|read| read.record < commit && m.written[read.cell])
}

/// The four kinds of pair, each with the break that leaves it out of the judging and the one that leaves it out of the checker.
type Kind = (fn(&Transaction, &Transaction) -> bool, Break, Break);
const KINDS: [Kind; 4] = [
    (real_time, Break::RealTime, Break::ListRealTime),
    (write_then_write, Break::WriteWrite, Break::ListWriteWrite),
    (write_then_read, Break::WriteRead, Break::ListWriteRead),
    (read_then_write, Break::ReadWrite, Break::ListReadWrite),
];

/// Who asks for pairs: the judging, or the checker.
#[derive(Clone, Copy, PartialEq)]
pub enum Asker {
    Judging,
    Checker,
}

/// The pairs of a company: in row K and column M, whether K stands before M by one of the four kinds. K and M differ.
pub fn pairs(company: &[&Transaction], asker: Asker) -> Vec<Vec<bool>> {
    let left_out = |kind: &Kind| {
        broken(if asker == Asker::Judging {
            kind.1
        } else {
            kind.2
        })
    };
    let kinds: Vec<Kind> = KINDS.into_iter().filter(|kind| !left_out(kind)).collect();
    let stands_before = |k: &Transaction, m: &Transaction| {
        k.begin != m.begin && kinds.iter().any(|kind| kind.0(k, m))
    };
    company
        .iter()
        .map(|k| company.iter().map(|m| stands_before(k, m)).collect())
        .collect()
}

/// How far the depth-first search has come with a transaction.
#[derive(Clone, Copy, PartialEq)]
enum Mark {
    New,
    OnThePath,
    Done,
}

/// Whether the path that comes to K can go on to somebody who is on it already.
fn comes_back(before: &[Vec<bool>], marks: &mut [Mark], k: usize) -> bool {
    marks[k] = Mark::OnThePath;
    for m in 0..before.len() {
        if before[k][m]
            && (marks[m] == Mark::OnThePath
                || (marks[m] == Mark::New && comes_back(before, marks, m)))
        {
            return true;
        }
    }
    marks[k] = Mark::Done;
    false
}

/// Whether the pairs contain a cycle.
pub fn has_cycle(before: &[Vec<bool>]) -> bool {
    let mut marks = vec![Mark::New; before.len()];
    (0..before.len()).any(|k| marks[k] == Mark::New && comes_back(before, &mut marks, k))
}

/// Whether a judged call meets Conflict: the transaction has the call counted as granted.
pub fn conflict(day: &[Transaction], one: &Transaction) -> bool {
    let later_read = one.commit.is_none() && one.reads.len() > 1;
    if broken(Break::GrantAll) || (broken(Break::FirstRead) && later_read) {
        return false;
    }
    let company = company(day, one);
    if broken(Break::ReadChanged) {
        return company.iter().any(|other| read_then_write(one, other));
    }
    has_cycle(&pairs(&company, Asker::Judging)) || broken(Break::ConflictAll)
}

/// The given order, as begin records: again and again, among those with nobody left before them, the one with the lowest begin record.
/// None if the company has a cycle.
pub fn given_order(day: &[Transaction], one: &Transaction) -> Option<Vec<u16>> {
    let mut company = company(day, one);
    if broken(Break::CommitOrder) {
        company.sort_by_key(|member| member.commit.unwrap_or(usize::MAX));
        return Some(company.iter().map(|member| member.begin as u16).collect());
    }
    let before = pairs(&company, Asker::Judging);
    let mut left: Vec<usize> = (0..company.len()).collect();
    let mut order = Vec::new();
    while !left.is_empty() {
        let mut ready = left
            .iter()
            .copied()
            .filter(|m| left.iter().all(|k| !before[*k][*m]));
        let next = if broken(Break::LowestBegin) {
            ready.last()
        } else {
            ready.next()
        };
        let next = next?;
        order.push(company[next].begin as u16);
        left.retain(|m| *m != next);
    }
    Some(order)
}
