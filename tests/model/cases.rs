//! Cases that stand in tests/cases: scripts and questions, each of which is only its input; and new ones kept there.

use std::fs;
use std::path::{Path, PathBuf};

use crate::daylog::OPENING;
use crate::failure::{Failure, Input, Question};
use crate::profiles::SMALL_LOOK;
use crate::script::{hex, lines, Player};
use crate::shrink::asked;
use crate::trial::Bench;

/// Files of a folder that end so, by name.
fn files(folder: &Path, ending: &str) -> Vec<PathBuf> {
    let Ok(entries) = fs::read_dir(folder) else {
        return Vec::new();
    };
    let mut files: Vec<PathBuf> = entries
        .filter_map(|entry| entry.ok().map(|entry| entry.path()))
        .collect();
    files.retain(|path| path.extension().is_some_and(|found| found == ending));
    files.sort();
    files
}

/// Runs every case of a folder; gives how many there are, or the first that fails with its difference.
pub fn run(bench: &mut Bench, folder: &Path) -> Result<usize, (PathBuf, Failure)> {
    let mut count = 0;
    for path in files(folder, "txt") {
        let script = fs::read(&path).unwrap_or_default();
        run_script(bench, &script).map_err(|failure| (path, failure))?;
        count += 1;
    }
    for path in files(folder, "day") {
        let question = read_question(&path).map_err(|said| (path.clone(), Failure::other(said)))?;
        asked(bench, &question).map_err(|failure| (path, failure))?;
        count += 1;
    }
    Ok(count)
}

/// Runs a script as a case; where a line's comment says `=>` and an answer, the model is held to that.
pub fn run_script(bench: &mut Bench, script: &[u8]) -> Result<(), Failure> {
    let mut player = Player::new();
    for line in lines(script) {
        player.play(line);
        let text = String::from_utf8_lossy(line).into_owned();
        if let Some((_, expected)) = text.split_once("# => ") {
            let printed = player.printed.first().cloned().unwrap_or_default();
            if printed != expected.trim() {
                let difference = format!("line {}: the model prints \"{printed}\"", player.line);
                return Err(Failure::script(
                    script,
                    format!("{difference}, document 01 says \"{expected}\""),
                ));
            }
        }
    }
    bench.script(script, SMALL_LOOK)
}

/// A question from a day and the file beside it that ends in `.args`.
fn read_question(path: &Path) -> Result<Question, String> {
    let said = |error| format!("{}: {error}", path.display());
    let day = fs::read(path).map_err(said)?;
    let args = fs::read_to_string(path.with_extension("args")).map_err(said)?;
    let word = |name: &str| {
        args.lines()
            .find_map(|line| line.strip_prefix(name))
            .map(str::trim)
    };
    let number = |name: &str| word(name).and_then(|word| word.parse::<u32>().ok());
    let opening = number("opening ")
        .map_or(OPENING, |length| length as usize)
        .min(day.len());
    let begin = number("begin ").ok_or(format!("{}: no begin record", path.display()))?;
    let list = word("list").unwrap_or("");
    let bytes = (0..list.len() / 2).map(|i| u8::from_str_radix(&list[2 * i..2 * i + 2], 16));
    let list = bytes
        .collect::<Result<_, _>>()
        .map_err(|error| format!("{}: {error}", path.display()))?;
    Ok(Question {
        opening: day[..opening].to_vec(),
        log: day[opening..].to_vec(),
        begin,
        list,
    })
}

/// Keeps a failing input under this name; gives the file, if there is something to keep.
pub fn keep(folder: &Path, name: &str, failure: &Failure) -> Option<PathBuf> {
    fs::create_dir_all(folder).ok()?;
    match &failure.input {
        Input::Script(script) => {
            let path = folder.join(format!("{name}.txt"));
            fs::write(&path, script).ok()?;
            Some(path)
        }
        Input::Question(question) => {
            let path = folder.join(format!("{name}.day"));
            let Question {
                opening,
                log,
                begin,
                list,
            } = question;
            let args = format!(
                "begin {begin}\nlist {}\nopening {}\n",
                hex(list),
                opening.len()
            );
            fs::write(&path, [opening.as_slice(), log].concat()).ok()?;
            fs::write(path.with_extension("args"), args).ok()?;
            Some(path)
        }
        Input::Other => None,
    }
}
