//! That failing works: with each rule broken a difference is found, made small and kept, and the kept case fails again.

use std::fs;
use std::path::Path;
use std::process::{Command, Output};
use std::sync::atomic::{AtomicUsize, Ordering};
use std::sync::Mutex;

use crate::breaks;
use crate::cases;
use crate::run::bench;

/// This program again, with a rule broken and cases of its own.
fn broken_run(name: &str, folder: &Path, argument: &str) -> Result<Output, String> {
    let program = std::env::current_exe().map_err(|error| error.to_string())?;
    let run = Command::new(program)
        .args(["--break", name, argument, "--cases"])
        .arg(folder)
        .output();
    run.map_err(|error| error.to_string())
}

/// Whether a broken rule is found; gives the line that says by what.
fn found(root: &Path, name: &str, thread: usize) -> Result<String, String> {
    let folder =
        std::env::temp_dir().join(format!("nogturshan-broken-{}-{name}", std::process::id()));
    let result = found_with(root, name, &folder, thread);
    let _ = fs::remove_dir_all(&folder);
    result
}

/// The same, with the kept cases in this folder: they fail with the rule broken, and agree with the rule as it is.
fn found_with(root: &Path, name: &str, folder: &Path, thread: usize) -> Result<String, String> {
    let first = broken_run(name, folder, "--short")?;
    let printed = String::from_utf8_lossy(&first.stdout).into_owned();
    let line = printed
        .lines()
        .find_map(|line| line.strip_prefix("DIFFERENCE "));
    let Some(line) = line.filter(|_| first.status.code() == Some(1)) else {
        return Err(format!("{name}: no difference is found"));
    };
    let again = broken_run(name, folder, "--only-cases")?;
    if again.status.code() != Some(1) {
        return Err(format!("{name}: the kept case does not fail again"));
    }
    match cases::run(&mut bench(root, 100 + thread), folder) {
        Ok(1) => Ok(line.to_string()),
        Ok(count) => Err(format!("{name}: {count} cases were kept")),
        Err((_, failure)) => Err(format!(
            "{name}: the kept case fails without the break: {}",
            failure.difference
        )),
    }
}

/// Breaks every rule in turn; gives whether each was found.
pub fn run(root: &Path, threads: usize) -> bool {
    let next = AtomicUsize::new(0);
    let lines = Mutex::new(Vec::new());
    std::thread::scope(|scope| {
        for thread in 0..threads {
            let (next, lines) = (&next, &lines);
            scope.spawn(move || {
                while let Some((name, _, wrong)) =
                    breaks::ALL.get(next.fetch_add(1, Ordering::SeqCst))
                {
                    let found = found(root, name, thread);
                    let line = found.map(|by| format!("  {name:<17} ({wrong}) {by}"));
                    lines.lock().expect("no thread panics").push((*name, line));
                }
            });
        }
    });
    let lines = lines.into_inner().expect("no thread panics");
    let mut all = true;
    for (name, _, _) in breaks::ALL {
        match lines
            .iter()
            .find(|line| line.0 == *name)
            .map(|line| &line.1)
        {
            Some(Ok(line)) => println!("{line}"),
            Some(Err(line)) => {
                println!("  {line}");
                all = false;
            }
            None => all = false,
        }
    }
    all
}
