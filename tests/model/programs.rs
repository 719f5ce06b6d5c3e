//! The built programs: `play`, `report` and `accept` as processes in a scratch folder, and the checker's entry for C.

use std::ffi::OsStr;
use std::fs::{self, File};
use std::io::Write;
use std::os::unix::ffi::OsStrExt;
use std::path::{Path, PathBuf};
use std::process::{Child, Command, Output, Stdio};

/// The file that a program reads from.
const STDIN: &str = "stdin";

/// The programs under target/bin, and the folder that they run in.
pub struct Programs {
    bin: PathBuf,
    pub scratch: PathBuf,
}

impl Programs {
    /// The programs of the repository at this folder, with a new scratch folder.
    pub fn new(root: &Path, thread: usize) -> Programs {
        let name = format!("nogturshan-model-{}-{thread}", std::process::id());
        let scratch = std::env::temp_dir().join(name);
        fs::create_dir_all(&scratch).expect("a scratch folder");
        Programs {
            bin: root.join("target/bin"),
            scratch,
        }
    }

    /// What a program prints for these words and this input, which comes from a file, or from a pipe in pieces.
    fn run(&self, program: &str, words: &[Vec<u8>], input: &[u8]) -> Result<Vec<u8>, String> {
        let said = |error: std::io::Error| format!("{program}: {error}");
        let mut command = Command::new(self.bin.join(program));
        command.args(words.iter().map(|word| OsStr::from_bytes(word)));
        command
            .current_dir(&self.scratch)
            .stdout(Stdio::piped())
            .stderr(Stdio::piped());
        let in_pieces = input.len() % 5 == 1;
        let output = if in_pieces {
            let child = command.stdin(Stdio::piped()).spawn().map_err(said)?;
            fed_in_pieces(child, input).map_err(said)?
        } else {
            let stdin = self.scratch.join(STDIN);
            fs::write(&stdin, input).map_err(said)?;
            let stdin = File::open(&stdin).map_err(said)?;
            command.stdin(Stdio::from(stdin)).output().map_err(said)?
        };
        if !output.status.success() || !output.stderr.is_empty() {
            let said = String::from_utf8_lossy(&output.stderr).into_owned();
            return Err(format!(
                "{program} ends with {} and says \"{said}\"",
                output.status
            ));
        }
        Ok(output.stdout)
    }

    /// What `play` prints for a script.
    pub fn play(&self, script: &[u8]) -> Result<Vec<u8>, String> {
        self.run("play", &[], script)
    }

    /// What `report` prints for its input.
    pub fn report(&self, input: &[u8]) -> Result<String, String> {
        let printed = self.run("report", &[], input)?;
        Ok(String::from_utf8_lossy(&printed).into_owned())
    }

    /// What `accept` prints for its words and its input.
    pub fn accept(&self, words: &[Vec<u8>], input: &[u8]) -> Result<String, String> {
        let printed = self.run("accept", words, input)?;
        Ok(String::from_utf8_lossy(&printed).into_owned())
    }

    /// A file that `play` saved, which is taken away.
    pub fn take_saved(&self, name: &str) -> Result<Vec<u8>, String> {
        let path = self.scratch.join(name);
        let bytes = fs::read(&path).map_err(|error| format!("the saved day {name}: {error}"))?;
        fs::remove_file(&path).map_err(|error| format!("the saved day {name}: {error}"))?;
        Ok(bytes)
    }

    /// A file in the scratch folder that is not the programs' input.
    pub fn other_file(&self) -> Option<String> {
        let entries = fs::read_dir(&self.scratch).ok()?;
        let mut names = entries.filter_map(|entry| entry.ok()?.file_name().into_string().ok());
        names.find(|name| name != STDIN)
    }

    /// Takes away all files of the scratch folder.
    pub fn clear(&self) {
        while let Some(name) = self.other_file() {
            if fs::remove_file(self.scratch.join(name)).is_err() {
                break;
            }
        }
    }
}

/// Hands the input to a program piece by piece, and waits for it. A program that has read enough may end before it has all.
fn fed_in_pieces(mut child: Child, input: &[u8]) -> std::io::Result<Output> {
    let piece = (input.len() / 200).max(1 + input.len() % 23);
    let mut pipe = child.stdin.take();
    std::thread::scope(|scope| {
        scope.spawn(move || {
            for part in input.chunks(piece) {
                if pipe
                    .as_mut()
                    .is_none_or(|pipe| pipe.write_all(part).is_err())
                {
                    break;
                }
            }
        });
        child.wait_with_output()
    })
}

impl Drop for Programs {
    /// The scratch folder goes with the programs.
    fn drop(&mut self) {
        let _ = fs::remove_dir_all(&self.scratch);
    }
}

extern "C" {
    /// The proved checker, as include/nogturshan.h declares it.
    fn nogturshan_check(
        opening: *const u8,
        opening_length: usize,
        log: *const u8,
        log_length: usize,
        begin: u32,
        list: *const u8,
        list_length: usize,
    ) -> u8;
}

/// What the proved checker answers.
pub fn entry(opening: &[u8], log: &[u8], begin: u32, list: &[u8]) -> u8 {
    // each pointer is of a slice, so it is not null and has as many bytes as its length says; nothing is written or kept
    unsafe {
        nogturshan_check(
            opening.as_ptr(),
            opening.len(),
            log.as_ptr(),
            log.len(),
            begin,
            list.as_ptr(),
            list.len(),
        )
    }
}
