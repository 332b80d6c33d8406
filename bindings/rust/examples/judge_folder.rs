//! Judges each file of a folder whose name ends with .json, on all cores: judge_folder FOLDER. A line for each, in the
//! order of names.

use leafnurd::{Status, Verdict, judge_bytes};
use std::path::PathBuf;
use std::process::ExitCode;
use std::sync::Mutex;
use std::sync::atomic::{AtomicUsize, Ordering};
use std::{env, fs, io, thread};

/// The documents of a folder, in the order of their names.
fn documents(folder: &str) -> io::Result<Vec<PathBuf>> {
    let mut files = Vec::new();
    for entry in fs::read_dir(folder)? {
        let file = entry?.path();
        if file.extension().is_some_and(|it| it == "json") {
            files.push(file);
        }
    }
    files.sort();
    Ok(files)
}

/// Judges all files, each core the next one that none has taken.
fn judge_all(files: &[PathBuf]) -> Vec<(usize, io::Result<Verdict>)> {
    let next = AtomicUsize::new(0);
    let verdicts = Mutex::new(Vec::new());
    thread::scope(|scope| {
        for _ in 0..thread::available_parallelism().map_or(1, usize::from) {
            scope.spawn(|| {
                loop {
                    let at = next.fetch_add(1, Ordering::Relaxed);
                    let Some(file) = files.get(at) else { break };
                    let verdict = fs::read(file).map(|text| judge_bytes(&text));
                    verdicts.lock().expect("no thread stops before its end").push((at, verdict));
                }
            });
        }
    });
    let mut verdicts = verdicts.into_inner().expect("no thread stops before its end");
    verdicts.sort_by_key(|it| it.0);
    verdicts
}

fn main() -> io::Result<ExitCode> {
    let Some(folder) = env::args().nth(1) else {
        eprintln!("judge_folder FOLDER");
        return Ok(ExitCode::from(2));
    };
    let files = documents(&folder)?;
    let mut greatest = Status::Accepted;
    for (at, verdict) in judge_all(&files) {
        let verdict = verdict?;
        greatest = greatest.max(verdict.status());
        println!("{}: {verdict}", files[at].display());
    }
    Ok(ExitCode::from(greatest as u8))
}
