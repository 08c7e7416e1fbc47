//! Writes the vectors: inputs and expected outputs for programs that run the code under test.
//! `generate` writes every file; `generate --check` says whether the stored files are still what
//! it makes, and exits with 1 if one is not.

mod case_file;
mod contents;
mod conversions;
mod line_erasures;
mod line_forms;
#[cfg(test)]
mod locations;
mod pairs;
mod sheets;
mod streams;
#[cfg(test)]
mod syndrome_words;
mod words;

use std::path::PathBuf;
use std::process::ExitCode;

use case_file::CaseFile;

/// A program of the gate: its crate, its inputs by name, and how often it runs all of them. Its
/// expected output joins theirs, in this order.
struct Program {
    name: &'static str,
    inputs: Vec<(String, CaseFile)>,
    runs: usize,
}

fn programs() -> [Program; 4] {
    let one = |name: &str, file: CaseFile| (name.to_string(), file);
    let codec = vec![
        one("stdin", pairs::make()),
        one("data/words", words::make()),
        one("data/conversions", conversions::make()),
    ];
    let lines = [line_forms::make()].into_iter().chain(streams::endings());
    let lines = lines.zip(1..).map(|(file, number)| (format!("data/{number:02}"), file));
    [
        Program { name: "codec_cases", inputs: codec, runs: 1 },
        Program { name: "queue_cases", inputs: vec![one("stdin", sheets::make())], runs: 1 },
        Program { name: "boxlines", inputs: vec![one("stdin", streams::long())], runs: 1 },
        // Once for each way to cut the inputs.
        Program { name: "lines_cases", inputs: lines.collect(), runs: 4 },
    ]
}

/// The page that names the cases, made with them.
const CONTENTS: &str = "tests/VECTORS.md";

/// Every file: its path from the root of the repository, and its bytes.
fn files() -> Vec<(String, Vec<u8>)> {
    let mut files = Vec::new();
    let mut page = contents::Page::default();
    for Program { name, inputs, runs } in programs() {
        let mut expected = Vec::new();
        for (input, made) in inputs {
            let path = format!("crates/{name}/{input}");
            page.add(&path, &made);
            expected.extend(made.expected);
            files.push((path, made.input));
        }
        files.push((format!("crates/{name}/stdout"), expected.repeat(runs)));
    }
    files.push((CONTENTS.to_string(), page.text().into_bytes()));
    files
}

/// A path from the root of the repository, which is two directories above this package.
fn in_repository(path: &str) -> PathBuf {
    [env!("CARGO_MANIFEST_DIR"), "..", "..", path].iter().collect()
}

/// Writes every file; names one that cannot be written. Whether all were.
fn write() -> bool {
    files().into_iter().all(|(path, bytes)| {
        let written = std::fs::write(in_repository(&path), bytes);
        written.map_err(|error| eprintln!("{path}: {error}")).is_ok()
    })
}

/// Names every stored file that is missing or no longer what is made here; whether there is none.
fn check() -> bool {
    let mut files = files();
    files.retain(|(path, bytes)| std::fs::read(in_repository(path)).ok().as_ref() != Some(bytes));
    for (path, _) in &files {
        println!("not what generate makes: {path}");
    }
    files.is_empty()
}

fn main() -> ExitCode {
    let arguments: Vec<String> = std::env::args().skip(1).collect();
    let done = match arguments.iter().map(String::as_str).collect::<Vec<_>>()[..] {
        [] => write(),
        ["--check"] => check(),
        _ => {
            eprintln!("usage: generate [--check]");
            false
        }
    };
    if done {
        ExitCode::SUCCESS
    } else {
        ExitCode::FAILURE
    }
}

/// With the files, what making them insists on is tried: that the list answers every call on the
/// queue as the queue does, and that a stream's lines are answered one by one.
#[test]
fn the_stored_files_are_what_is_made() {
    assert!(check());
}
