//! The cross-check of the static library and of boxlines. Each section prints one line; the first
//! mismatch prints the input and both answers, and ends the program with 1.

use std::process::ExitCode;
use std::time::Instant;

use crosscheck::{Section, LONG, QUICK};
use fogzurt::LIBRARY;

fn run(sections: &[Section]) -> ExitCode {
    let started = Instant::now();
    for section in sections {
        let section_started = Instant::now();
        match section(&LIBRARY) {
            Ok(done) => println!("{done} ({:.1} s)", section_started.elapsed().as_secs_f64()),
            Err(mismatch) => {
                println!("MISMATCH\n{mismatch}");
                return ExitCode::FAILURE;
            }
        }
    }
    println!("no mismatch, {:.1} s", started.elapsed().as_secs_f64());
    ExitCode::SUCCESS
}

fn main() -> ExitCode {
    let arguments: Vec<String> = std::env::args().skip(1).collect();
    match arguments.iter().map(String::as_str).collect::<Vec<_>>()[..] {
        [] => run(&QUICK),
        ["--long"] => run(&LONG),
        _ => {
            eprintln!("usage: crosscheck [--long]");
            ExitCode::FAILURE
        }
    }
}
