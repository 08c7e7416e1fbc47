//! How fast the static library and boxlines are, in one run, beside a coder written for speed
//! (`fast`). A ratio is its time over theirs: above 1.0 they are faster.

mod boxlines;
mod coding;
mod fast_coder;
mod lines;
mod positions;
mod race;
mod sheets;

use std::io;
use std::process::ExitCode;

const HEAD: &str = "\
best of several turns, both coders by turns on the same inputs; ratio = fast / library
edition 13, but where 18 stands after the profile; 18 / 13 = the library's time over its time for edition 13
decode / by syndromes = the library's time for the same words by the decoder that tries positions over its time by the other
encode is by line rule 1, but where rule 2 is named; rule 2 / rule 1 = the library's time over its time for rule 1
convert = from the row's edition to the other: 13 to 18, and 18 to 13 where 18 stands
buffers are lent as they are: no output is cleared between calls, by either coder
";

fn benchmark() -> io::Result<()> {
    println!("{HEAD}");
    let growth = coding::race_profiles();
    positions::race_positions();
    sheets::race_capacities();
    lines::race_programs()?;
    println!("{growth}");
    Ok(())
}

fn main() -> ExitCode {
    let arguments: Vec<String> = std::env::args().skip(1).collect();
    let done = match arguments.iter().map(String::as_str).collect::<Vec<_>>()[..] {
        [] => benchmark(),
        [boxlines::ARGUMENT] => boxlines::run(io::stdin().lock(), io::stdout().lock()),
        _ => Err(io::Error::other(format!("usage: bench [{}]", boxlines::ARGUMENT))),
    };
    match done {
        Ok(()) => ExitCode::SUCCESS,
        Err(error) => {
            eprintln!("{error}");
            ExitCode::FAILURE
        }
    }
}
