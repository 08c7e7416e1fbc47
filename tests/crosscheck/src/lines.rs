//! Generated lines through the program boxlines, against the separate coder's answers.

use std::io::Write;
use std::path::Path;
use std::process::{Command, Stdio};
use std::thread;

use coder::codeword::codewords;
use coder::erased_words::erased_and_changed;
use coder::lines::{boxlines, LONGEST_LINE};
use coder::profile::PROFILES;
use coder::rng::Rng;
use coder::text::digits;

use crate::compare::{Checked, Mismatch};
use crate::parallel::sum_of_jobs;

/// Runs of the program, and the lines of each.
const RUNS: usize = 50;
const LINES: usize = 3000;

/// How many symbols are erased, and how many others changed, in the lines made from the codewords
/// of one pair; twice each.
#[rustfmt::skip]
const ERASED_AND_CHANGED: [[usize; 2]; 15] = [
    [0, 0], [0, 1], [0, 2], [0, 3], [1, 0], [0, 0], [0, 1], [0, 2], [0, 3], [2, 0],
    [1, 1], [2, 1], [3, 0], [0, 1], [0, 2],
];

/// The longest piece that is written to the program at once.
const PIECE: usize = 600;

/// Bytes that make a line malformed, or a symbol wrong.
const BYTES: &[u8] = b" \t\r\0+-/:?19CMR\xff";

pub fn check() -> Checked<String> {
    let Some(program) = fogzurt::boxlines() else {
        return Ok("boxlines: NOT RUN, there is no crates/boxlines/out/boxlines".to_string());
    };
    let lines = sum_of_jobs("boxlines", RUNS, |job| {
        let rng = &mut Rng::new(job as u64);
        let input = stream(rng);
        let output = run(&program, &input, rng)?;
        compare_lines(&input, &output)?;
        Ok(LINES)
    })?;
    Ok(format!("boxlines: {lines} lines in {RUNS} runs, written in pieces cut at random"))
}

/// A whole input: lines of every kind, the last one ended or not.
fn stream(rng: &mut Rng) -> Vec<u8> {
    let mut lines: Vec<Vec<u8>> = Vec::new();
    while lines.len() < LINES {
        let profile = rng.pick(&PROFILES);
        let codewords = codewords(profile, &rng.messages(profile));
        for counts in [ERASED_AND_CHANGED; 2].as_flattened() {
            let (_, codeword) = rng.pick(&codewords);
            let word = erased_and_changed(profile, codeword, *counts, rng);
            let line = format!("{} {}", profile.number, digits(&word)).into_bytes();
            lines.push(if rng.once_in(3) { malformed(line, rng) } else { line });
        }
    }
    let mut input = lines.join(&b'\n');
    if rng.once_in(2) {
        input.push(b'\n');
    }
    input
}

/// The line with a byte replaced, put in or left out, cut, or made too long.
fn malformed(mut line: Vec<u8>, rng: &mut Rng) -> Vec<u8> {
    let index = rng.below(line.len());
    match rng.below(6) {
        0 => line[index] = *rng.pick(BYTES),
        1 => line.insert(index, *rng.pick(BYTES)),
        2 => line.truncate(index),
        3 => line[0] = b'0' + rng.below(10) as u8,
        4 => line.resize(LONGEST_LINE + rng.below(3), b'0'),
        _ => line.resize(line.len() + rng.below(20 * LONGEST_LINE), *rng.pick(BYTES)),
    }
    line
}

/// All that the program prints for this input, which is written in pieces cut at random. On
/// standard error it says how many lines it answered.
fn run(program: &Path, input: &[u8], rng: &mut Rng) -> Checked<Vec<u8>> {
    let failed = |what: &str| Mismatch(format!("{}: {what}", program.display()));
    let mut child = Command::new(program)
        .stdin(Stdio::piped())
        .stdout(Stdio::piped())
        .stderr(Stdio::piped())
        .spawn()
        .map_err(|error| failed(&error.to_string()))?;
    let mut pipe = child.stdin.take().expect("the input is piped");
    let output = thread::scope(|scope| {
        scope.spawn(move || {
            let mut rest = input;
            while !rest.is_empty() {
                let (piece, later) = rest.split_at(rng.from_one_to(PIECE.min(rest.len())));
                // A program that ends early shows by its output.
                if pipe.write_all(piece).is_err() {
                    break;
                }
                rest = later;
            }
        });
        child.wait_with_output()
    });
    let output = output.map_err(|error| failed(&error.to_string()))?;
    if !output.status.success() {
        return Err(failed(&format!("ended with {}", output.status)));
    }
    let answered = output.stdout.iter().filter(|&&byte| byte == b'\n').count();
    let told = String::from_utf8_lossy(&output.stderr);
    if told != format!("boxlines: {answered} lines answered\n") {
        return Err(failed(&format!("answered {answered} lines, and said {told:?}")));
    }
    Ok(output.stdout)
}

/// Compares what boxlines printed with what it should; a mismatch is the first line's.
fn compare_lines(input: &[u8], output: &[u8]) -> Checked {
    let expected = boxlines(input).into_bytes();
    if output == expected {
        return Ok(());
    }
    let same = output.iter().zip(&expected).take_while(|(a, b)| a == b).count();
    let number = output[..same].iter().filter(|&&byte| byte == b'\n').count();
    let [line, printed, expected] = [input, output, &expected].map(|text| {
        let line = text.split_inclusive(|&byte| byte == b'\n').nth(number);
        line.unwrap_or_default().escape_ascii()
    });
    Err(Mismatch(format!("line      {line}\nboxlines  {printed}\nexpected  {expected}")))
}
