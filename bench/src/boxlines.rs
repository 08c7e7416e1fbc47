//! The fast coder's boxlines: the same meaning, with plain buffered reading and writing.

use std::io::{self, BufRead, BufReader, BufWriter, Read, Write};

use coder::lines::LONGEST_LINE;
use fast::lines::{answer, LONGEST_ANSWER};

/// The benchmark runs itself with this argument, to have the program as a process of its own.
pub const ARGUMENT: &str = "--boxlines";

const BUFFER: usize = 1 << 16;

/// Answers every line of the input. Of a line that is too long, one byte more than the longest is
/// kept, which is enough to refuse it.
pub fn run(input: impl Read, output: impl Write) -> io::Result<()> {
    let mut input = BufReader::with_capacity(BUFFER, input);
    let mut output = BufWriter::with_capacity(BUFFER, output);
    let mut line = Vec::with_capacity(LONGEST_LINE + 1);
    let mut bytes = [0; LONGEST_ANSWER];
    while input.by_ref().take(LONGEST_LINE as u64 + 1).read_until(b'\n', &mut line)? > 0 {
        if line.last() == Some(&b'\n') {
            line.pop();
        } else if line.len() > LONGEST_LINE {
            input.skip_until(b'\n')?;
        }
        let length = answer(&line, &mut bytes);
        output.write_all(&bytes[..length])?;
        line.clear();
    }
    output.flush()
}

#[cfg(test)]
mod tests {
    use std::fs;

    use super::*;

    /// A reader that hands over few bytes at a time.
    struct Pieces<'a>(&'a [u8], usize);

    impl Read for Pieces<'_> {
        fn read(&mut self, buffer: &mut [u8]) -> io::Result<usize> {
            let length = self.1.min(buffer.len());
            self.0.read(&mut buffer[..length])
        }
    }

    /// Compares the answers to all inputs of a program of the gate with its `stdout`, which holds
    /// them once for each of the ways in which that program cuts its inputs.
    fn check_answers(program: &str, inputs: &[String], ways: usize) {
        let folder = concat!(env!("CARGO_MANIFEST_DIR"), "/../crates");
        let read = |name: &str| fs::read(format!("{folder}/{program}/{name}")).unwrap();
        for piece in [1, 7, 101, 4096] {
            let mut output = Vec::new();
            for input in inputs {
                run(Pieces(&read(input), piece), &mut output).unwrap();
            }
            assert!(output.repeat(ways) == read("stdout"), "{program}, in pieces of {piece}");
        }
    }

    #[test]
    fn every_stored_input_is_answered_however_it_is_cut() {
        let inputs: Vec<String> = (1..=15).map(|number| format!("data/{number:02}")).collect();
        check_answers("lines_cases", &inputs, 4);
        check_answers("boxlines", &["stdin".to_string()], 1);
    }
}
