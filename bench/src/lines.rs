//! A million mixed lines through boxlines and through the fast coder's program.

use std::env;
use std::fs::{self, File};
use std::io;
use std::path::{Path, PathBuf};
use std::process::{Command, Stdio};
use std::time::Duration;

use coder::profile::PROFILES;
use coder::random_words::changed;
use coder::rng::Rng;
use coder::text::digits;

use crate::boxlines;
use crate::race::time;

const LINES: usize = 1_000_000;

/// Different lines, of which those are drawn.
const DIFFERENT: usize = 20_000;

const TURNS: usize = 3;

/// A program in the race, and its best time so far.
struct Runner {
    name: &'static str,
    command: Command,
    output: PathBuf,
    best: Duration,
}

impl Runner {
    fn new(name: &'static str, command: Command, folder: &Path) -> Runner {
        Runner { name, command, output: folder.join(name), best: Duration::MAX }
    }

    /// Times the program from its start to its end.
    fn take_turn(&mut self, input: &Path) -> io::Result<()> {
        self.command.stdin(File::open(input)?).stdout(File::create(&self.output)?);
        self.command.stderr(Stdio::null());
        let mut status = None;
        let taken = time(|| status = Some(self.command.status()));
        if !status.transpose()?.is_some_and(|status| status.success()) {
            return Err(io::Error::other(format!("{} ended with an error", self.name)));
        }
        self.best = self.best.min(taken);
        Ok(())
    }
}

pub fn race_programs() -> io::Result<()> {
    let Some(program) = fogzurt::boxlines() else {
        println!("boxlines: NOT RUN, there is no crates/boxlines/out/boxlines");
        return Ok(());
    };
    let folder = Path::new(env!("CARGO_MANIFEST_DIR")).join("target").join("lines");
    fs::create_dir_all(&folder)?;
    let input = folder.join("input");
    fs::write(&input, mixed_lines())?;
    let mut itself = Command::new(env::current_exe()?);
    itself.arg(boxlines::ARGUMENT);
    let mut fast = Runner::new("fast", itself, &folder);
    let mut proved = Runner::new("boxlines", Command::new(program), &folder);
    for _ in 0..TURNS {
        fast.take_turn(&input)?;
        proved.take_turn(&input)?;
    }
    if fs::read(&fast.output)? != fs::read(&proved.output)? {
        return Err(io::Error::other("boxlines and the fast program print different lines"));
    }
    let [a, b] = [fast, proved].map(|runner| LINES as f64 / runner.best.as_secs_f64());
    print!("boxlines, {LINES} mixed lines, file to file: fast {a:.0} lines a second, ");
    println!("boxlines {b:.0}, ratio {:.2}", b / a);
    Ok(())
}

/// Lines of all profiles by turns: a quarter each clean, with one, two and three symbols changed,
/// and one in ten with a byte that makes it malformed.
fn mixed_lines() -> Vec<u8> {
    let rng = &mut Rng::new(1);
    let different: Vec<String> = (0..DIFFERENT)
        .map(|count| {
            let profile = &PROFILES[count % PROFILES.len()];
            let [first, second] = rng.messages(profile);
            let mut word = vec![0; profile.word_length()];
            fast::encode(13, u64::from(profile.number), 1, &first, &second, &mut word)
                .expect("the messages are right");
            let word = changed(profile, &word, count / PROFILES.len() % 4, rng);
            let malformed = if rng.once_in(10) { "!" } else { "" };
            format!("{} {}{malformed}\n", profile.number, digits(&word))
        })
        .collect();
    (0..LINES).flat_map(|_| rng.pick(&different).bytes()).collect()
}
