//! Jobs on every core, with a line that says how far they are.

use std::array;
use std::io::Write;
use std::sync::atomic::{AtomicBool, AtomicUsize, Ordering};
use std::thread;

use crate::compare::Checked;

/// Says how far the jobs are, on one line that is written over, once for each hundredth of them.
fn show_progress(name: &str, done: usize, count: usize) {
    let hundredths = |jobs: usize| jobs * 100 / count;
    if hundredths(done) != hundredths(done - 1) {
        eprint!("\r{name}: {}%  ", hundredths(done));
        // A progress line that cannot be written is no reason to stop.
        let _ = std::io::stderr().flush();
    }
}

/// What the jobs 0 to count − 1 answer, in no order. The first mismatch ends it.
pub fn run_jobs<Answer: Send>(
    name: &str,
    count: usize,
    job: impl Fn(usize) -> Checked<Answer> + Sync,
) -> Checked<Vec<Answer>> {
    let (next, done) = (AtomicUsize::new(0), AtomicUsize::new(0));
    let failed = AtomicBool::new(false);
    let work = || {
        std::iter::from_fn(|| {
            let number = next.fetch_add(1, Ordering::Relaxed);
            (number < count && !failed.load(Ordering::Relaxed)).then_some(number)
        })
        .map(|number| {
            let answer = job(number);
            failed.fetch_or(answer.is_err(), Ordering::Relaxed);
            show_progress(name, done.fetch_add(1, Ordering::Relaxed) + 1, count);
            answer
        })
        .collect()
    };
    let cores = thread::available_parallelism().map_or(1, usize::from);
    let answers: Vec<Checked<Vec<Answer>>> = thread::scope(|scope| {
        let workers: Vec<_> = (0..cores).map(|_| scope.spawn(work)).collect();
        workers.into_iter().map(|worker| worker.join().expect("a worker panicked")).collect()
    });
    eprint!("\r{}\r", " ".repeat(name.len() + 8));
    Ok(answers.into_iter().collect::<Checked<Vec<_>>>()?.into_iter().flatten().collect())
}

/// The same, where the jobs answer how much they did: all that was done.
pub fn sum_of_jobs(
    name: &str,
    count: usize,
    job: impl Fn(usize) -> Checked<usize> + Sync,
) -> Checked<usize> {
    let [sum] = sums_of_jobs(name, count, |number| Ok([job(number)?]))?;
    Ok(sum)
}

/// The same of several things that the jobs do.
pub fn sums_of_jobs<const THINGS: usize>(
    name: &str,
    count: usize,
    job: impl Fn(usize) -> Checked<[usize; THINGS]> + Sync,
) -> Checked<[usize; THINGS]> {
    let done = run_jobs(name, count, job)?;
    Ok(array::from_fn(|thing| done.iter().map(|counts| counts[thing]).sum()))
}
