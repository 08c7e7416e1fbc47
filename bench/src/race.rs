//! Two coders' times for the same operations.

use std::time::{Duration, Instant};

/// How often each coder has its turn.
const TURNS: usize = 15;

/// How long the work takes.
pub fn time(work: impl FnOnce()) -> Duration {
    let started = Instant::now();
    work();
    started.elapsed()
}

/// The best times of both coders for one operation, done `calls` times.
pub struct Race {
    fast: Duration,
    library: Duration,
    calls: usize,
}

impl Race {
    /// Gives the coders their turns; a turn times each operation once, over all calls. The first
    /// turn is not counted: it meets memory that was just made.
    pub fn new<const OPERATIONS: usize>(
        calls: [usize; OPERATIONS],
        mut fast: impl FnMut() -> [Duration; OPERATIONS],
        mut library: impl FnMut() -> [Duration; OPERATIONS],
    ) -> [Race; OPERATIONS] {
        let mut races =
            calls.map(|calls| Race { fast: Duration::MAX, library: Duration::MAX, calls });
        for turn in 0..=TURNS {
            let times = fast().into_iter().zip(library());
            for (race, (fast, library)) in races.iter_mut().zip(times).filter(|_| turn > 0) {
                race.fast = race.fast.min(fast);
                race.library = race.library.min(library);
            }
        }
        races
    }

    /// The nanoseconds of a call, of the time for all of them.
    fn nanoseconds(&self, time: Duration) -> f64 {
        time.as_nanos() as f64 / self.calls as f64
    }

    /// The times of a call and the ratio, and the library's time for each of `symbols`.
    pub fn row(&self, operation: &str, symbols: Option<usize>) -> String {
        let [fast, library] = [self.fast, self.library].map(|time| self.nanoseconds(time));
        let times = format!("{operation:44} fast {fast:9.1} ns   library {library:9.1} ns");
        format!("{times}   ratio {:5.2}{}", fast / library, by_symbol(library, symbols))
    }

    /// The library's nanoseconds for each of `symbols`.
    pub fn library_by_symbol(&self, symbols: usize) -> f64 {
        self.nanoseconds(self.library) / symbols as f64
    }

    /// The library's time over its time in another race of as many calls.
    pub fn library_over(&self, other: &Race) -> f64 {
        self.library.as_secs_f64() / other.library.as_secs_f64()
    }
}

fn by_symbol(nanoseconds: f64, symbols: Option<usize>) -> String {
    symbols.map_or_else(String::new, |symbols| {
        format!("   library {:5.2} ns a symbol", nanoseconds / symbols as f64)
    })
}
