//! Runs of calls on sheets of every capacity (01: R), sound and damaged, and of wrong lengths. The
//! coder and the separate one keep a sheet each; after each call both have to be the same in every
//! byte.

use coder::erased_words::erased;
use coder::erasure::ERASURE;
use coder::list::{CELL, LAST_BOX};
use coder::profile::{Profile, PROFILES};
use coder::queue;
use coder::rng::Rng;
use fogzurt::EntryPoints;

use crate::calls::{narrow, number_of};
use crate::compare::{compare, After, Buffer, Checked, FILLER};
use crate::parallel::sum_of_jobs;
use crate::refusals::NUMBERS;

const LARGEST_CAPACITY: usize = 255;

/// Calls on a sheet of each capacity, at least.
const CALLS: usize = 4000;

/// Lengths that are no sheet's, and the shortest and the longest sheet's.
#[rustfmt::skip]
const LENGTHS: [usize; 16] = [
    0, 1, 103, 104, 105, 207, 208, 209, 311, 313, 26_519, 26_623, 26_624, 26_625, 26_728, 53_248,
];

pub fn check(tried: &EntryPoints) -> Checked<String> {
    let by_capacity = sum_of_jobs("sheets", LARGEST_CAPACITY, |job| {
        let mut sheet = Sheet::new(tried, (job + 2) * CELL, job as u64);
        sheet.format()?;
        sheet.calls = 0;
        while sheet.calls < CALLS {
            sheet.step()?;
        }
        Ok(sheet.calls)
    })?;
    let by_length: usize =
        LENGTHS.iter().map(|&length| calls_by_length(tried, length)).sum::<Checked<_>>()?;
    let calls = by_capacity + by_length;
    Ok(format!("sheets: {calls} calls on sheets of R = 1 to 255 and of wrong lengths"))
}

/// Every call, before and after the buffer is formatted.
fn calls_by_length(tried: &EntryPoints, length: usize) -> Checked<usize> {
    let mut sheet = Sheet::new(tried, length, length as u64);
    for _ in 0..2 {
        sheet.peek_some()?;
        sheet.enqueue_good()?;
        sheet.faulty()?;
        sheet.dequeue(CELL)?;
        sheet.format()?;
    }
    Ok(sheet.calls)
}

/// The sheet of both coders, and how many calls were made on it.
struct Sheet<'a> {
    tried: &'a EntryPoints,
    lent: Buffer,
    expected: Vec<u8>,
    rng: Rng,
    calls: usize,
}

impl Sheet<'_> {
    /// A buffer that was never formatted.
    fn new(tried: &EntryPoints, length: usize, seed: u64) -> Sheet<'_> {
        let expected = vec![FILLER; length];
        Sheet { tried, lent: Buffer::output(length), expected, rng: Rng::new(seed), calls: 0 }
    }

    /// Counts a call, and compares both answers, both sheets and one more buffer.
    fn compare(
        &mut self,
        call: impl FnOnce() -> String,
        answers: [u64; 2],
        other: &[After],
    ) -> Checked {
        self.calls += 1;
        let call = || format!("{} on a sheet of {} bytes", call(), self.expected.len());
        let sheet: After = ("sheet", &self.lent, &self.expected);
        compare(call, answers, &[&[sheet], other].concat())
    }

    fn format(&mut self) -> Checked {
        let answer = (self.tried.format)(self.lent.lent_mut());
        let expected = number_of(queue::format(&mut self.expected));
        self.compare(|| "format".to_string(), [answer, expected], &[])
    }

    fn enqueue(&mut self, box_number: u64, profile: u64, word: &[u8]) -> Checked {
        let lent = Buffer::new(word);
        let answer = (self.tried.enqueue)(self.lent.lent_mut(), box_number, profile, lent.lent());
        let (narrow_box, narrow_profile) = (narrow(box_number), narrow(profile));
        let expected = queue::enqueue(&mut self.expected, narrow_box, narrow_profile, word);
        self.compare(
            || format!("enqueue {box_number}, {profile}, {word:?}"),
            [answer, number_of(expected)],
            &[("word", &lent, word)],
        )
    }

    fn peek(&mut self, record: u64, length: usize) -> Checked {
        let (mut out, mut expected_out) = (Buffer::output(length), vec![FILLER; length]);
        let answer = (self.tried.peek)(self.lent.lent(), record, out.lent_mut());
        let expected = queue::peek(&self.expected, record as usize, &mut expected_out);
        self.compare(
            || format!("peek {record} into {length} bytes"),
            [answer, number_of(expected)],
            &[("out", &out, &expected_out)],
        )
    }

    fn dequeue(&mut self, length: usize) -> Checked {
        let (mut out, mut expected_out) = (Buffer::output(length), vec![FILLER; length]);
        let answer = (self.tried.dequeue)(self.lent.lent_mut(), out.lent_mut());
        let expected = queue::dequeue(&mut self.expected, &mut expected_out);
        self.compare(
            || format!("dequeue into {length} bytes"),
            [answer, number_of(expected)],
            &[("out", &out, &expected_out)],
        )
    }

    /// Most steps fill the sheet or, by turns, drain it. The others look, ask for what is refused,
    /// do damage, or start anew.
    fn step(&mut self) -> Checked {
        let capacity = self.expected.len() / CELL - 1;
        let filling = (self.calls / (2 * capacity + 3)).is_multiple_of(2);
        match self.rng.below(24) {
            0 => self.damage(),
            1 => self.faulty(),
            2 | 3 => self.peek_some(),
            4 if self.rng.once_in(100) => self.format(),
            draw if (draw < 19) == filling => self.enqueue_good(),
            _ => self.dequeue(CELL),
        }
    }

    /// Any word of its profile, readable or not.
    fn enqueue_good(&mut self) -> Checked {
        let profile = self.rng.pick(&PROFILES);
        let box_number = self.rng.from_one_to(usize::from(LAST_BOX)) as u64;
        let word = self.word_of(profile);
        self.enqueue(box_number, u64::from(profile.number), &word)
    }

    /// Noise, half of the time with erasures.
    fn word_of(&mut self, profile: &Profile) -> Vec<u8> {
        let word = self.rng.word(profile.q, profile.word_length());
        let count = *self.rng.pick(&[0, 0, 0, 0, 1, 2, 3, word.len()]);
        erased(&word, count, &mut self.rng)
    }

    /// A record that may be there, and now and then one that cannot.
    fn peek_some(&mut self) -> Checked {
        let wide = self.rng.once_in(10);
        let likely = self.rng.below(self.expected.len() / CELL + 2) as u64;
        let record = if wide { *self.rng.pick(&NUMBERS) } else { likely };
        self.peek(record, CELL)
    }

    /// Calls with arguments of which each may be wrong.
    fn faulty(&mut self) -> Checked {
        let profile = self.rng.pick(&PROFILES);
        let mut word = self.word_of(profile);
        if self.rng.once_in(3) {
            let index = self.rng.below(word.len());
            word[index] = *self.rng.pick(&[profile.q, 254]);
        }
        if self.rng.once_in(3) {
            let length = *self.rng.pick(&[0, word.len() - 1, word.len() + 1, 1000]);
            word.resize(length, 0);
        }
        let any_number = *self.rng.pick(&NUMBERS);
        let number = if self.rng.once_in(3) { any_number } else { u64::from(profile.number) };
        let box_number = *self.rng.pick(&[1, 40, 0, 41, 255, 256, 257, (1 << 32) + 1, 1 << 63]);
        self.enqueue(box_number, number, &word)?;
        let length = *self.rng.pick(&[0, 1, CELL - 1, CELL + 1, 2 * CELL]);
        self.peek(any_number, length)?;
        self.dequeue(length)
    }

    /// Writes a byte from outside, calls everything, and puts the sheet back as it was. Half of the
    /// time the byte is a link: byte 0 of a cell, or one of the two in cell 0; else it is an erasure
    /// as often as anything else.
    fn damage(&mut self) -> Checked {
        let before = self.expected.clone();
        let cells = before.len() / CELL;
        let link = self.rng.below(cells + 1);
        let (index, value) = if self.rng.once_in(2) {
            let any = self.rng.below(256);
            let value = if self.rng.once_in(2) { usize::from(ERASURE) } else { any };
            (self.rng.below(before.len()), value)
        } else {
            (if link == cells { 1 } else { link * CELL }, self.rng.below((cells + 1).min(256)))
        };
        for sheet in [self.lent.lent_mut(), &mut self.expected] {
            sheet[index] = value as u8;
        }
        self.peek(1, CELL)?;
        self.enqueue_good()?;
        self.dequeue(CELL)?;
        self.faulty()?;
        for sheet in [self.lent.lent_mut(), &mut self.expected] {
            sheet.copy_from_slice(&before);
        }
        Ok(())
    }
}
