//! What is compared after a call: the answers, and buffers with a margin that no call may write.

use std::fmt;

/// What an output holds before a call, so that a byte that a refusal writes shows.
pub const FILLER: u8 = 170;

/// What the margins hold.
const MARGIN: [u8; 16] = [85; 16];

/// A buffer that is lent, between its margins.
pub struct Buffer(Vec<u8>);

impl Buffer {
    pub fn new(contents: &[u8]) -> Buffer {
        Buffer([&MARGIN, contents, &MARGIN].concat())
    }

    /// An output that nothing was written to.
    pub fn output(length: usize) -> Buffer {
        Buffer::new(&vec![FILLER; length])
    }

    /// What is lent.
    pub fn lent(&self) -> &[u8] {
        &self.0[MARGIN.len()..self.0.len() - MARGIN.len()]
    }

    /// What is lent, to be changed.
    pub fn lent_mut(&mut self) -> &mut [u8] {
        let end = self.0.len() - MARGIN.len();
        &mut self.0[MARGIN.len()..end]
    }

    /// Whether it holds this, and the margins are untouched.
    fn holds(&self, contents: &[u8]) -> bool {
        self.lent() == contents && self.0.starts_with(&MARGIN) && self.0.ends_with(&MARGIN)
    }
}

/// A difference between a coder and the separate one: the input and both answers, in words.
#[derive(Debug)]
pub struct Mismatch(pub String);

pub type Checked<T = ()> = Result<T, Mismatch>;

impl fmt::Display for Mismatch {
    fn fmt(&self, text: &mut fmt::Formatter) -> fmt::Result {
        text.write_str(&self.0)
    }
}

/// A buffer after a call: its name, what the coder left in it, and what it should hold.
pub type After<'a> = (&'static str, &'a Buffer, &'a [u8]);

/// Compares the answers to a call, and every buffer after it. A buffer that differs is shown with
/// its margins.
pub fn compare<Answer: PartialEq + fmt::Display>(
    call: impl FnOnce() -> String,
    [answer, expected]: [Answer; 2],
    buffers: &[After],
) -> Checked {
    let differing = || buffers.iter().filter(|(_, buffer, expected)| !buffer.holds(expected));
    if answer == expected && differing().next().is_none() {
        return Ok(());
    }
    let mut text = format!("call      {}\nanswer    {answer}\nexpected  {expected}", call());
    for (name, buffer, expected) in differing() {
        let expected = Buffer::new(expected).0;
        text += &format!("\n{name} afterwards\nis        {:?}\nexpected  {expected:?}", buffer.0);
    }
    Err(Mismatch(text))
}
