//! A file of cases in the making: its input, its expected output, and the names of its groups.

use coder::edition::Edition;
use coder::lines::boxlines;
use coder::profile::{Profile, PROFILES};

/// A run of cases with a name, by the lines of the input (and of the expected output).
pub struct Group {
    pub name: String,
    pub first: usize,
    pub last: usize,
}

#[derive(Default)]
pub struct CaseFile {
    pub input: Vec<u8>,
    pub expected: Vec<u8>,
    pub groups: Vec<Group>,
    lines: usize,
    /// What the names of groups begin with.
    prefix: &'static str,
}

impl CaseFile {
    /// Has the names of the groups that follow begin so.
    pub fn name_groups(&mut self, prefix: &'static str) {
        self.prefix = prefix;
    }

    /// Begins a group; the cases that follow belong to it.
    pub fn group(&mut self, name: impl AsRef<str>) {
        let name = self.prefix.to_string() + name.as_ref();
        self.groups.push(Group { name, first: self.lines + 1, last: self.lines });
    }

    /// Adds one case: a line of input and the line that answers it.
    pub fn case(&mut self, input: impl AsRef<[u8]>, expected: &str) {
        for (file, line) in
            [(&mut self.input, input.as_ref()), (&mut self.expected, expected.as_bytes())]
        {
            assert!(!line.contains(&b'\n'), "a case is one line");
            file.extend(line);
            file.push(b'\n');
        }
        self.lines += 1;
        if let Some(group) = self.groups.last_mut() {
            group.last = self.lines;
        }
    }

    /// How many cases there are.
    pub fn lines(&self) -> usize {
        self.lines
    }

    /// A stream for boxlines as one group, ended or not, and all that is printed for it.
    pub fn stream(name: &str, input: Vec<u8>) -> CaseFile {
        let expected = boxlines(&input).into_bytes();
        let lines = expected.iter().filter(|&&byte| byte == b'\n').count();
        let group = Group { name: name.to_string(), first: 1, last: lines };
        CaseFile { input, expected, groups: vec![group], lines, prefix: "" }
    }
}

/// The profiles, and numbers that name none.
pub const PROFILE_NUMBERS: [u8; 8] = [0, 1, 2, 3, 4, 5, 9, 255];

/// The editions (02, T-03), and numbers that name none: near them, and with bits more or less.
#[rustfmt::skip]
pub const EDITION_NUMBERS: [u8; 18] = [
    0, 1, 12, 13, 14, 15, 16, 17, 18, 19, 20, 9, 2, 31, 141, 146, 254, 255,
];

/// The profile of a number, or profile 1 to choose lengths by where the number names none.
pub fn row_for(number: u8) -> &'static Profile {
    Profile::lookup(number).unwrap_or(&PROFILES[0])
}

/// The profile of this number and edition, or profile 1 or edition 13 where a number names none.
pub fn row_of(edition: u8, number: u8) -> Profile {
    let edition = Edition::lookup(edition).unwrap_or(Edition::Of2013);
    Profile { edition, ..*row_for(number) }
}
