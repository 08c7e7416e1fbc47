//! The page that says which lines of which file hold what, so that a case has a name.

use crate::case_file::{CaseFile, Group};

const HEAD: &str = "\
# The vectors

`generate` makes this page with the vectors; the formats are in [README.md](README.md).
Lines are those of the input, and the expected output has one for each; where inputs share one, their answers stand in this order.
A near miss is a decoder or, in conversions, a converter with one slip; coder/src/slip.rs says what the slip is.
In pairs it is an encoder by line rule 2, and coder/src/line_rule_slip.rs says so.

## Files

| input | lines | bytes | longest line |
|---|---|---|---|
";

const GROUP_HEAD: &str = "
## What stands where

| file | lines | cases |
|---|---|---|
";

/// The rows of both tables.
#[derive(Default)]
pub struct Page {
    files: String,
    groups: String,
}

impl Page {
    /// Adds a file's row and the rows of its groups.
    pub fn add(&mut self, path: &str, file: &CaseFile) {
        let lines = file.input.split(|&byte| byte == b'\n');
        let longest = lines.map(<[u8]>::len).max().unwrap_or(0);
        let (count, bytes) = (file.lines(), file.input.len());
        self.files += &format!("| {path} | {count} | {bytes} | {longest} |\n");
        for Group { name, first, last } in &file.groups {
            let lines = if last < first { "none".into() } else { format!("{first} to {last}") };
            self.groups += &format!("| {path} | {lines} | {name} |\n");
        }
    }

    /// The whole page.
    pub fn text(&self) -> String {
        [HEAD, &self.files, GROUP_HEAD, &self.groups].concat()
    }
}
