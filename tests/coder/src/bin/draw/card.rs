//! The card for the wall: which box has which profile, and what to do with each answer.

use coder::profile::{Profile, PROFILES};

use crate::picture::{Picture, BOLD, CENTRED};

/// Which boxes have which profile, by the firm's hand-over sheet.
const BOXES: [&str; 4] = ["1 to 12", "13 to 20", "21 to 31", "32 to 40"];

/// The speed of the line that the times are for.
const SYMBOLS_A_SECOND: usize = 2400;

/// The limit of every answer, in lines.
const LIMIT: [&str; 5] = [
    "C and M are right while at most ONE symbol of the word is bad.",
    "F is right while none is, besides the one or two that could not be read.",
    "With more bad symbols M and F can give wrong messages; with three, C too.",
    "Nothing shows such an answer. Reading the box again costs milliseconds.",
    "The same answer twice is no proof: a steady fault gives it every time.",
];

/// An answer, what it means, and what to do, in lines.
type Row = (&'static str, &'static str, &'static [&'static str]);

#[rustfmt::skip]
const WORD_ANSWERS: [Row; 9] = [
    ("C", "clean", &["Release or hold, as the two messages say."]),
    ("M", "mended at that place", &["Note box, time and answer, read again. C with",
        "the same two messages: go by them. Anything",
        "else: hold the box, ask the supervisor."]),
    ("F", "filled at those places", &["As M."]),
    ("R 4", "too many symbols bad", &["Read again. Still R 4: hold the box, ask",
        "the supervisor, tell service."]),
    ("R 11", "more than two not readable", &["As R 4."]),
    ("R 3", "a symbol above the levels", &["Read again. The profile is not the cause."]),
    ("R 2", "wrong length for the profile", &["Check the profile by the box, then read again."]),
    ("R 1", "no such profile", &["Check the profile by the box number."]),
    ("R 9", "not a line of the right form", &["Check the line: profile, space, digits or ?."]),
];

#[rustfmt::skip]
const QUEUE_ANSWERS: [Row; 5] = [
    ("R 7", "no such box", &["Check the box number: 1 to 40."]),
    ("R 8", "the sheet is full", &["Take records off first."]),
    ("R 10", "no such record", &["Check the record's number."]),
    ("R 6", "the sheet was damaged", &["Stop using it, keep it for service,",
        "have another laid out."]),
    ("R 5", "the sheet has a wrong size", &["Call the dock engineer."]),
];

/// What the table leaves to the person.
const NOTES: [&str; 3] = [
    "Boxes: by the firm's hand-over sheet. The program does not match box and profile: you do.",
    "Time: of one word, at 2,400 symbols a second. Total: what all symbols of a good word",
    "add up to; with a wrong total the word is not good, with the right one it may still be bad.",
];

/// How an answer with messages is laid out, and what its sign says.
const FIELDS: [&str; 2] = [
    "C, M, F: profile, letter, place, symbol sent there (F: twice, if two), fault, opening, seal.",
    "Fault, of M: + arrived too high (a stray pulse?), - too low (a weak driver?). Else 0.",
];

const LINE: u32 = 21;

fn sized(size: u32, style: &str) -> String {
    format!("font-size=\"{size}\" {style}")
}

pub fn draw() -> Picture {
    let mut picture = Picture::a4();
    picture.text(50, 64, &sized(34, BOLD), "Box line words: what to do");
    let y = draw_profiles(&mut picture, 104);
    let y = draw_limit(&mut picture, y + 4);
    let y = draw_answers(&mut picture, y + 30, "Answers to a word", &WORD_ANSWERS);
    for (line, text) in (0..).zip(FIELDS) {
        picture.text(122, y + 15 + LINE * line, &sized(15, ""), text);
    }
    let y = draw_answers(&mut picture, y + 66, "Answers of the sheet", &QUEUE_ANSWERS);
    let note = "No refusal (R) changes anything. Why, and how often: docs/SERVICE-BOOK.md.";
    picture.text(50, y + 26, &sized(16, ""), note);
    picture
}

/// A profile's row, with the time in milliseconds to a tenth.
fn profile_row(profile: &Profile, boxes: &str) -> [String; 6] {
    let (q, length) = (u32::from(profile.q), profile.word_length());
    let tenths = (10_000 * length + SYMBOLS_A_SECOND / 2) / SYMBOLS_A_SECOND;
    [
        boxes.to_string(),
        profile.number.to_string(),
        length.to_string(),
        format!("0 to {}", q - 1),
        format!("{}.{} ms", tenths / 10, tenths % 10),
        (profile.balancing_value() + q - 1).to_string(),
    ]
}

fn draw_profiles(picture: &mut Picture, top: u32) -> u32 {
    let titles = ["box", "profile", "symbols", "levels", "time", "total"];
    let rows = PROFILES.iter().zip(BOXES).map(|(profile, boxes)| profile_row(profile, boxes));
    let mut y = top;
    for (line, row) in [titles.map(str::to_string)].into_iter().chain(rows).enumerate() {
        let style = if line == 0 { sized(18, "fill=\"#357\"") } else { sized(24, BOLD) };
        for (column, text) in row.iter().enumerate() {
            picture.text(120 + 122 * column as u32, y, &format!("{CENTRED} {style}"), text);
        }
        picture.path(&format!("M50 {}H790", y + 10), "stroke=\"#bbb\"");
        y += 33;
    }
    for note in NOTES {
        picture.text(50, y, &sized(15, ""), note);
        y += LINE;
    }
    y
}

fn draw_limit(picture: &mut Picture, top: u32) -> u32 {
    let height = 28 * LIMIT.len() as u32 + 16;
    picture.rectangle(50, top, 740, height, "fill=\"#fee\" stroke=\"#c33\" stroke-width=\"3\"");
    for (line, text) in LIMIT.iter().enumerate() {
        let style = if line == 0 { sized(19, BOLD) } else { sized(17, "") };
        picture.text(66, top + 30 + 28 * line as u32, &style, text);
    }
    top + height
}

fn draw_answers(picture: &mut Picture, top: u32, title: &str, rows: &[Row]) -> u32 {
    picture.text(50, top, &sized(22, BOLD), title);
    let mut y = top + 12;
    for (answer, meaning, action) in rows {
        picture.path(&format!("M50 {y}H790"), "stroke=\"#bbb\"");
        picture.text(50, y + LINE, &sized(18, BOLD), answer);
        picture.text(122, y + LINE, &sized(16, ""), meaning);
        for (line, text) in action.iter().enumerate() {
            picture.text(388, y + LINE * (line as u32 + 1), &sized(17, ""), text);
        }
        y += LINE * action.len() as u32 + 11;
    }
    y
}
