//! Draws the pictures of docs/SERVICE-BOOK.md from real words of profile 1, and the card for the
//! wall: the walk of the weight, the parts of a word, a codeword beside another as near as any. The swing by
//! both line rules is that of a pair of profile 3.

mod card;
mod picture;
mod swing;
mod walk;
mod words;

use std::path::Path;
use std::{env, fs, io, process};

use coder::profile::PROFILES;

fn main() -> io::Result<()> {
    let Some(folder) = env::args().nth(1) else {
        eprintln!("usage: draw FOLDER");
        process::exit(2);
    };
    let profile = &PROFILES[0];
    // The pair of 01's "Checked by hand": 0 0 0 0 1 and zeros.
    let messages = [vec![0, 0, 0, 0, 1], vec![0; 5]];
    for (name, picture) in [
        ("balance.svg", walk::draw(profile, &messages)),
        ("anatomy.svg", words::draw_anatomy(profile, &messages)),
        ("neighbours.svg", words::draw_neighbours(profile, &messages)),
        ("swing.svg", swing::draw(&PROFILES[2], &swing::messages())),
        ("card.svg", card::draw()),
    ] {
        fs::write(Path::new(&folder).join(name), picture.svg())?;
        println!("{name}");
    }
    Ok(())
}
