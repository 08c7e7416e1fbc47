//! The walk of the weight through all choices, of a real pair of profile 1.

use std::fmt::Write as _;

use coder::balance::{balancing_value, integrate, weight, BalancingChoice};
use coder::codeword::{codewords, interleave, Messages};
use coder::component::encode_component;
use coder::profile::Profile;

use crate::picture::{Picture, BOLD, CENTRED, END};

/// The walk, and where it is drawn.
struct Walk {
    /// The length of a round.
    m: usize,
    /// The weight at the start, then at every choice: s upward and, for each s, v from m down to 1.
    weights: Vec<u32>,
    target: u32,
    earliest: BalancingChoice,
}

impl Walk {
    fn new(profile: &Profile, messages: &Messages) -> Self {
        let (edition, q) = (profile.edition, profile.q);
        let components = messages.each_ref().map(|message| encode_component(profile, message));
        let x = interleave(edition, &components);
        let choices = (0..q)
            .flat_map(|s| (1..=x.len()).rev().map(move |v| BalancingChoice { s, v }))
            .map(|choice| weight(&choice.apply(edition, q, &x)));
        let start = weight(&integrate(edition, q, &x));
        Walk {
            m: x.len(),
            weights: [start].into_iter().chain(choices).collect(),
            target: balancing_value(q, x.len()),
            earliest: codewords(profile, messages)[0].0,
        }
    }

    fn step_of(&self, choice: BalancingChoice) -> usize {
        (usize::from(choice.s) + 1) * self.m + 1 - choice.v
    }

    fn left(&self, step: usize) -> u32 {
        70 + 16 * step as u32
    }

    fn top(&self, weight: u32) -> u32 {
        let most = self.weights.iter().max().copied().unwrap_or_default();
        56 + 12 * (most - weight)
    }

    fn bottom(&self) -> u32 {
        self.top(self.weights.iter().min().copied().unwrap_or_default())
    }
}

pub fn draw(profile: &Profile, messages: &Messages) -> Picture {
    let walk = Walk::new(profile, messages);
    let last = walk.weights.len() - 1;
    let mut picture = Picture::new(walk.left(last) + 60, walk.bottom() + 100);
    picture.text(10, 18, BOLD, "The weight of w, from choice to choice of the walk");
    let legend =
        "A dot is a choice, a square the start of a round with its weight, red is on the middle. \
                  Upward it goes by ones.";
    picture.text(10, 35, "", legend);
    draw_rounds(&mut picture, &walk);
    draw_balancing_value(&mut picture, &walk);
    let mut stairs = format!("M{} {}", walk.left(0), walk.top(walk.weights[0]));
    for (step, &weight) in walk.weights.iter().enumerate().skip(1) {
        write!(stairs, "H{}V{}", walk.left(step), walk.top(weight)).expect("a string takes all");
    }
    picture.path(&stairs, "stroke=\"#abd\"");
    for (step, &weight) in walk.weights.iter().enumerate() {
        draw_dot(&mut picture, &walk, step, weight);
    }
    picture
}

/// The rounds with their choices v below, and both orders.
fn draw_rounds(picture: &mut Picture, walk: &Walk) {
    let (bottom, last) = (walk.bottom(), walk.weights.len() - 1);
    for step in 0..=last {
        if step.is_multiple_of(walk.m) {
            let path = format!("M{} 46V{}", walk.left(step), bottom + 8);
            picture.path(&path, "stroke=\"#bbb\" stroke-dasharray=\"2 3\"");
        }
        if step > 0 {
            let v = walk.m - (step - 1) % walk.m;
            let style = format!("{CENTRED} font-size=\"9\"");
            picture.text(walk.left(step), bottom + 22, &style, &v.to_string());
        }
    }
    picture.text(52, bottom + 22, END, "v");
    for s in 0..last / walk.m {
        let (start, end) = (walk.left(s * walk.m), walk.left((s + 1) * walk.m));
        picture.text((start + end) / 2, bottom + 42, CENTRED, &format!("round s = {s}"));
        picture.text(start + 8, bottom + 60, "", "the walk →");
        picture.text(end - 8, bottom + 60, END, "← the writer: v = 1, 2, 3 ..");
    }
    let note = "Both take round after round, s from 0 up: the walk each round from left to right, \
                the writer each round from right to left.";
    picture.text(walk.left(0), bottom + 84, "", note);
}

fn draw_balancing_value(picture: &mut Picture, walk: &Walk) {
    let (y, right) = (walk.top(walk.target), walk.left(walk.weights.len() - 1));
    picture.path(&format!("M70 {y}H{right}"), "stroke=\"#c33\" stroke-dasharray=\"5 3\"");
    picture.text(62, y + 4, END, &format!("middle {}", walk.target));
}

/// A choice's dot; a square with its weight where a round starts, red where the choice balances.
fn draw_dot(picture: &mut Picture, walk: &Walk, step: usize, weight: u32) {
    let (x, y) = (walk.left(step), walk.top(weight));
    if step.is_multiple_of(walk.m) {
        picture.rectangle(x - 5, y - 5, 10, 10, "fill=\"white\" stroke=\"#357\"");
        // Beside the square, clear of the line that goes on from it.
        let falls = walk.weights.get(step + 1).is_some_and(|&next| next < weight);
        let (right, down) = if falls { (20, 4) } else { (9, 15) };
        picture.text(x + right, y + down, BOLD, &weight.to_string());
    }
    let used = step == walk.step_of(walk.earliest);
    match (weight == walk.target, used) {
        (true, true) => picture.circle(x, y, 6, "#c33", "#c33"),
        (true, false) => picture.circle(x, y, 5, "white", "#c33"),
        _ => picture.circle(x, y, 2, "#357", "#357"),
    }
    if used {
        let BalancingChoice { s, v } = walk.earliest;
        let note = format!("the writer's choice: s = {s}, v = {v}");
        picture.path(&format!("M{x} {}V70", y - 8), "stroke=\"#c33\"");
        picture.text(x + 4, 66, &format!("{END} fill=\"#c33\""), &note);
    }
}
