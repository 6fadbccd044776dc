//! The differential test: the proved library behind its C boundary against a plain implementation of document 01, on seeded inputs.
//! Usage: differential COUNT SEED. It ends with status 1 if anything differed or an answer of document 01 was never seen.

mod compare;
mod dice;
mod generator;
mod lent;
mod library;
mod worked;

use compare::{Tally, CALLS};
use dice::Dice;
use rules::document::{self, ANSWERS, ENDS};
use std::process::ExitCode;
use std::time::Instant;

/// What document 01 names, with every ration and every room up to one more than needed.
fn worked_inputs(tally: &mut Tally, dice: &mut Dice) {
    for bytes in worked::inputs() {
        tally.compare(dice, &bytes);
        let needed = document::swept(&bytes, u32::MAX).map_or(0, |swept| swept.questions);
        (0..=needed + 1).for_each(|ration| every_room(tally, dice, &bytes, ration));
    }
}

fn every_room(tally: &mut Tally, dice: &mut Dice, bytes: &[u8], ration: u32) {
    let swept = document::swept(bytes, ration);
    let needed = swept.as_ref().map_or(0, |swept| swept.bytes.len());
    for room in 0..=needed + 1 {
        tally.trim(dice, bytes, ration, room, &swept.clone().and_then(|swept| swept.in_room(room)));
    }
}

/// Every string of up to 2 bytes, and those of 3 and 4 over tags and edge bytes.
fn short_strings(tally: &mut Tally, dice: &mut Dice) {
    let every_byte: Vec<u8> = (0..=255).collect();
    let up_to_2 = (0..=2).flat_map(|length| generator::every_string(length, &every_byte));
    let of_3_and_4 = (3..=4).flat_map(|length| generator::every_string(length, &generator::EDGE_BYTES));
    up_to_2.chain(of_3_and_4).for_each(|bytes| tally.compare(dice, &bytes));
}

fn print(tally: &Tally) {
    let heads = CALLS.map(|call| format!("{call:>10} {:>7}", "places"));
    println!("answer {}", heads.join(" "));
    for answer in 0..ANSWERS {
        let columns = [0, 1, 2].map(|call| format!("{:>10} {:>7}", tally.answers[call][answer], tally.places[call][answer].len()));
        println!("{answer:>6} {}", columns.join(" "));
    }
    println!("trees of 1 to {ENDS} ends: {:?}", &tally.by_ends[1..]);
    println!("trees of 0 to {} connectives one in another: {:?}", ENDS - 1, tally.by_depth);
    println!("most questions asked of one tree: {}", tally.most_questions);
    let calls: u64 = tally.answers.iter().flatten().sum();
    println!("calls: {calls}; differed: {}", tally.differed);
}

fn argument(position: usize) -> u64 {
    let text = std::env::args().nth(position).expect("usage: differential COUNT SEED");
    text.parse().expect("COUNT and SEED are decimals")
}

fn main() -> ExitCode {
    let (count, seed) = (argument(1), argument(2));
    let start = Instant::now();
    worked::check();
    let (mut tally, mut dice) = (Tally::new(), Dice::new(seed));
    worked_inputs(&mut tally, &mut dice);
    println!("inputs of document 01: {}", tally.inputs);
    let named = tally.inputs;
    short_strings(&mut tally, &mut dice);
    println!("every string of up to 2 bytes, and of 3 and 4 over {} bytes: {}", generator::EDGE_BYTES.len(), tally.inputs - named);
    (0..count).for_each(|_| {
        let bytes = generator::input(&mut dice);
        tally.compare(&mut dice, &bytes);
    });
    println!("seeded inputs: {count} with seed {seed}; inputs in all: {}", tally.inputs);
    print(&tally);
    let unseen = tally.never_seen();
    println!("answers of document 01 never seen: {}", if unseen.is_empty() { "none".to_string() } else { unseen.join(", ") });
    println!("seconds: {}", start.elapsed().as_secs());
    ExitCode::from(u8::from(tally.differed > 0 || !unseen.is_empty()))
}
