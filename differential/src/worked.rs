//! The self-check that runs first: document 01's worked trees and refusals, and small conditions against every assignment.

use crate::compare::hex;
use crate::dice::Dice;
use crate::generator;
use rules::document::{self, Path, Refusal, Tree, NUMBERS};

/// Hex, ration, questions, whether finished, result, of the worked trees 1 to 12 in order.
const TREES: [(&str, u32, u32, bool, &str); 15] = [
    ("01", 0, 0, true, "01"),
    ("0400", 600, 2, true, "0400"),
    ("0400", 1, 1, false, "0400"),
    ("0202010400", 600, 2, true, "0400"),
    ("030204000500", 600, 1, true, "01"),
    ("020204000400", 600, 3, true, "0400"),
    ("06010100", 600, 1, true, "01"),
    ("06010101", 600, 2, true, "00"),
    ("03020601000606010002", 600, 6, true, "06010006"),
    ("02020601000a0302060100060701000a", 600, 9, true, "06010006"),
    ("02020701020607020107", 600, 2, true, "00"),
    ("0203060102020602030206030105", 600, 2, true, "00"),
    ("0203060102020602030206030103", 600, 6, true, "0203060102020602030206030103"),
    ("0302020204000401020204000402", 600, 8, true, "0302020204000401020204000402"),
    ("02020400030204010500", 600, 10, true, "020204000401"),
];

/// Hex, answer, place, of document 01's list of refusals.
const REFUSED: [(&str, u32, usize); 11] = [
    ("", 1, 0),
    ("020204", 1, 3),
    ("8000", 2, 0),
    ("08", 3, 0),
    ("0201", 4, 1),
    ("0420", 5, 1),
    ("06100000", 5, 1),
    ("06010081897a", 6, 3),
    ("0219", 7, 0),
    ("0218", 1, 2),
    ("040000", 8, 2),
];

/// The trees that the list of refusals says are read.
const READ: [&str; 2] = ["041f", "06010080897a"];

fn bytes(text: &str) -> Vec<u8> {
    (0..text.len() / 2).map(|index| u8::from_str_radix(&text[2 * index..2 * index + 2], 16).expect("two hex digits")).collect()
}

/// Every tree and string named in document 01, as inputs for the library too.
pub fn inputs() -> Vec<Vec<u8>> {
    let trees = TREES.iter().map(|row| row.0);
    let refused = REFUSED.iter().map(|row| row.0);
    trees.chain(refused).chain(READ).map(bytes).collect()
}

fn trees() {
    for (text, ration, questions, finished, result) in TREES {
        let swept = document::swept(&bytes(text), ration).expect("a worked tree is read");
        assert_eq!((swept.questions, swept.finished, hex(&swept.bytes)), (questions, finished, result.to_string()), "worked tree {text}");
    }
}

fn refusals() {
    for (text, answer, place) in REFUSED {
        assert_eq!(document::read(&bytes(text)), Err(Refusal { answer, place }), "refused {text}");
    }
    assert!(READ.iter().all(|text| document::read(&bytes(text)).is_ok()));
}

/// Small conditions name booleans 0 and 1, numbers 0 to 2 and bounds from -2 to 2. A difference or its negation is then at most 3 from zero
/// and a chain has at most two of them, so a condition that holds at all holds with both numbers from -6 to 6: these assignments suffice.
fn truth(tree: &Tree) -> Vec<bool> {
    let numbers = (-6..=6).flat_map(|first| (-6..=6).map(move |second| [first, second]));
    let assignments = numbers.flat_map(|numbers| (0..4).map(move |flags| (flags, numbers)));
    assignments.map(|(flags, numbers)| document::meaning(tree, flags, &document::values(&numbers))).collect()
}

/// The sweep by 000's definition 5 and by trying assignments: an end goes when the tree with a constant in its place means the same.
fn swept_by_assignments(mut tree: Tree) -> (u32, Tree) {
    let mut questions = 0;
    loop {
        let meant = truth(&tree);
        let says_the_same = |(path, constant): &(Path, bool)| truth(&document::with_end_as(&tree, path, *constant)) == meant;
        let cut = document::questions_of(&tree).inspect(|_| questions += 1).find(says_the_same);
        match cut {
            Some((path, constant)) => tree = document::fold(document::with_end_as(&tree, &path, constant)),
            None => return (questions, tree),
        }
    }
}

fn small_conditions(many: u32) {
    let mut dice = Dice::new(1);
    for _ in 0..many {
        let bytes = generator::small_condition(&mut dice);
        let tree = document::read(&bytes).expect("a small condition is read");
        let swept = document::swept(&bytes, u32::MAX).expect("a small condition is read");
        let (questions, result) = swept_by_assignments(document::fold(tree.clone()));
        assert_eq!((swept.questions, document::read(&swept.bytes)), (questions, Ok(result)), "trim {}", hex(&bytes));
        let found = document::find(&bytes, NUMBERS);
        assert_eq!(found.is_ok(), truth(&tree).contains(&true), "find {}", hex(&bytes));
        let holds = found.map(|(flags, numbers)| document::judge(&bytes, flags, &numbers));
        assert!(holds.is_err() || holds == Ok(Ok(true)), "found {}", hex(&bytes));
    }
}

pub fn check() {
    const SMALL: u32 = 10_000;
    trees();
    refusals();
    small_conditions(SMALL);
    println!(
        "self-check: {} worked runs, {} refusals, {SMALL} small conditions against every assignment: as document 01 says",
        TREES.len(),
        REFUSED.len()
    );
}
