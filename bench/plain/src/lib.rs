//! Document 01 in plain Rust, unverified: read, judge, find, trim; to measure the proved library against, and to compare it with.
//!
//! It shares no code with the proved library, but its table of differences and its search are of the same design, so a fault of that
//! design could be in both. Each call answers every input with document 01's number and place.

pub mod folding;
pub mod limits;
pub mod reading;
pub mod search;
pub mod sweep;
pub mod tree;
pub mod writing;

use limits::{Whole, FINISHED, LONG, NOTHING, NUMBERS, STOPPED, UNFIT};
use tree::Assignment;

/// "place": where in the bytes, or for answer 9 how many are needed; 0 where document 01's table has 0.
#[derive(Clone, Copy, PartialEq, Eq, Debug)]
pub struct Judged {
    pub answer: u32,
    pub place: u64,
    pub value: bool,
}

#[derive(Clone, Copy, PartialEq, Eq, Debug)]
pub struct Found {
    pub answer: u32,
    pub place: u64,
    pub bits: u32,
}

#[derive(Clone, Copy, PartialEq, Eq, Debug)]
pub struct Trimmed {
    pub answer: u32,
    pub place: u64,
    pub questions: u32,
    pub ends: u32,
    /// How many bytes were written.
    pub bytes: u64,
}

/// The 15 numbers of names 1 to 15, behind number 0, which is always 0; none if there are not 15 ("11 comes first").
fn numbers_of(given: &[Whole]) -> Option<[Whole; NUMBERS + 1]> {
    let given: [Whole; NUMBERS] = given.try_into().ok()?;
    let mut numbers = [0; NUMBERS + 1];
    numbers[1..].copy_from_slice(&given);
    Some(numbers)
}

/// Whether the condition is true under the assignment given.
pub fn judge(bytes: &[u8], bits: u32, numbers: &[Whole]) -> Judged {
    let Some(numbers) = numbers_of(numbers) else {
        return Judged { answer: UNFIT, place: 0, value: false };
    };
    match reading::read(bytes) {
        Err(why) => Judged { answer: why.answer, place: why.place as u64, value: false },
        Ok(nodes) => Judged { answer: FINISHED, place: 0, value: tree::holds(&nodes, 0, &Assignment { bits, numbers }) },
    }
}

/// An assignment that makes the condition true: its numbers are written, its bits returned. All other answers write nothing.
pub fn find(bytes: &[u8], numbers: &mut [Whole]) -> Found {
    if numbers.len() != NUMBERS {
        return Found { answer: UNFIT, place: 0, bits: 0 };
    }
    match reading::read(bytes) {
        Err(why) => Found { answer: why.answer, place: why.place as u64, bits: 0 },
        Ok(nodes) => match search::satisfy(&nodes, &[(0, true)]) {
            None => Found { answer: NOTHING, place: 0, bits: 0 },
            Some(found) => {
                numbers.copy_from_slice(&found.numbers[1..]);
                Found { answer: FINISHED, place: 0, bits: found.bits }
            }
        },
    }
}

/// Trims the condition with at most `ration` questions. Answers 0 and 10 write the result from the output's start; no other writes.
pub fn trim(bytes: &[u8], ration: u32, out: &mut [u8]) -> Trimmed {
    let refused = |answer, place| Trimmed { answer, place, questions: 0, ends: 0, bytes: 0 };
    let nodes = match reading::read(bytes) {
        Err(why) => return refused(why.answer, why.place as u64),
        Ok(nodes) => nodes,
    };
    let swept = sweep::sweep(&nodes, ration);
    let result = writing::write(&swept.nodes);
    let bytes = result.len() as u64;
    if out.len() < result.len() {
        return refused(LONG, bytes);
    }
    out[..result.len()].copy_from_slice(&result);
    let ends = tree::ends(&swept.nodes).count() as u32;
    Trimmed { answer: if swept.finished { FINISHED } else { STOPPED }, place: 0, questions: swept.asked, ends, bytes }
}
