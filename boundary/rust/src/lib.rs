//! Travelring's three calls from Rust: each is the proved function of the same name, with its answer as a type. docs/CONDITIONS.md of the
//! repository tells the rules: what a condition (a tree) is, its bytes, when each answer is given, what trimming does.
//!
//! An assignment is 32 boolean bits, boolean p being the bit of weight 2^p, and 15 numbers for the names 1 to 15, in order. A refusal
//! leaves every lent buffer as it was.
use std::fmt;

extern "C" {
    fn travelring_trim(tree: *const u8, tree_len: usize, ration: u32, out: *mut u8, out_len: usize, report: *mut [u64; 4]) -> u32;
    fn travelring_judge(tree: *const u8, tree_len: usize, flags: u32, numbers: *const Whole, count: usize, report: *mut [u64; 2]) -> u32;
    fn travelring_find(tree: *const u8, tree_len: usize, numbers: *mut Whole, count: usize, report: *mut [u64; 2]) -> u32;
}

/// A number of an assignment.
pub type Whole = i32;

/// Numbers of an assignment.
pub const NUMBERS: usize = 15;
/// Bytes of the longest tree: room for every result.
pub const LONGEST: usize = 190;
/// No tree needs more questions: n(n+1) for 24 ends.
pub const QUESTIONS: u32 = 600;
/// No number that find writes lies farther from 0.
pub const FARTHEST: Whole = 15000015;

/// The answers, by their numbers.
#[derive(Clone, Copy, Debug, PartialEq, Eq, Hash)]
#[repr(u32)]
pub enum Answer {
    /// Finished (trim), judged, or found.
    Finished = 0,
    /// Bytes end inside the tree. Place: input length.
    Ended = 1,
    /// A number's third byte has the top bit, or the form isn't shortest. Place: its first byte.
    Form = 2,
    /// Tag above 7. Place: the tag.
    Tag = 3,
    /// Child count 0 or 1. Place: the count.
    Count = 4,
    /// Name too high (a boolean above 31, a number above 15). Place: the name.
    Name = 5,
    /// Written c above 2,000,000. Place: c.
    Bound = 6,
    /// After a child count, ends read plus ends still owed exceed 24. Place: the connective's tag.
    Crowd = 7,
    /// Bytes follow the tree. Place: first of them.
    After = 8,
    /// Result, a stopped one too, longer than the output buffer (trim). Place: bytes needed.
    Long = 9,
    /// Ration used up before the sweep ended (trim; a stop, and no refusal).
    Stopped = 10,
    /// Assignment buffer isn't 15 numbers (judge and find).
    Unfit = 11,
    /// No satisfying assignment (find).
    Nothing = 12,
}

use Answer::*;

impl Answer {
    const ALL: [Answer; 13] = [Finished, Ended, Form, Tag, Count, Name, Bound, Crowd, After, Long, Stopped, Unfit, Nothing];

    fn numbered(number: u32) -> Answer {
        *Answer::ALL.iter().find(|answer| answer.number() == number).expect("each call answers with a number of the table")
    }

    /// The answer's number.
    pub fn number(self) -> u32 {
        self as u32
    }

    /// Whether it refuses the bytes themselves, which are then no tree.
    pub fn of_reading(self) -> bool {
        (Ended.number()..=After.number()).contains(&self.number())
    }
}

/// An answer that wrote nothing: any but `Finished` and `Stopped`. What its place says is told at each answer.
#[derive(Clone, Copy, Debug, PartialEq, Eq, Hash)]
pub struct Refusal {
    pub answer: Answer,
    pub place: u64,
}

impl fmt::Display for Refusal {
    fn fmt(&self, f: &mut fmt::Formatter) -> fmt::Result {
        write!(f, "answer {} ({:?}), place {}", self.answer.number(), self.answer, self.place)
    }
}

impl std::error::Error for Refusal {}

/// A tree was written: whether the sweep ended or was stopped by its ration, the questions asked, the ends left (constants count 0), the
/// bytes written.
#[derive(Clone, Copy, Debug, PartialEq, Eq, Hash)]
pub struct Trimmed {
    pub finished: bool,
    pub questions: u32,
    pub ends: u32,
    pub bytes: usize,
}

/// The answer, if it is no refusal.
fn taken(number: u32, place: u64) -> Result<Answer, Refusal> {
    match Answer::numbered(number) {
        answer @ (Finished | Stopped) => Ok(answer),
        answer => Err(Refusal { answer, place }),
    }
}

/// Trims the tree with at most `ration` questions. The result is written from the output's start, and bytes beyond it stay.
pub fn trim(tree: &[u8], ration: u32, out: &mut [u8]) -> Result<Trimmed, Refusal> {
    let mut report = [0; 4];
    // SAFETY: here and below, pointers and lengths are those of live slices that do not overlap; the call stays within them.
    let number = unsafe { travelring_trim(tree.as_ptr(), tree.len(), ration, out.as_mut_ptr(), out.len(), &mut report) };
    let answer = taken(number, report[0])?;
    Ok(Trimmed { finished: answer == Finished, questions: report[1] as u32, ends: report[2] as u32, bytes: report[3] as usize })
}

/// Trims the tree into a vector of the result's length.
pub fn trim_to_vec(tree: &[u8], ration: u32) -> Result<(Vec<u8>, Trimmed), Refusal> {
    let mut out = vec![0; LONGEST];
    let trimmed = trim(tree, ration, &mut out)?;
    out.truncate(trimmed.bytes);
    Ok((out, trimmed))
}

/// Whether the tree is true under the assignment.
pub fn judge(tree: &[u8], flags: u32, numbers: &[Whole]) -> Result<bool, Refusal> {
    let mut report = [0; 2];
    let number = unsafe { travelring_judge(tree.as_ptr(), tree.len(), flags, numbers.as_ptr(), numbers.len(), &mut report) };
    taken(number, report[0]).map(|_| report[1] == 1)
}

/// An assignment that makes the tree true: its boolean bits are returned, its numbers written, each from -15,000,015 to 15,000,015.
pub fn find(tree: &[u8], numbers: &mut [Whole]) -> Result<u32, Refusal> {
    let mut report = [0; 2];
    let number = unsafe { travelring_find(tree.as_ptr(), tree.len(), numbers.as_mut_ptr(), numbers.len(), &mut report) };
    taken(number, report[0]).map(|_| report[1] as u32)
}
