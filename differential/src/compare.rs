//! One input given to the library and to the plain implementation, and a count of what was answered and what differed.

use crate::dice::Dice;
use crate::lent::Lent;
use crate::library;
use rules::document::{self, Refusal, Swept, Whole, ANSWERS, ENDS, HIGHEST_BOOLEAN, HIGHEST_BOUND, LONGEST, NUMBERS};
use rules::document::{DONE, NOT_15_NUMBERS, NO_ASSIGNMENT, RATION_USED_UP, REFUSALS_OF_READING, ROOM_TOO_SMALL};
use std::collections::BTreeSet;
use std::fmt::Write;

pub const CALLS: [&str; 3] = ["trim", "judge", "find"];
const TRIM: usize = 0;
const JUDGE: usize = 1;
const FIND: usize = 2;

/// The answers that document 01 has for each call beside DONE and the refusals of the bytes, which all have.
const OWN: [&[u32]; 3] = [&[ROOM_TOO_SMALL, RATION_USED_UP], &[NOT_15_NUMBERS], &[NOT_15_NUMBERS, NO_ASSIGNMENT]];

/// The answers that document 01 has for a call.
fn possible(call: usize) -> impl Iterator<Item = usize> {
    let all = [DONE].into_iter().chain(REFUSALS_OF_READING).chain(OWN[call].iter().copied());
    all.map(|answer| answer as usize)
}

/// "each from -15,000,015 to 15,000,015": a chain of fifteen steps, each one more than a bound.
const FURTHEST_NUMBER: Whole = NUMBERS as Whole * (HIGHEST_BOUND as Whole + 1);

pub struct Tally {
    pub inputs: u64,
    pub answers: [[u64; ANSWERS]; 3],
    pub places: [[BTreeSet<u64>; ANSWERS]; 3],
    pub differed: u64,
    /// How many of the inputs were trees of 0 ends and more, and of 0 connectives one in another and more.
    pub by_ends: [u64; ENDS + 1],
    pub by_depth: [u64; ENDS],
    pub most_questions: u32,
}

pub fn hex(bytes: &[u8]) -> String {
    bytes.iter().fold(String::new(), |mut text, byte| {
        let _ = write!(text, "{byte:02x}");
        text
    })
}

/// An assignment lent to judge.
struct Assignment {
    flags: u32,
    numbers: Vec<Whole>,
}

/// What the C boundary is to return and report for an answer of the plain implementation.
fn trim_expected(expected: &Result<Swept, Refusal>) -> (u32, [u64; 4]) {
    match expected {
        Ok(swept) => {
            let answer = if swept.finished { DONE } else { RATION_USED_UP };
            (answer, [0, u64::from(swept.questions), swept.ends as u64, swept.bytes.len() as u64])
        }
        Err(refusal) => (refusal.answer, [refusal.place as u64, 0, 0, 0]),
    }
}

fn judge_expected(expected: &Result<bool, Refusal>) -> (u32, [u64; 2]) {
    match expected {
        Ok(value) => (DONE, [0, u64::from(*value)]),
        Err(refusal) => (refusal.answer, [refusal.place as u64, 0]),
    }
}

impl Tally {
    pub fn new() -> Tally {
        Tally {
            inputs: 0,
            answers: [[0; ANSWERS]; 3],
            places: Default::default(),
            differed: 0,
            by_ends: [0; ENDS + 1],
            by_depth: [0; ENDS],
            most_questions: 0,
        }
    }

    /// Counts one call of the library; `same` is whether all that it returned and wrote is as document 01 has it,
    /// `both` what was lent and the two outcomes, for a difference.
    fn count(&mut self, call: usize, answer: u32, place: u64, same: bool, both: impl FnOnce() -> [String; 3]) {
        if let Some(seen) = self.answers[call].get_mut(answer as usize) {
            *seen += 1;
            self.places[call][answer as usize].insert(place);
        }
        if same {
            return;
        }
        self.differed += 1;
        let [lent, document, library] = both();
        println!("DIFFERED {} {lent}\n  document: {document}\n  library:  {library}", CALLS[call]);
    }

    pub fn trim(&mut self, dice: &mut Dice, bytes: &[u8], ration: u32, room: usize, expected: &Result<Swept, Refusal>) {
        let (mut tree, mut out, mut report) = (Lent::holding(dice, bytes), Lent::noise(dice, room), Lent::noise(dice, 4));
        let answer = library::trim(&mut tree, ration, &mut out, &mut report);
        let wanted = trim_expected(expected);
        let result = expected.as_ref().map_or(&[][..], |swept| &swept.bytes);
        let wanted_out = [result, &out.contents_before()[result.len()..]].concat();
        let guards = tree.untouched() && out.guards_stand() && report.guards_stand();
        let same = guards && (answer, report.contents()) == (wanted.0, &wanted.1[..]) && out.contents() == wanted_out;
        let said = report.contents();
        self.count(TRIM, answer, said[0], same, || {
            let lent = format!("[{}] ration {ration} room {room}", hex(bytes));
            let document = format!("answer {} report {:?} out {}", wanted.0, wanted.1, hex(&wanted_out));
            [lent, document, format!("answer {answer} report {said:?} out {} guards {guards}", hex(out.contents()))]
        });
    }

    fn trim_in_a_room(&mut self, dice: &mut Dice, bytes: &[u8], ration: u32, swept: Result<Swept, Refusal>) {
        let room = room_beside(dice, swept.as_ref().map_or(0, |swept| swept.bytes.len()));
        self.trim(dice, bytes, ration, room, &swept.and_then(|swept| swept.in_room(room)));
    }

    fn judge(&mut self, dice: &mut Dice, bytes: &[u8], given: &Assignment) {
        let (mut tree, mut numbers, mut report) = (Lent::holding(dice, bytes), Lent::holding(dice, &given.numbers), Lent::noise(dice, 2));
        let answer = library::judge(&mut tree, given.flags, &mut numbers, &mut report);
        let wanted = judge_expected(&document::judge(bytes, given.flags, &given.numbers));
        let guards = tree.untouched() && numbers.untouched() && report.guards_stand();
        let same = guards && (answer, report.contents()) == (wanted.0, &wanted.1[..]);
        let said = report.contents();
        self.count(JUDGE, answer, said[0], same, || {
            let lent = format!("[{}] flags {:08x} numbers {:?}", hex(bytes), given.flags, given.numbers);
            let document = format!("answer {} report {:?}", wanted.0, wanted.1);
            [lent, document, format!("answer {answer} report {said:?} guards {guards}")]
        });
    }

    /// "Which satisfying assignment it shows is free": the one shown must satisfy, and lie in the range.
    fn find(&mut self, dice: &mut Dice, bytes: &[u8], buffer: usize, expected: &Result<(u32, [Whole; NUMBERS]), Refusal>) {
        let (mut tree, mut numbers, mut report) = (Lent::holding(dice, bytes), Lent::noise(dice, buffer), Lent::noise(dice, 2));
        let answer = library::find(&mut tree, &mut numbers, &mut report);
        let said = report.contents();
        let guards = tree.untouched() && numbers.guards_stand() && report.guards_stand();
        let same = guards
            && match expected {
                Ok(_) => answer == DONE && said[0] == 0 && shows(bytes, said[1], numbers.contents()),
                Err(refusal) => (answer, said) == (refusal.answer, &[refusal.place as u64, 0][..]) && numbers.untouched(),
            };
        self.count(FIND, answer, said[0], same, || {
            let library = format!("answer {answer} report {said:?} numbers {:?} guards {guards}", numbers.contents());
            [format!("[{}] buffer {buffer}", hex(bytes)), format!("{expected:?}"), library]
        });
    }

    fn note_shape(&mut self, bytes: &[u8], questions: u32) {
        if let Ok(tree) = document::read(bytes) {
            self.by_ends[document::count_ends(&tree)] += 1;
            self.by_depth[document::depth(&tree)] += 1;
        }
        self.most_questions = self.most_questions.max(questions);
    }

    /// All three calls on one input, trim with the whole ration and with two at or beside an edge.
    pub fn compare(&mut self, dice: &mut Dice, bytes: &[u8]) {
        self.inputs += 1;
        let whole = document::swept(bytes, u32::MAX);
        let needed = whole.as_ref().map_or(0, |swept| swept.questions);
        self.note_shape(bytes, needed);
        self.trim_in_a_room(dice, bytes, u32::MAX, whole);
        for _ in 0..2 {
            let ration = ration_beside(dice, needed);
            self.trim_in_a_room(dice, bytes, ration, document::swept(bytes, ration));
        }
        let found = document::find(bytes, NUMBERS);
        let given = assignment(dice, &found);
        self.judge(dice, bytes, &given);
        let buffer = buffer(dice);
        let expected = if buffer == NUMBERS { found } else { document::find(bytes, buffer) };
        self.find(dice, bytes, buffer, &expected);
    }

    /// The answers that document 01 has and the library never gave.
    pub fn never_seen(&self) -> Vec<String> {
        let of_call = |call: usize| possible(call).map(move |answer| (call, answer));
        let unseen = (0..3).flat_map(of_call).filter(|(call, answer)| self.answers[*call][*answer] == 0);
        unseen.map(|(call, answer)| format!("{} {answer}", CALLS[call])).collect()
    }
}

/// Whether what find wrote satisfies the tree and lies in the range.
fn shows(bytes: &[u8], flags: u64, numbers: &[Whole]) -> bool {
    let in_range = numbers.iter().all(|number| (-FURTHEST_NUMBER..=FURTHEST_NUMBER).contains(number));
    u32::try_from(flags).is_ok_and(|flags| in_range && document::judge(bytes, flags, numbers) == Ok(true))
}

fn ration_beside(dice: &mut Dice, needed: u32) -> u32 {
    let within = dice.below(needed as usize + 1) as u32;
    let any = dice.next() as u32;
    dice.of(&[0, 1, needed.saturating_sub(1), needed, needed + 1, u32::MAX, within, within, any])
}

fn room_beside(dice: &mut Dice, needed: usize) -> usize {
    let larger = dice.below(400);
    dice.of(&[0, needed.saturating_sub(1), needed, needed, needed + 1, LONGEST, LONGEST, larger])
}

fn buffer(dice: &mut Dice) -> usize {
    let any = dice.below(40);
    if dice.percent(85) {
        NUMBERS
    } else {
        dice.of(&[0, NUMBERS - 1, NUMBERS + 1, 1, any])
    }
}

fn number(dice: &mut Dice, style: usize) -> Whole {
    const BOUND: Whole = HIGHEST_BOUND as Whole;
    match style {
        0 => dice.between(-3, 3) as Whole,
        1 => dice.between(-HIGHEST_BOUND - 2, HIGHEST_BOUND + 2) as Whole,
        2 => dice.of(&[Whole::MIN, Whole::MIN + 1, -BOUND - 1, -BOUND, -1, 0, 1, BOUND, BOUND + 1, Whole::MAX - 1, Whole::MAX]),
        _ => dice.next() as Whole,
    }
}

/// An assignment for judge: the one the plain search found, that one with a number and a boolean changed, or any.
fn assignment(dice: &mut Dice, found: &Result<(u32, [Whole; NUMBERS]), Refusal>) -> Assignment {
    let style = dice.below(4);
    let any = Assignment { flags: dice.next() as u32, numbers: (0..NUMBERS).map(|_| number(dice, style)).collect() };
    let mut given = match found {
        Ok((flags, numbers)) if dice.percent(60) => Assignment { flags: *flags, numbers: numbers.to_vec() },
        _ => any,
    };
    if dice.percent(50) {
        given.flags ^= 1 << dice.below(HIGHEST_BOOLEAN as usize + 1);
        let beside = &mut given.numbers[dice.below(NUMBERS)];
        *beside = beside.wrapping_add(dice.of(&[-1, 1]));
    }
    given.numbers.resize(buffer(dice), 0);
    given
}
