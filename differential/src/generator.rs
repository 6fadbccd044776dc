//! The seeded inputs: trees of every shape, the same damaged, and strings over tags and edge bytes.

use crate::dice::Dice;
use rules::document::{write_number, ENDS, HIGHEST_BOOLEAN, HIGHEST_BOUND, HIGHEST_NUMBER, HIGHEST_TAG, HIGHEST_WRITTEN_BOUND};

/// Bytes at and beside the edges of tags, counts, names and number forms.
pub const EDGE_BYTES: [u8; 20] =
    [0x00, 0x01, 0x02, 0x03, 0x04, 0x05, 0x06, 0x07, 0x08, 0x0f, 0x10, 0x18, 0x19, 0x1f, 0x20, 0x7a, 0x7f, 0x80, 0x81, 0xff];

#[derive(Clone, Copy, PartialEq)]
enum Kind {
    Tag,
    Count,
    Boolean,
    Number,
    Bound,
}

/// One number of a written tree and what it stands for.
#[derive(Clone, Copy)]
struct Part {
    kind: Kind,
    value: u32,
}

fn part(kind: Kind, value: u32) -> Part {
    Part { kind, value }
}

fn written(parts: &[Part]) -> Vec<u8> {
    let mut bytes = Vec::new();
    parts.iter().for_each(|part| write_number(part.value, &mut bytes));
    bytes
}

#[derive(Clone, Copy)]
enum Shape {
    /// One connective over ends.
    Wide,
    /// Connectives with two children, one of them an end.
    Deep,
    /// Halves of halves.
    Halves,
    /// Groups of two or three under one connective.
    Groups,
    /// Two to four parts of any size.
    Any,
}

#[derive(Clone, Copy)]
enum Bounds {
    Near,
    Small,
    Extreme,
    Any,
}

/// Which connective stands below another.
#[derive(Clone, Copy)]
enum Nesting {
    Alternating,
    Same,
    Any,
}

/// What one tree is made of; few names make many redundant ends.
struct Theme {
    shape: Shape,
    bounds: Bounds,
    booleans: Vec<u32>,
    numbers: Vec<u32>,
    percent_booleans: usize,
    percent_constants: usize,
    percent_repeats: usize,
    nesting: Nesting,
    /// Ends to take before new ones are made, the last first.
    planned: Vec<Vec<Part>>,
    /// Ends and subtrees made so far, for repeats and near-repeats, with their numbers of ends.
    made: Vec<(usize, Vec<Part>)>,
}

fn names(dice: &mut Dice, highest: u32) -> Vec<u32> {
    let many = if dice.percent(15) { i64::from(highest) + 1 } else { dice.between(1, 5) };
    let mut names: Vec<u32> = (0..many).map(|_| dice.between(0, highest.into()) as u32).collect();
    if dice.percent(20) {
        names.push(highest);
    }
    if dice.percent(60) {
        names.push(0);
    }
    names
}

fn theme(dice: &mut Dice) -> Theme {
    Theme {
        shape: dice.of(&[Shape::Wide, Shape::Deep, Shape::Halves, Shape::Groups, Shape::Any, Shape::Any]),
        bounds: dice.of(&[Bounds::Near, Bounds::Near, Bounds::Small, Bounds::Extreme, Bounds::Any]),
        booleans: names(dice, HIGHEST_BOOLEAN),
        numbers: names(dice, HIGHEST_NUMBER),
        percent_booleans: dice.of(&[0, 10, 30, 50, 100]),
        percent_constants: dice.of(&[0, 0, 0, 3, 10, 40]),
        percent_repeats: dice.of(&[0, 0, 10, 30, 60]),
        nesting: dice.of(&[Nesting::Alternating, Nesting::Alternating, Nesting::Alternating, Nesting::Same, Nesting::Any]),
        planned: Vec::new(),
        made: Vec::new(),
    }
}

/// c as it is written.
fn written_bound(c: i64) -> u32 {
    (if c >= 0 { 2 * c } else { -2 * c - 1 }) as u32
}

/// A bound within the limits.
fn bound(dice: &mut Dice, bounds: Bounds) -> i64 {
    const HIGHEST: i64 = HIGHEST_BOUND;
    match bounds {
        Bounds::Near => dice.between(-2, 2),
        Bounds::Small => dice.between(-70, 70),
        Bounds::Extreme => dice.of(&[-HIGHEST, 1 - HIGHEST, 2 - HIGHEST, -1, 0, 1, HIGHEST - 2, HIGHEST - 1, HIGHEST]),
        Bounds::Any => dice.between(-HIGHEST, HIGHEST),
    }
}

fn difference(tag: u32, x: u32, y: u32, c: i64) -> Vec<Part> {
    vec![part(Kind::Tag, tag), part(Kind::Number, x), part(Kind::Number, y), part(Kind::Bound, written_bound(c))]
}

fn new_end(dice: &mut Dice, theme: &Theme) -> Vec<Part> {
    if dice.percent(theme.percent_constants) {
        return vec![part(Kind::Tag, dice.below(2) as u32)];
    }
    if dice.percent(theme.percent_booleans) {
        return vec![part(Kind::Tag, dice.of(&[4, 5])), part(Kind::Boolean, dice.of(&theme.booleans))];
    }
    let (x, y) = (dice.of(&theme.numbers), dice.of(&theme.numbers));
    let c = bound(dice, theme.bounds);
    difference(dice.of(&[6, 6, 7]), x, y, c)
}

/// An earlier end as it was, negated, with its names exchanged, or with a bound beside its own.
fn like(dice: &mut Dice, end: &[Part]) -> Vec<Part> {
    let mut near = end.to_vec();
    match dice.below(4) {
        1 => near[0].value ^= 1,
        2 if near.len() == 4 => near.swap(1, 2),
        3 if near.len() == 4 => near[3].value = (near[3].value + dice.of(&[1, 2, 3, 4])).min(HIGHEST_WRITTEN_BOUND),
        _ => {}
    }
    near
}

fn end(dice: &mut Dice, theme: &mut Theme) -> Vec<Part> {
    if let Some(planned) = theme.planned.pop() {
        return planned;
    }
    let earlier: Vec<usize> = (0..theme.made.len()).filter(|index| theme.made[*index].0 == 1).collect();
    if !earlier.is_empty() && dice.percent(theme.percent_repeats) {
        let index = dice.of(&earlier);
        return like(dice, &theme.made[index].1.clone());
    }
    let end = new_end(dice, theme);
    theme.made.push((1, end.clone()));
    end
}

/// The numbers of ends of the children of a connective over `ends` ends.
fn shares(dice: &mut Dice, shape: Shape, ends: usize) -> Vec<usize> {
    match shape {
        Shape::Wide => vec![1; ends],
        Shape::Deep if dice.percent(50) => vec![1, ends - 1],
        Shape::Deep => vec![ends - 1, 1],
        Shape::Halves => vec![ends / 2, ends - ends / 2],
        Shape::Groups if ends <= 3 => vec![1; ends],
        Shape::Groups => groups(dice, ends, 3, ends),
        Shape::Any => {
            let children = dice.between(2, ends.min(4) as i64) as usize;
            groups(dice, ends, ends, children)
        }
    }
}

/// Shares of at most `largest` ends, at most `most` of them and at least two.
fn groups(dice: &mut Dice, ends: usize, largest: usize, most: usize) -> Vec<usize> {
    let mut left = ends;
    let mut shares = Vec::new();
    while left > 0 {
        let last = shares.len() + 1 == most;
        let share = if last { left } else { dice.between(1, largest.min(left).min(ends - 1) as i64) as usize };
        shares.push(share);
        left -= share;
    }
    shares
}

fn grow(dice: &mut Dice, theme: &mut Theme, ends: usize, tag: u32) -> Vec<Part> {
    if ends == 1 {
        return end(dice, theme);
    }
    let same_size = theme.made.iter().find(|(size, _)| *size == ends).map(|(_, parts)| parts.clone());
    if let Some(parts) = same_size.filter(|_| dice.percent(theme.percent_repeats / 2)) {
        return parts;
    }
    let shares = shares(dice, theme.shape, ends);
    let mut parts = vec![part(Kind::Tag, tag), part(Kind::Count, shares.len() as u32)];
    for share in shares {
        let below = match theme.nesting {
            Nesting::Alternating => 5 - tag,
            Nesting::Same => tag,
            Nesting::Any => dice.of(&[2, 3]),
        };
        parts.extend(grow(dice, theme, share, below));
    }
    theme.made.push((ends, parts.clone()));
    parts
}

fn tree(dice: &mut Dice, ends: usize) -> Vec<Part> {
    let mut theme = theme(dice);
    let tag = dice.of(&[2, 3]);
    grow(dice, &mut theme, ends, tag)
}

/// x - y <= most, written as itself or as the negation of y - x <= -most - 1.
fn at_most(dice: &mut Dice, x: u32, y: u32, most: i64) -> Vec<Part> {
    if most < -HIGHEST_BOUND || most < HIGHEST_BOUND && dice.percent(30) {
        difference(7, y, x, -most - 1)
    } else {
        difference(6, x, y, most)
    }
}

fn shuffle<T>(dice: &mut Dice, things: &mut [T]) {
    (1..things.len()).for_each(|index| things.swap(index, dice.below(index + 1)));
}

/// All numbers in any order.
fn shuffled_numbers(dice: &mut Dice) -> Vec<u32> {
    let mut names: Vec<u32> = (0..=HIGHEST_NUMBER).collect();
    shuffle(dice, &mut names);
    names
}

/// The chain's ends as they follow each other, backwards, or in any order.
fn in_some_order(dice: &mut Dice, mut ends: Vec<Vec<Part>>) -> Vec<Vec<Part>> {
    match dice.below(3) {
        0 => {}
        1 => ends.reverse(),
        _ => shuffle(dice, &mut ends),
    }
    ends
}

/// Differences over a chain of up to 16 numbers, mostly with one more from its last number to its first (the closed chain sums to nearly
/// zero) or from its first to its last (which the others imply, or nearly).
fn chain(dice: &mut Dice) -> Vec<Vec<Part>> {
    let mut names = shuffled_numbers(dice);
    names.truncate(if dice.percent(40) { names.len() } else { dice.between(2, names.len() as i64) as usize });
    let (first, last) = (names[0], names[names.len() - 1]);
    let bounds = dice.of(&[Bounds::Near, Bounds::Small, Bounds::Extreme, Bounds::Any]);
    let all_one = dice.of(&[None, None, None, Some(-HIGHEST_BOUND - 1), Some(-HIGHEST_BOUND), Some(HIGHEST_BOUND)]);
    let steps: Vec<i64> = names[1..].iter().map(|_| all_one.unwrap_or_else(|| bound(dice, bounds))).collect();
    let mut ends: Vec<Vec<Part>> = names.windows(2).zip(&steps).map(|(pair, step)| at_most(dice, pair[0], pair[1], *step)).collect();
    let sum: i64 = steps.iter().sum();
    let beside = dice.between(-2, 1);
    let (x, y, most) = if dice.percent(60) { (last, first, beside - sum) } else { (first, last, beside + sum) };
    if (-HIGHEST_BOUND - 1..=HIGHEST_BOUND).contains(&most) && dice.percent(80) {
        ends.insert(dice.below(ends.len()), at_most(dice, x, y, most));
    }
    in_some_order(dice, ends)
}

/// Differences and after them weaker ones of the same numbers: most questions are asked before each cut.
fn weakened(dice: &mut Dice) -> Vec<Vec<Part>> {
    let many = dice.between(1, 14) as usize;
    let names = shuffled_numbers(dice);
    let strict: Vec<(u32, u32, i64)> = (0..many).map(|index| (names[index], names[index + 1], dice.between(-9, 9))).collect();
    let weaker = (0..dice.below(ENDS - 1 - many)).map(|_| {
        let (x, y, most) = dice.of(&strict);
        let more = dice.between(0, 3);
        at_most(dice, x, y, most + more)
    });
    let mut ends: Vec<Vec<Part>> = weaker.collect();
    ends.extend(strict.iter().map(|(x, y, most)| at_most(dice, *x, *y, *most)));
    ends
}

/// A tree over planned ends and up to 3 others; under an `or` those are negated, so that what an end's siblings say of it is the same.
fn planned(dice: &mut Dice) -> Vec<Part> {
    let mut theme = theme(dice);
    theme.planned = if dice.percent(70) { chain(dice) } else { weakened(dice) };
    theme.nesting = dice.of(&[Nesting::Same, Nesting::Same, Nesting::Any, Nesting::Alternating]);
    let tag = dice.of(&[2, 2, 3]);
    theme.planned.iter_mut().for_each(|end| end[0].value ^= tag - 2);
    let ends = theme.planned.len() + dice.of(&[0, 0, 1, 3]);
    grow(dice, &mut theme, ends, tag)
}

/// How many ends a tree gets: any number, the largest and the small ones more often.
fn size(dice: &mut Dice) -> usize {
    let highest = dice.of(&[4, 6, 9, 12, 18, ENDS, ENDS, ENDS]);
    if dice.percent(20) {
        highest
    } else {
        dice.between(1, highest as i64) as usize
    }
}

/// A value that the kind of number refuses, or the first beside it that is taken.
fn out_of_range(dice: &mut Dice, kind: Kind) -> u32 {
    const MOST: u32 = ENDS as u32;
    const WRITTEN: u32 = HIGHEST_WRITTEN_BOUND;
    match kind {
        Kind::Tag => dice.of(&[HIGHEST_TAG, HIGHEST_TAG + 1, HIGHEST_TAG + 2, 127, 128, 16_383, 16_384, 2_097_151]),
        Kind::Count => dice.of(&[0, 1, 2, MOST - 1, MOST, MOST + 1, 127, 128, 16_384, 2_097_151]),
        Kind::Boolean => dice.of(&[HIGHEST_BOOLEAN, HIGHEST_BOOLEAN + 1, HIGHEST_BOOLEAN + 2, 127, 128, 16_384, 2_097_151]),
        Kind::Number => dice.of(&[HIGHEST_NUMBER, HIGHEST_NUMBER + 1, HIGHEST_NUMBER + 2, 31, 127, 128, 16_384, 2_097_151]),
        Kind::Bound => dice.of(&[WRITTEN - 1, WRITTEN, WRITTEN + 1, WRITTEN + 2, 2_097_151]),
    }
}

/// The bytes of one number, made longer than they may be: a group of zeros more, a third byte with the top bit, or four bytes.
fn overlong(dice: &mut Dice, value: u32) -> Vec<u8> {
    let mut bytes = Vec::new();
    write_number(value, &mut bytes);
    *bytes.last_mut().expect("a number has a byte") |= 0x80;
    let longest = dice.between(bytes.len() as i64 + 1, 4) as usize;
    bytes.resize(longest.max(2) - 1, 0x80);
    bytes.push(dice.of(&[0x00, 0x00, 0x01, 0x80, 0xff]));
    bytes
}

/// One number of the tree changed, in its value or in its form.
fn damaged_number(dice: &mut Dice, mut parts: Vec<Part>) -> Vec<u8> {
    let kind = dice.of(&[Kind::Tag, Kind::Count, Kind::Boolean, Kind::Number, Kind::Bound]);
    let of_kind: Vec<usize> = (0..parts.len()).filter(|index| parts[*index].kind == kind).collect();
    let index = if of_kind.is_empty() { dice.below(parts.len()) } else { dice.of(&of_kind) };
    if dice.percent(60) {
        parts[index].value = out_of_range(dice, parts[index].kind);
        return written(&parts);
    }
    [written(&parts[..index]), overlong(dice, parts[index].value), written(&parts[index + 1..])].concat()
}

/// A byte changed, put in or taken out.
fn damaged_byte(dice: &mut Dice, mut bytes: Vec<u8>) -> Vec<u8> {
    let index = dice.below(bytes.len());
    match dice.below(5) {
        0 => bytes[index] = dice.next() as u8,
        1 => bytes[index] = dice.of(&EDGE_BYTES),
        2 => bytes[index] ^= 1 << dice.below(8),
        3 => bytes.insert(index, dice.of(&EDGE_BYTES)),
        _ => {
            bytes.remove(index);
        }
    }
    bytes
}

fn string(dice: &mut Dice, longest: usize) -> Vec<u8> {
    let length = dice.below(longest + 1);
    (0..length).map(|_| if dice.percent(90) { dice.of(&EDGE_BYTES) } else { dice.next() as u8 }).collect()
}

fn followed(dice: &mut Dice, mut bytes: Vec<u8>) -> Vec<u8> {
    let longest = if dice.percent(1) { 70_000 } else { 6 };
    bytes.extend(string(dice, longest));
    bytes
}

fn damaged(dice: &mut Dice) -> Vec<u8> {
    let ends = dice.between(1, ENDS as i64) as usize;
    let parts = tree(dice, ends);
    match dice.below(8) {
        0 => {
            let mut bytes = written(&parts);
            bytes.truncate(dice.below(bytes.len()));
            bytes
        }
        1 => followed(dice, written(&parts)),
        2 => {
            let bytes = damaged_number(dice, parts);
            damaged_byte(dice, bytes)
        }
        3 | 4 => damaged_byte(dice, written(&parts)),
        _ => damaged_number(dice, parts),
    }
}

/// One seeded input.
pub fn input(dice: &mut Dice) -> Vec<u8> {
    let ends = size(dice);
    let too_many = dice.between(ENDS as i64, ENDS as i64 + 6) as usize;
    match dice.below(100) {
        0..=44 => written(&tree(dice, ends)),
        45..=54 => written(&planned(dice)),
        55..=89 => damaged(dice),
        90..=94 => written(&tree(dice, too_many)),
        _ => string(dice, 40),
    }
}

/// A condition of at most 7 ends over booleans 0 and 1, numbers 0 to 2 and bounds from -2 to 2, whose assignments can all be tried.
pub fn small_condition(dice: &mut Dice) -> Vec<u8> {
    let mut theme = Theme { booleans: vec![0, 1], numbers: vec![0, 1, 2], bounds: Bounds::Near, percent_repeats: 0, ..theme(dice) };
    let (ends, tag) = (dice.between(1, 7) as usize, dice.of(&[2, 3]));
    written(&grow(dice, &mut theme, ends, tag))
}

/// Every string of that length over the given bytes.
pub fn every_string(length: u32, bytes: &[u8]) -> impl Iterator<Item = Vec<u8>> + '_ {
    let many = bytes.len();
    (0..many.pow(length)).map(move |number| (0..length).map(|digit| bytes[number / many.pow(digit) % many]).collect())
}
