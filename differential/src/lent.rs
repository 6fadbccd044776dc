//! Memory lent to the library: the contents between two guards, all of it noise that differs from call to call, so that a byte written
//! outside is seen and a byte read outside changes the outcome sooner or later.

use crate::dice::Dice;
use rules::document::Whole;

const GUARD: usize = 64;

pub struct Lent<T> {
    before: Vec<T>,
    now: Vec<T>,
    start: usize,
    length: usize,
}

/// What noise is made of.
pub trait Noise: Copy + PartialEq {
    fn of(bits: u64) -> Self;
}

impl Noise for u8 {
    fn of(bits: u64) -> u8 {
        bits as u8
    }
}

impl Noise for Whole {
    fn of(bits: u64) -> Whole {
        bits as Whole
    }
}

impl Noise for u64 {
    fn of(bits: u64) -> u64 {
        bits
    }
}

impl<T: Noise> Lent<T> {
    /// Noise of that length; the guard before it is a little longer at times, so that bytes start at every alignment.
    pub fn noise(dice: &mut Dice, length: usize) -> Lent<T> {
        let guard = GUARD / size_of::<T>();
        let start = guard + dice.below(8);
        let now: Vec<T> = (0..start + length + guard).map(|_| T::of(dice.next())).collect();
        Lent { before: now.clone(), now, start, length }
    }

    pub fn holding(dice: &mut Dice, contents: &[T]) -> Lent<T> {
        let mut lent = Lent::noise(dice, contents.len());
        lent.now[lent.start..lent.start + lent.length].copy_from_slice(contents);
        lent.before = lent.now.clone();
        lent
    }

    pub fn contents(&self) -> &[T] {
        &self.now[self.start..self.start + self.length]
    }

    pub fn contents_before(&self) -> &[T] {
        &self.before[self.start..self.start + self.length]
    }

    /// The pointer that the library gets; it may reach the guards too, so that what it does there is defined and seen.
    pub fn pointer(&mut self) -> *mut T {
        self.now.as_mut_ptr().wrapping_add(self.start)
    }

    pub fn length(&self) -> usize {
        self.length
    }

    pub fn untouched(&self) -> bool {
        self.now == self.before
    }

    pub fn guards_stand(&self) -> bool {
        let end = self.start + self.length;
        self.now[..self.start] == self.before[..self.start] && self.now[end..] == self.before[end..]
    }
}
