//! Document 01's answers and limits, each once, and the type of a whole number.

pub const FINISHED: u32 = 0;
pub const ENDED: u32 = 1;
pub const FORM: u32 = 2;
pub const TAG: u32 = 3;
pub const COUNT: u32 = 4;
pub const NAME: u32 = 5;
pub const BOUND: u32 = 6;
pub const CROWD: u32 = 7;
pub const AFTER: u32 = 8;
pub const LONG: u32 = 9;
pub const STOPPED: u32 = 10;
pub const UNFIT: u32 = 11;
pub const NOTHING: u32 = 12;

/// A number of an assignment, a bound, or a sum of bounds along a chain.
pub type Whole = i32;

pub const ENDS: usize = 24;
pub const LAST_TAG: u32 = 7;
pub const LAST_BOOLEAN: u32 = 31;
pub const LAST_NUMBER: u32 = 15;
pub const LARGEST_BOUND: Whole = 1_000_000;

/// Groups of seven bits that a number takes at most.
pub const GROUPS: usize = 3;

/// Bytes of the longest tree.
pub const LONGEST: usize = 190;

/// The numbers of an assignment: number 0 is always 0, and not among them.
pub const NUMBERS: usize = LAST_NUMBER as usize;

/// Room for the nodes of a tree: its connectives are fewer than its ends.
pub const NODES: usize = 2 * ENDS;
