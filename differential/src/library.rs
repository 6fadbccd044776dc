//! The proved library behind its C boundary: a slice is a pointer and a length, an array of known length a pointer.

use crate::lent::Lent;
use rules::document::Whole;

#[link(name = "boundary", kind = "static")]
extern "C" {
    fn travelring_trim(tree: *const u8, tree_length: usize, ration: u32, out: *mut u8, out_length: usize, report: *mut u64) -> u32;
    fn travelring_judge(tree: *const u8, tree_length: usize, flags: u32, numbers: *const Whole, many: usize, report: *mut u64) -> u32;
    fn travelring_find(tree: *const u8, tree_length: usize, numbers: *mut Whole, many: usize, report: *mut u64) -> u32;
}

pub fn trim(tree: &mut Lent<u8>, ration: u32, out: &mut Lent<u8>, report: &mut Lent<u64>) -> u32 {
    assert_eq!(report.length(), 4);
    // SAFETY: each pointer stands for as many elements as its length says, and nothing else is lent meanwhile.
    unsafe { travelring_trim(tree.pointer(), tree.length(), ration, out.pointer(), out.length(), report.pointer()) }
}

pub fn judge(tree: &mut Lent<u8>, flags: u32, numbers: &mut Lent<Whole>, report: &mut Lent<u64>) -> u32 {
    assert_eq!(report.length(), 2);
    // SAFETY: as in trim.
    unsafe { travelring_judge(tree.pointer(), tree.length(), flags, numbers.pointer(), numbers.length(), report.pointer()) }
}

pub fn find(tree: &mut Lent<u8>, numbers: &mut Lent<Whole>, report: &mut Lent<u64>) -> u32 {
    assert_eq!(report.length(), 2);
    // SAFETY: as in trim.
    unsafe { travelring_find(tree.pointer(), tree.length(), numbers.pointer(), numbers.length(), report.pointer()) }
}
