//! The proved library's calls, by its C boundary.
use plain::limits::Whole;

#[link(name = "boundary", kind = "static")]
extern "C" {
    // Rattle: travelring_find(tree: &[u8], numbers: &mut [Whole], report: &mut [u64; 2]) -> u32
    fn travelring_find(tree: *const u8, tree_len: usize, numbers: *mut Whole, numbers_len: usize, report: *mut [u64; 2]) -> u32;
    // Rattle: travelring_trim(tree: &[u8], ration: u32, out: &mut [u8], report: &mut [u64; 4]) -> u32
    fn travelring_trim(tree: *const u8, tree_len: usize, ration: u32, out: *mut u8, out_len: usize, report: *mut [u64; 4]) -> u32;
}

pub fn find(tree: &[u8], numbers: &mut [Whole]) -> plain::Found {
    let mut report = [0; 2];
    // SAFETY: the pointers and lengths are those of live slices, which the call only reads and writes within.
    let answer = unsafe { travelring_find(tree.as_ptr(), tree.len(), numbers.as_mut_ptr(), numbers.len(), &mut report) };
    plain::Found { answer, place: report[0], bits: report[1] as u32 }
}

pub fn trim(tree: &[u8], ration: u32, out: &mut [u8]) -> plain::Trimmed {
    let mut report = [0; 4];
    // SAFETY: as above.
    let answer = unsafe { travelring_trim(tree.as_ptr(), tree.len(), ration, out.as_mut_ptr(), out.len(), &mut report) };
    plain::Trimmed { answer, place: report[0], questions: report[1] as u32, ends: report[2] as u32, bytes: report[3] }
}
