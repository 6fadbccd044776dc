//! Document 01's worked trees and refusals through the plain program.
use plain::limits::{LONGEST, NUMBERS};
use plain::{find, judge, trim};

fn bytes(hex: &str) -> Vec<u8> {
    hex.split_whitespace().map(|b| u8::from_str_radix(b, 16).unwrap()).collect()
}

/// Answer, place, questions, ends, and the result in hex: as many bytes as were written.
fn trimmed(hex: &str, ration: u32, room: usize) -> (u32, u64, u32, u32, String) {
    let mut out = vec![0xee; room + 1];
    let t = trim(&bytes(hex), ration, &mut out[..room]);
    let (result, after) = out.split_at(t.bytes as usize);
    assert!(after.iter().all(|&b| b == 0xee), "bytes beyond the result stay");
    let text: Vec<String> = result.iter().map(|b| format!("{b:02x}")).collect();
    (t.answer, t.place, t.questions, t.ends, text.join(" "))
}

/// Tree, questions, ends, result.
const WORKED: [(&str, u32, u32, &str); 15] = [
    ("01", 0, 0, "01"),
    ("04 00", 2, 1, "04 00"),
    ("02 02 01 04 00", 2, 1, "04 00"),
    ("03 02 04 00 05 00", 1, 0, "01"),
    ("02 02 04 00 04 00", 3, 1, "04 00"),
    ("06 01 01 00", 1, 0, "01"),
    ("06 01 01 01", 2, 0, "00"),
    ("03 02 06 01 00 06 06 01 00 02", 6, 1, "06 01 00 06"),
    ("02 02 06 01 00 0a 03 02 06 01 00 06 07 01 00 0a", 9, 1, "06 01 00 06"),
    ("02 02 07 01 02 06 07 02 01 07", 2, 0, "00"),
    ("02 03 06 01 02 02 06 02 03 02 06 03 01 05", 2, 0, "00"),
    ("02 03 06 01 02 02 06 02 03 02 06 03 01 03", 6, 3, "02 03 06 01 02 02 06 02 03 02 06 03 01 03"),
    ("03 02 02 02 04 00 04 01 02 02 04 00 04 02", 8, 4, "03 02 02 02 04 00 04 01 02 02 04 00 04 02"),
    ("02 02 04 00 03 02 04 01 05 00", 10, 2, "02 02 04 00 04 01"),
    // Tree 8 with `or` for `and` and each end for its opposite.
    ("03 02 07 01 00 0a 02 02 07 01 00 06 06 01 00 0a", 9, 1, "07 01 00 06"),
];

#[test]
fn worked_trees() {
    for (tree, questions, ends, result) in WORKED {
        let needed = bytes(result).len();
        assert_eq!(trimmed(tree, questions, needed), (0, 0, questions, ends, result.into()), "{tree}");
        assert_eq!(trimmed(tree, u32::MAX, LONGEST), (0, 0, questions, ends, result.into()), "{tree}");
        if questions > 0 {
            let stopped = trimmed(tree, questions - 1, LONGEST);
            assert_eq!((stopped.0, stopped.2), (10, questions - 1), "{tree}");
        }
        assert_eq!(trimmed(tree, questions, needed - 1), (9, needed as u64, 0, 0, "".into()), "{tree}");
    }
    assert_eq!(trimmed("04 00", 1, LONGEST), (10, 0, 1, 1, "04 00".into()));
}

#[test]
fn refusals() {
    let refused = [
        ("", 1, 0),
        ("02 02 04", 1, 3),
        ("80 00", 2, 0),
        ("80 80 80", 2, 0),
        ("80 80", 1, 2),
        ("08", 3, 0),
        ("02 01", 4, 1),
        ("04 20", 5, 1),
        ("06 10 00 00", 5, 1),
        ("06 01 00 81 89 7a", 6, 3),
        ("02 19", 7, 0),
        ("02 18", 1, 2),
        ("04 00 00", 8, 2),
    ];
    for (hex, answer, place) in refused {
        let mut numbers = [7; NUMBERS];
        let (j, f) = (judge(&bytes(hex), 0, &[0; NUMBERS]), find(&bytes(hex), &mut numbers));
        assert_eq!((j.answer, j.place, j.value), (answer, place, false), "{hex}");
        assert_eq!((f.answer, f.place, f.bits, numbers), (answer, place, 0, [7; NUMBERS]), "{hex}");
        assert_eq!(trimmed(hex, 600, LONGEST), (answer, place, 0, 0, "".into()), "{hex}");
    }
    assert_eq!(judge(&bytes(""), 0, &[0; NUMBERS - 1]).answer, 11);
    assert_eq!(find(&bytes(""), &mut [0; NUMBERS + 1]).answer, 11);
    assert_eq!(find(&bytes("02 02 04 00 05 00"), &mut [0; NUMBERS]).answer, 12);
    assert_eq!(judge(&bytes("04 1f"), 1 << 31, &[0; NUMBERS]).value, true);
    assert_eq!(judge(&bytes("06 01 00 80 89 7a"), 0, &[1_000_000; NUMBERS]).value, true);
}
