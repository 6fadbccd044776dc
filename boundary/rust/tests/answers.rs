//! The wrapper gives each answer its name, with its place.
use travelring::Answer::*;
use travelring::{find, judge, trim, trim_to_vec, Answer, Refusal, Trimmed, NUMBERS, QUESTIONS};

const TREE_8: [u8; 16] = [2, 2, 6, 1, 0, 10, 3, 2, 6, 1, 0, 6, 7, 1, 0, 10];

#[test]
fn refusals() {
    let refused: [(&[u8], Answer, u32, u64); 8] = [
        (&[], Ended, 1, 0),
        (&[0x80, 0], Form, 2, 0),
        (&[8], Tag, 3, 0),
        (&[2, 1], Count, 4, 1),
        (&[4, 0x20], Name, 5, 1),
        (&[6, 1, 0, 0x81, 0x89, 0x7a], Bound, 6, 3),
        (&[2, 0x19], Crowd, 7, 0),
        (&[4, 0, 0], After, 8, 2),
    ];
    for (tree, answer, number, place) in refused {
        let refusal = Refusal { answer, place };
        assert_eq!((answer.number(), answer.of_reading()), (number, true));
        assert_eq!(trim(tree, QUESTIONS, &mut []), Err(refusal));
        assert_eq!(judge(tree, 0, &[0; NUMBERS]), Err(refusal));
        assert_eq!(find(tree, &mut [0; NUMBERS]), Err(refusal));
    }
    assert!([Finished, Long, Stopped, Unfit, Nothing].iter().all(|answer| !answer.of_reading()));
}

#[test]
fn trims() {
    let mut out = [0xee; 6];
    assert_eq!(trim(&TREE_8, QUESTIONS, &mut out[..3]), Err(Refusal { answer: Long, place: 4 }));
    assert_eq!(out, [0xee; 6]);
    assert_eq!(trim(&TREE_8, QUESTIONS, &mut out), Ok(Trimmed { finished: true, questions: 9, ends: 1, bytes: 4 }));
    assert_eq!(out, [6, 1, 0, 6, 0xee, 0xee]);
    let stopped = Trimmed { finished: false, questions: 6, ends: 2, bytes: 10 };
    assert_eq!(trim_to_vec(&TREE_8, 6), Ok((vec![2, 2, 6, 1, 0, 10, 6, 1, 0, 6], stopped)));
}

#[test]
fn judges_and_finds() {
    assert_eq!(judge(&[4, 31], 1 << 31, &[0; NUMBERS]), Ok(true));
    assert_eq!(judge(&[4, 31], !(1 << 31), &[0; NUMBERS]), Ok(false));
    let mut numbers = [7; NUMBERS + 1];
    for unfit in [0, NUMBERS - 1, NUMBERS + 1] {
        let refusal = Refusal { answer: Unfit, place: 0 };
        assert_eq!((judge(&[1], 0, &numbers[..unfit]), find(&[1], &mut numbers[..unfit])), (Err(refusal), Err(refusal)));
    }
    assert_eq!(find(&[0], &mut numbers[..NUMBERS]), Err(Refusal { answer: Nothing, place: 0 }));
    assert_eq!(numbers, [7; NUMBERS + 1]);
    let flags = find(&TREE_8, &mut numbers[..NUMBERS]).unwrap();
    assert_eq!(judge(&TREE_8, flags, &numbers[..NUMBERS]), Ok(true));
}
