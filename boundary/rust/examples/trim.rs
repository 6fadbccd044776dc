//! Trims one condition and says the answer in words: trim [HEX..]; with no bytes, tree 8 of docs/CONDITIONS.md.
use travelring::{trim_to_vec, Answer, QUESTIONS};

const TREE_8: [u8; 16] = [2, 2, 6, 1, 0, 10, 3, 2, 6, 1, 0, 6, 7, 1, 0, 10]; // x <= 5 and (x <= 3 or not x <= 5)

fn words(answer: Answer) -> &'static str {
    match answer {
        Answer::Finished => "Trimmed: no end is left that could go.",
        Answer::Ended => "Refused: the condition breaks off before it is complete.",
        Answer::Form => "Refused: a number is too long, or padded.",
        Answer::Tag => "Refused: there is no such kind of node; tags go from 0 to 7.",
        Answer::Count => "Refused: an `and` or `or` has fewer than two children.",
        Answer::Name => "Refused: no such name; booleans go to 31, numbers to 15.",
        Answer::Bound => "Refused: a bound goes from -1,000,000 to 1,000,000.",
        Answer::Crowd => "Refused: the condition has more than 24 ends.",
        Answer::After => "Refused: there are bytes after the condition.",
        Answer::Long => "Not written: there is too little room; the place says how many bytes it takes.",
        Answer::Stopped => "Stopped: the ration is used up; this is what was reached, and more might go.",
        Answer::Unfit | Answer::Nothing => "Trim gives no such answer.", // they are for judge and find
    }
}

fn main() {
    let given: Vec<u8> = std::env::args().skip(1).map(|hex| u8::from_str_radix(&hex, 16).expect("two hex digits")).collect();
    let tree = if given.is_empty() { &TREE_8[..] } else { &given };
    match trim_to_vec(tree, QUESTIONS) {
        Ok((result, trimmed)) => {
            println!("{}", words(if trimmed.finished { Answer::Finished } else { Answer::Stopped }));
            print!("Questions asked: {}. Ends left: {}. The condition now:", trimmed.questions, trimmed.ends);
            result.iter().for_each(|byte| print!(" {byte:02x}"));
            println!();
        }
        Err(refusal) => {
            println!("{}", words(refusal.answer));
            println!("Answer {}, place {}.", refusal.answer.number(), refusal.place);
            std::process::exit(1);
        }
    }
}
