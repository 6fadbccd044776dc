//! Prints what the programs `lines` and `second` must print, by the plain implementation of document 01: stored NAME, with the program's
//! input on standard input. ../stored compares that with the stored files that the gate compares the programs with.

use rules::document::{self, Refusal, DONE, RATION_USED_UP};
use rules::typed::{Line, Stuck};
use std::io::{Read, Write};
use std::process::ExitCode;

const LARGEST_U32: i64 = 4_294_967_295;

/// The most room that a line can give.
const MOST_ROOM: i64 = document::LONGEST as i64;

/// The bytes in hex, a space between them.
fn spaced(bytes: &[u8]) -> String {
    bytes.iter().map(|byte| format!("{byte:02x}")).collect::<Vec<_>>().join(" ")
}

/// `trim`: condition, ration, room. Answer, place, questions and ends, and the result after answers 0 and 10.
fn trimmed(mut line: Line) -> Result<String, Stuck> {
    let bytes = line.tree()?;
    let (ration, room) = (line.part(LARGEST_U32)?, line.part(MOST_ROOM)?);
    line.end()?;
    Ok(match document::swept(&bytes, ration as u32).and_then(|swept| swept.in_room(room as usize)) {
        Ok(swept) => {
            let answer = if swept.finished { DONE } else { RATION_USED_UP };
            format!("{answer} 0 {} {} {}", swept.questions, swept.ends, spaced(&swept.bytes))
        }
        Err(Refusal { answer, place }) => format!("{answer} {place} 0 0"),
    })
}

/// `judge`: condition, boolean bits, numbers. Answer, place and value; "its refusals carry false".
fn judged(mut line: Line) -> Result<String, Stuck> {
    let (bytes, flags, numbers) = (line.tree()?, line.part(LARGEST_U32)?, line.numbers()?);
    Ok(match document::judge(&bytes, flags as u32, &numbers) {
        Ok(value) => format!("{DONE} 0 {value}"),
        Err(Refusal { answer, place }) => format!("{answer} {place} false"),
    })
}

/// `find`: a condition alone. "Which satisfying assignment it shows is free", so only that it satisfies is printed.
fn found(mut line: Line) -> Result<String, Stuck> {
    let bytes = line.tree()?;
    line.end()?;
    Ok(match document::find(&bytes, document::NUMBERS) {
        Ok((flags, numbers)) => {
            assert_eq!(document::judge(&bytes, flags, &numbers), Ok(true), "the plain search shows what the plain judge denies");
            format!("{DONE} 0 judged true")
        }
        Err(Refusal { answer, place }) => format!("{answer} {place}"),
    })
}

/// The call that a line's verb names.
fn called(mut line: Line) -> Result<String, Stuck> {
    match line.verb().as_str() {
        "trim" => trimmed(line),
        "judge" => judged(line),
        "find" => found(line),
        _ => Err(Stuck(0)),
    }
}

/// The line, and what is answered to it or where it is not understood.
fn answered(line: &[u8]) -> Vec<u8> {
    let said = called(Line::new(line)).unwrap_or_else(|Stuck(place)| format!("not understood at {place}"));
    [line, b" => ", said.as_bytes()].concat()
}

/// The ends of a condition in hex, constants aside; it stands before a `/` or at the end of the text.
fn ends(mut line: Line) -> usize {
    let bytes = line.tree().expect("lines prints trees in hex");
    document::ends(&document::read(&bytes).expect("what lines trims or writes is a tree")).len()
}

/// What demand 2 leaves to say of a `trim` that `lines` printed: the result means the same, and each end of a finished one matters.
fn tried(line: &[u8]) -> Vec<u8> {
    let text = String::from_utf8_lossy(line);
    let (condition, said) = text.split_once(" => ").expect("lines prints an answer to each line");
    let words: Vec<&str> = said.splitn(5, ' ').collect();
    let same = |how| {
        let mut line = Line::new(condition.as_bytes());
        line.verb();
        format!("same, {} of {} ends, {how}", ends(Line::new(words[4].as_bytes())), ends(line))
    };
    let verdict = match words[0].parse::<u32>() {
        Ok(DONE) => same("each matters"),
        Ok(RATION_USED_UP) => same("stopped"),
        Ok(_) => "refused".to_string(),
        Err(_) => "answer not understood".to_string(),
    };
    verdict.into_bytes()
}

/// What a program prints for a line that is no heading.
type OfLine = fn(&[u8]) -> Vec<u8>;

fn program(name: &str) -> Option<OfLine> {
    match name {
        "lines" => Some(answered),
        "second" => Some(tried),
        _ => None,
    }
}

/// Each line ended by a newline, also a last one that was not; headings as they are.
fn printed(text: &[u8], of_line: OfLine) -> Vec<u8> {
    let lines = text.split_inclusive(|byte| *byte == b'\n').map(|line| line.strip_suffix(b"\n").unwrap_or(line));
    let said = lines.map(|line| if line.starts_with(b"#") { line.to_vec() } else { of_line(line) });
    said.flat_map(|line| [line, b"\n".to_vec()].concat()).collect()
}

fn main() -> ExitCode {
    let arguments: Vec<String> = std::env::args().skip(1).collect();
    let [name] = &arguments[..] else {
        return usage();
    };
    let Some(of_line) = program(name) else {
        return usage();
    };
    let mut text = Vec::new();
    std::io::stdin().read_to_end(&mut text).expect("standard input can be read");
    std::io::stdout().write_all(&printed(&text, of_line)).expect("standard output can be written");
    ExitCode::SUCCESS
}

fn usage() -> ExitCode {
    eprintln!("usage: stored lines|second");
    ExitCode::from(2)
}
