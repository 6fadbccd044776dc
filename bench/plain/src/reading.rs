//! Reads a condition's bytes, or says with document 01's number and place why they are none: the first that is met from left to right.
use crate::limits::{Whole, AFTER, BOUND, COUNT, CROWD, ENDED, FORM, NAME, TAG};
use crate::limits::{ENDS, GROUPS, LARGEST_BOUND, LAST_BOOLEAN, LAST_NUMBER, LAST_TAG, NODES};
use crate::tree::Node;

const LARGEST_WRITTEN: u32 = 2 * LARGEST_BOUND as u32;

/// A refusal of reading, and its place.
#[derive(Clone, Copy, PartialEq, Eq, Debug)]
pub struct Refusal {
    pub answer: u32,
    pub place: usize,
}

fn refuse<T>(answer: u32, place: usize) -> Result<T, Refusal> {
    Err(Refusal { answer, place })
}

struct Reader<'a> {
    bytes: &'a [u8],
    at: usize,
    nodes: Vec<Node>,
    /// Ends read plus ends still owed.
    ends: usize,
}

impl Reader<'_> {
    /// "groups of seven bits, low group first, top bit set on every byte but the last, one to three bytes, shortest form only"; checked
    /// for answers 1 and 2, then for its range, whose refusal the caller names. Both places are the number's first byte.
    fn number(&mut self, range: impl Fn(u32) -> bool, otherwise: u32) -> Result<u32, Refusal> {
        let first = self.at;
        let mut number = 0;
        for group in 0..GROUPS {
            let Some(&byte) = self.bytes.get(self.at) else {
                return refuse(ENDED, self.bytes.len());
            };
            self.at += 1;
            number |= (byte as u32 & 127) << (7 * group);
            if byte < 128 {
                let padded = group > 0 && byte == 0;
                return match (padded, range(number)) {
                    (true, _) => refuse(FORM, first),
                    (_, false) => refuse(otherwise, first),
                    _ => Ok(number),
                };
            }
        }
        refuse(FORM, first)
    }

    fn name(&mut self, last: u32) -> Result<u8, Refusal> {
        Ok(self.number(|n| n <= last, NAME)? as u8)
    }

    /// One node and all below it.
    fn node(&mut self) -> Result<(), Refusal> {
        let here = self.at;
        let tag = self.number(|n| n <= LAST_TAG, TAG)?;
        let node = match tag {
            0 | 1 => Node::Plain(tag == 1),
            2 | 3 => return self.join(here, tag == 2),
            4 | 5 => Node::Flag(tag == 4, self.name(LAST_BOOLEAN)?),
            _ => {
                let (x, y) = (self.name(LAST_NUMBER)?, self.name(LAST_NUMBER)?);
                let written = self.number(|n| n <= LARGEST_WRITTEN, BOUND)? as Whole;
                // 0, -1, 1, -2 are written 0, 1, 2, 3.
                let c = if written % 2 == 0 { written / 2 } else { -(written + 1) / 2 };
                Node::Bound(tag == 6, x, y, c)
            }
        };
        self.nodes.push(node);
        Ok(())
    }

    /// A connective, its tag read. An end read is owed no more, so the sum of ends read and owed grows with connectives alone.
    fn join(&mut self, here: usize, all: bool) -> Result<(), Refusal> {
        let count = self.number(|n| n >= 2, COUNT)?;
        self.ends += count as usize - 1;
        if self.ends > ENDS {
            return refuse(CROWD, here);
        }
        let join = self.nodes.len();
        self.nodes.push(Node::Join(all, count as u8, 0));
        for _ in 0..count {
            self.node()?;
        }
        self.nodes[join] = Node::Join(all, count as u8, (self.nodes.len() - join) as u8);
        Ok(())
    }
}

pub fn read(bytes: &[u8]) -> Result<Vec<Node>, Refusal> {
    let mut reader = Reader { bytes, at: 0, nodes: Vec::with_capacity(NODES), ends: 1 };
    reader.node()?;
    if reader.at < bytes.len() {
        return refuse(AFTER, reader.at);
    }
    Ok(reader.nodes)
}
