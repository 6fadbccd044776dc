//! Writes a condition's nodes as the bytes of document 01.
use crate::limits::{Whole, LONGEST};
use crate::tree::Node;

/// Groups of seven bits, low group first, top bit set on every byte but the last.
fn put(out: &mut Vec<u8>, mut number: u32) {
    while number > 127 {
        out.push((number % 128 + 128) as u8);
        number /= 128;
    }
    out.push(number as u8);
}

/// c as it is written: 0, -1, 1, -2 are 0, 1, 2, 3.
fn written(c: Whole) -> u32 {
    if c >= 0 {
        2 * c as u32
    } else {
        (-2 * c - 1) as u32
    }
}

pub fn write(nodes: &[Node]) -> Vec<u8> {
    let mut out = Vec::with_capacity(LONGEST);
    for &node in nodes {
        match node {
            Node::Plain(so) => put(&mut out, so as u32),
            Node::Join(all, count, _) => {
                put(&mut out, if all { 2 } else { 3 });
                put(&mut out, count as u32);
            }
            Node::Flag(so, p) => {
                put(&mut out, if so { 4 } else { 5 });
                put(&mut out, p as u32);
            }
            Node::Bound(so, x, y, c) => {
                put(&mut out, if so { 6 } else { 7 });
                put(&mut out, x as u32);
                put(&mut out, y as u32);
                put(&mut out, written(c));
            }
        }
    }
    out
}
