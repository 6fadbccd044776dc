//! A condition in memory: its nodes in the order they are written, node first, children after it; and what they mean.
use crate::limits::{Whole, NUMBERS};

#[derive(Clone, Copy, PartialEq, Eq, Debug)]
pub enum Node {
    /// False or true.
    Plain(bool),
    /// Boolean p, or (false) not p.
    Flag(bool, u8),
    /// x - y <= c, or (false) its negation.
    Bound(bool, u8, u8, Whole),
    /// `and` (true) or `or`: its child count, and how many nodes it takes, itself among them.
    Join(bool, u8, u8),
}

impl Node {
    /// How many nodes the tree that starts with this one takes.
    #[inline]
    pub fn size(self) -> usize {
        match self {
            Node::Join(_, _, size) => size as usize,
            _ => 1,
        }
    }
}

/// The places of a connective's children.
#[inline]
pub fn children(nodes: &[Node], join: usize) -> impl Iterator<Item = usize> + '_ {
    let after = join + nodes[join].size();
    let mut next = join + 1;
    std::iter::from_fn(move || {
        let child = next;
        (child < after).then(|| {
            next += nodes[child].size();
            child
        })
    })
}

/// The places of the ends, left to right, constants aside: those that questions are asked of.
pub fn ends(nodes: &[Node]) -> impl Iterator<Item = usize> + '_ {
    (0..nodes.len()).filter(|&i| matches!(nodes[i], Node::Flag(..) | Node::Bound(..)))
}

/// Boolean p is the bit of weight 2^p; number x is numbers[x], and numbers[0] is 0.
#[derive(Clone, Copy, PartialEq, Eq, Debug)]
pub struct Assignment {
    pub bits: u32,
    pub numbers: [Whole; NUMBERS + 1],
}

/// Whether an end, no connective, is true under this assignment. Two 32-bit numbers may lie farther apart than 32 bits tell.
#[inline]
pub fn end_holds(end: Node, under: &Assignment) -> bool {
    match end {
        Node::Plain(so) => so,
        Node::Flag(so, p) => (under.bits >> p & 1 == 1) == so,
        Node::Bound(so, x, y, c) => (under.numbers[x as usize] as i64 - under.numbers[y as usize] as i64 <= c as i64) == so,
        Node::Join(..) => unreachable!("a connective is no end"),
    }
}

/// Whether the tree at a place is true under this assignment.
pub fn holds(nodes: &[Node], at: usize, under: &Assignment) -> bool {
    match nodes[at] {
        Node::Join(true, ..) => children(nodes, at).all(|child| holds(nodes, child, under)),
        Node::Join(false, ..) => children(nodes, at).any(|child| holds(nodes, child, under)),
        end => end_holds(end, under),
    }
}
