//! The sweep of document 01: critical constraints, the two questions of each end, cuts, under a ration.
//!
//! An assignment that a search found is kept. One walk of the tree under it gives, for every end at once, whether turning that end turns
//! the root, which is whether the end's critical constraint holds there; then a question about the end may be answered "no" without a
//! search. It counts as asked all the same.
use crate::folding::fold;
use crate::limits::{ENDS, NODES};
use crate::search::{satisfy, Claim};
use crate::tree::{children, end_holds, ends, Assignment, Node};

pub struct Swept {
    pub nodes: Vec<Node>,
    pub asked: u32,
    pub finished: bool,
}

/// The critical constraint of the tree at a place: under an `and` all its siblings, under an `or` the negation of each, up to the root.
pub fn constraint(nodes: &[Node], place: usize) -> Vec<Claim> {
    let mut claims = Vec::with_capacity(ENDS);
    let mut at = 0;
    while at != place {
        let Node::Join(all, ..) = nodes[at] else { unreachable!("an end has nothing below it") };
        for child in children(nodes, at) {
            if (child..child + nodes[child].size()).contains(&place) {
                at = child;
            } else {
                claims.push((child, all));
            }
        }
    }
    claims
}

/// An assignment under which the constraint of an end does not imply the end, or (second) its negation; none: the answer is yes.
pub fn refute(nodes: &[Node], end: usize, second: bool) -> Option<Assignment> {
    let mut claims = constraint(nodes, end);
    claims.push((end, second));
    satisfy(nodes, &claims)
}

/// How many ends are redundant: non-constraining or non-relaxing.
pub fn redundant(nodes: &[Node]) -> usize {
    ends(nodes).filter(|&end| [false, true].iter().any(|&second| refute(nodes, end, second).is_none())).count()
}

/// A tree under work, with each node's parent, and the questions already known to be answered "no": bit i is the end at place i.
struct Work {
    nodes: Vec<Node>,
    parents: [u8; NODES],
    noes: [u64; 2],
}

impl Work {
    fn new(nodes: Vec<Node>) -> Work {
        let mut parents = [0; NODES];
        for join in 0..nodes.len() {
            if let Node::Join(..) = nodes[join] {
                children(&nodes, join).for_each(|child| parents[child] = join as u8);
            }
        }
        Work { nodes, parents, noes: [0; 2] }
    }

    /// Whether a child of this connective is of the kind that decides it: a false child of an `and`, a true one of an `or`.
    #[inline]
    fn decides(&self, join: usize, value: bool) -> bool {
        matches!(self.nodes[join], Node::Join(all, ..) if all != value)
    }

    /// Marks every question that this assignment answers "no".
    fn learn(&mut self, under: &Assignment) {
        let many = self.nodes.len();
        let mut values = [false; NODES];
        // How many children decide each connective; from the last node backwards children come before their parents.
        let mut deciding = [0u8; NODES];
        for i in (0..many).rev() {
            values[i] = match self.nodes[i] {
                Node::Join(all, ..) => (deciding[i] == 0) == all,
                end => end_holds(end, under),
            };
            let parent = self.parents[i] as usize;
            deciding[parent] += (i > 0 && self.decides(parent, values[i])) as u8;
        }
        // A node turns the root if its parent does and no sibling decides the parent.
        let mut turns = [true; NODES];
        for i in 0..many {
            let parent = self.parents[i] as usize;
            if i > 0 {
                turns[i] = turns[parent] && deciding[parent] == self.decides(parent, values[i]) as u8;
            }
            let asked = matches!(self.nodes[i], Node::Flag(..) | Node::Bound(..));
            self.noes[values[i] as usize] |= ((asked && turns[i]) as u64) << i;
        }
    }

    /// The first question, from left to right, one before two, that is answered yes; and how many were asked, that one among them, of
    /// the `left` that may be. Assignments found on the way are kept.
    fn ask(&mut self, left: u32, kept: &mut Vec<Assignment>) -> (Option<(usize, bool)>, u32, bool) {
        let mut asked = 0;
        let places: Vec<usize> = ends(&self.nodes).collect();
        for end in places {
            for second in [false, true] {
                if asked == left {
                    return (None, asked, false);
                }
                asked += 1;
                if self.noes[second as usize] >> end & 1 == 1 {
                    continue;
                }
                match refute(&self.nodes, end, second) {
                    None => return (Some((end, !second)), asked, true),
                    Some(found) => {
                        self.learn(&found);
                        kept.push(found);
                    }
                }
            }
        }
        (None, asked, true)
    }
}

/// "On the first yes, L becomes true (one) or false (two), the tree is folded, and the sweep starts again at the first end."
pub fn sweep(nodes: &[Node], ration: u32) -> Swept {
    let mut work = Work::new(fold(nodes, None));
    let mut kept = Vec::with_capacity(64);
    let mut asked = 0;
    loop {
        let (cut, questions, finished) = work.ask(ration - asked, &mut kept);
        asked += questions;
        if cut.is_none() {
            return Swept { nodes: work.nodes, asked, finished };
        }
        work = Work::new(fold(&work.nodes, cut));
        kept.iter().for_each(|found| work.learn(found));
    }
}
