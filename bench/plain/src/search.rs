//! The search: whether some assignment makes given trees true and others false, and which. Unverified.
//!
//! Differences are kept as the table of tightest differences between all sixteen numbers; a guess is made on a copy of it.
use crate::limits::{Whole, ENDS, LARGEST_BOUND, NODES, NUMBERS};
use crate::tree::{children, Assignment, Node};

/// A tree by its place, to be made true or (false) false. Made false, an `or` is an `and` of its children made false, and the reverse.
pub type Claim = (usize, bool);

/// If an assignment over all whole numbers satisfies a tree, one does with numbers this far from 0 at most: fifteen steps of a bound.
const FAR: Whole = NUMBERS as Whole * (LARGEST_BOUND + 1);

/// Entries of a row of the table, one for each number, number 0 too.
const ROW: usize = NUMBERS + 1;

/// What is settled: entry y of row x of the table bounds x - y; booleans settled true and those settled false.
#[derive(Clone)]
struct Settled {
    table: [Whole; ROW * ROW],
    yes: u32,
    no: u32,
    /// Claims that need a guess, and how many there are.
    waiting: [(u8, bool); NODES],
    many: usize,
}

impl Settled {
    /// Nothing but that the numbers are in range.
    fn nothing() -> Settled {
        let mut table = [2 * FAR; ROW * ROW];
        for i in 0..ROW {
            table[i] = FAR;
            table[ROW * i] = FAR;
        }
        for i in 0..ROW {
            table[ROW * i + i] = 0;
        }
        Settled { table, yes: 0, no: 0, waiting: [(0, true); NODES], many: 0 }
    }

    /// Settles x - y <= c. False if a closed chain would sum below zero.
    #[inline]
    fn bound(&mut self, x: usize, y: usize, c: Whole) -> bool {
        let table = &mut self.table;
        if table[ROW * y + x] + c < 0 {
            return false;
        }
        if table[ROW * x + y] <= c {
            return true;
        }
        let onward: [Whole; ROW] = table[ROW * y..][..ROW].try_into().unwrap();
        for row in table.chunks_exact_mut(ROW) {
            let left = row[x] + c;
            if left < row[y] {
                for (entry, right) in row.iter_mut().zip(onward) {
                    *entry = (*entry).min(left + right);
                }
            }
        }
        true
    }

    /// Whether the claim about a flag or bound follows from what is settled (true) or contradicts it (false). A bound and its
    /// negation are told apart by two entries of the table.
    #[inline]
    fn known(&self, end: Node, so: bool) -> Option<bool> {
        match end {
            Node::Plain(b) => Some(b == so),
            Node::Flag(b, p) => {
                let (mine, other) = if b == so { (self.yes, self.no) } else { (self.no, self.yes) };
                if mine >> p & 1 == 1 {
                    return Some(true);
                }
                (other >> p & 1 == 1).then_some(false)
            }
            Node::Bound(b, x, y, c) => {
                let (x, y) = (x as usize, y as usize);
                if self.table[ROW * x + y] <= c {
                    return Some(b == so);
                }
                (self.table[ROW * y + x] + c < 0).then_some(b != so)
            }
            Node::Join(..) => None,
        }
    }

    /// Settles a claim as far as it needs no guess; what does waits. False if it contradicts what is settled.
    fn settle(&mut self, nodes: &[Node], (at, so): Claim) -> bool {
        match nodes[at] {
            Node::Plain(b) => b == so,
            Node::Flag(b, p) => {
                let (mine, other) = if b == so { (&mut self.yes, self.no) } else { (&mut self.no, self.yes) };
                *mine |= 1 << p;
                other >> p & 1 == 0
            }
            Node::Bound(b, x, y, c) => {
                let (x, y) = (x as usize, y as usize);
                // Over whole numbers the negation of x - y <= c is y - x <= -c - 1.
                if b == so {
                    self.bound(x, y, c)
                } else {
                    self.bound(y, x, -c - 1)
                }
            }
            Node::Join(all, ..) if all == so => children(nodes, at).all(|child| self.settle(nodes, (child, so))),
            Node::Join(..) => {
                self.waiting[self.many] = (at as u8, so);
                self.many += 1;
                true
            }
        }
    }

    /// One child of each claim that waits.
    fn guess(mut self, nodes: &[Node]) -> Option<Assignment> {
        while self.many > 0 {
            self.many -= 1;
            let (at, so) = self.waiting[self.many];
            let mut open = [0u8; ENDS];
            let mut opens = 0;
            let mut met = false;
            for child in children(nodes, at as usize) {
                match self.known(nodes[child], so) {
                    Some(true) => met = true,
                    Some(false) => {}
                    None => {
                        open[opens] = child as u8;
                        opens += 1;
                    }
                }
            }
            if met {
                continue;
            }
            let (&last, others) = open[..opens].split_last()?;
            for &child in others {
                let mut copy = self.clone();
                if copy.settle(nodes, (child as usize, so)) {
                    let found = copy.guess(nodes);
                    if found.is_some() {
                        return found;
                    }
                }
            }
            if !self.settle(nodes, (last as usize, so)) {
                return None;
            }
        }
        Some(self.shown())
    }

    /// The assignment that the table shows once nothing waits; a boolean that is not settled is false.
    fn shown(&self) -> Assignment {
        Assignment { bits: self.yes, numbers: std::array::from_fn(|x| self.table[ROW * x]) }
    }
}

/// An assignment that meets all the claims, if there is one.
pub fn satisfy(nodes: &[Node], claims: &[Claim]) -> Option<Assignment> {
    let mut settled = Settled::nothing();
    claims.iter().all(|&claim| settled.settle(nodes, claim)).then_some(())?;
    settled.guess(nodes)
}
