//! Folds a condition, with one end cut to a constant or none: document 01's "Folding", from the ends upward.
use crate::tree::{children, Node};

/// An end by its place, and the constant that takes its place.
pub type Cut = Option<(usize, bool)>;

pub fn fold(nodes: &[Node], cut: Cut) -> Vec<Node> {
    let mut out = Vec::with_capacity(nodes.len());
    fold_node(nodes, 0, cut, &mut out);
    out
}

/// Puts the folded tree at a place behind what is there; says which constant it is, if it is one.
fn fold_node(nodes: &[Node], at: usize, cut: Cut, out: &mut Vec<Node>) -> Option<bool> {
    let node = match (nodes[at], cut) {
        (Node::Join(all, ..), _) => return fold_join(nodes, at, all, cut, out),
        (_, Some((place, constant))) if place == at => Node::Plain(constant),
        (end, _) => end,
    };
    out.push(node);
    match node {
        Node::Plain(constant) => Some(constant),
        _ => None,
    }
}

fn fold_join(nodes: &[Node], at: usize, all: bool, cut: Cut, out: &mut Vec<Node>) -> Option<bool> {
    let start = out.len();
    out.push(nodes[at]);
    let mut left = 0;
    for child in children(nodes, at) {
        let before = out.len();
        match fold_node(nodes, child, cut, out) {
            None => left += 1,
            // "An `and` with a false child is false", an `or` with a true one true.
            Some(constant) if constant != all => {
                out.truncate(start);
                out.push(Node::Plain(constant));
                return Some(constant);
            }
            // "true children are dropped", of an `or` false ones.
            Some(_) => out.truncate(before),
        }
    }
    match left {
        0 => {
            out[start] = Node::Plain(all);
            Some(all)
        }
        1 => {
            out.remove(start);
            None
        }
        _ => {
            out[start] = Node::Join(all, left, (out.len() - start) as u8);
            None
        }
    }
}
