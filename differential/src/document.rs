//! Document 01 written plainly: reading, judging, finding and trimming, from the document alone and sharing nothing with the proved crates.
//! A tree is a tree of pointers; a question is decided by splitting cases at each `or` and looking for a closed chain below zero among the
//! differences taken so far (Bellman-Ford over a list, no table); a critical constraint and a negation are built as trees, as defined.

/// Answers by the numbers of document 01's table.
pub const DONE: u32 = 0;
pub const BYTES_END: u32 = 1;
pub const NUMBER_FORM: u32 = 2;
pub const TAG_TOO_HIGH: u32 = 3;
pub const FEW_CHILDREN: u32 = 4;
pub const NAME_TOO_HIGH: u32 = 5;
pub const BOUND_TOO_HIGH: u32 = 6;
pub const TOO_MANY_ENDS: u32 = 7;
pub const BYTES_FOLLOW: u32 = 8;
pub const ROOM_TOO_SMALL: u32 = 9;
pub const RATION_USED_UP: u32 = 10;
pub const NOT_15_NUMBERS: u32 = 11;
pub const NO_ASSIGNMENT: u32 = 12;

pub const ANSWERS: usize = NO_ASSIGNMENT as usize + 1;

/// The answers that refuse the bytes themselves, which every call has.
pub const REFUSALS_OF_READING: [u32; 8] =
    [BYTES_END, NUMBER_FORM, TAG_TOO_HIGH, FEW_CHILDREN, NAME_TOO_HIGH, BOUND_TOO_HIGH, TOO_MANY_ENDS, BYTES_FOLLOW];

pub const ENDS: usize = 24;
pub const HIGHEST_TAG: u32 = 7;
pub const HIGHEST_BOOLEAN: u32 = 31;
pub const HIGHEST_NUMBER: u32 = 15;
pub const HIGHEST_BOUND: i64 = 1_000_000;
pub const HIGHEST_WRITTEN_BOUND: u32 = 2 * HIGHEST_BOUND as u32;

/// The numbers of an assignment: number 0 is always 0, and not among them.
pub const NUMBERS: usize = HIGHEST_NUMBER as usize;

/// "The longest tree has 190 bytes."
pub const LONGEST: usize = 190;

/// A number of an assignment.
pub type Whole = i32;

/// The values of all numbers, number 0 first; a difference of two is the true one.
pub type Values = [i64; NUMBERS + 1];

#[derive(Clone, Debug, PartialEq)]
pub enum Tree {
    Constant(bool),
    Boolean {
        name: usize,
        stated: bool,
    },
    /// x - y <= c if stated, else its negation.
    Difference {
        x: usize,
        y: usize,
        c: i64,
        stated: bool,
    },
    And(Vec<Tree>),
    Or(Vec<Tree>),
}

use Tree::{And, Boolean, Constant, Difference, Or};

/// An answer from 1 to 9, 11 or 12 with its place.
#[derive(Clone, Debug, PartialEq)]
pub struct Refusal {
    pub answer: u32,
    pub place: usize,
}

fn refuse<T>(answer: u32, place: usize) -> Result<T, Refusal> {
    Err(Refusal { answer, place })
}

// Reading.

/// What has been read of a connective whose children are not all there yet.
struct Open {
    is_and: bool,
    children: Vec<Tree>,
    count: usize,
}

struct Reader<'a> {
    bytes: &'a [u8],
    at: usize,
    ends_read: usize,
    ends_owed: usize,
}

impl Reader<'_> {
    /// The next number and its place.
    fn number(&mut self) -> Result<(u32, usize), Refusal> {
        let place = self.at;
        let rest = &self.bytes[place..];
        let topped = rest.iter().take(3).take_while(|byte| **byte >= 0x80).count();
        if topped == 3 {
            return refuse(NUMBER_FORM, place);
        }
        let Some(last) = rest.get(topped) else {
            return refuse(BYTES_END, self.bytes.len());
        };
        if topped > 0 && *last == 0 {
            return refuse(NUMBER_FORM, place);
        }
        self.at += topped + 1;
        let groups = rest[..=topped].iter().rev();
        Ok((groups.fold(0, |value, byte| value * 128 + u32::from(byte % 128)), place))
    }

    /// The next number, refused with the given answer if it is above the highest.
    fn at_most(&mut self, highest: u32, answer: u32) -> Result<u32, Refusal> {
        let (value, place) = self.number()?;
        if value > highest {
            return refuse(answer, place);
        }
        Ok(value)
    }

    /// "a connective with k children adds k - 1", checked after the count.
    fn connective(&mut self, is_and: bool, tag_place: usize) -> Result<Open, Refusal> {
        let (count, place) = self.number()?;
        if count < 2 {
            return refuse(FEW_CHILDREN, place);
        }
        let count = count as usize;
        self.ends_owed += count - 1;
        if self.ends_read + self.ends_owed > ENDS {
            return refuse(TOO_MANY_ENDS, tag_place);
        }
        Ok(Open { is_and, children: Vec::new(), count })
    }

    fn boolean(&mut self, stated: bool) -> Result<Tree, Refusal> {
        let name = self.at_most(HIGHEST_BOOLEAN, NAME_TOO_HIGH)? as usize;
        Ok(Boolean { name, stated })
    }

    fn difference(&mut self, stated: bool) -> Result<Tree, Refusal> {
        let x = self.at_most(HIGHEST_NUMBER, NAME_TOO_HIGH)? as usize;
        let y = self.at_most(HIGHEST_NUMBER, NAME_TOO_HIGH)? as usize;
        let written = i64::from(self.at_most(HIGHEST_WRITTEN_BOUND, BOUND_TOO_HIGH)?);
        let c = if written % 2 == 0 { written / 2 } else { -(written + 1) / 2 };
        Ok(Difference { x, y, c, stated })
    }

    fn end(&mut self, tag: u32) -> Result<Tree, Refusal> {
        let end = match tag {
            0 | 1 => Constant(tag == 1),
            4 | 5 => self.boolean(tag == 4)?,
            _ => self.difference(tag == 6)?,
        };
        self.ends_read += 1;
        self.ends_owed -= 1;
        Ok(end)
    }

    /// One tree, with the connectives still open kept on a stack.
    fn tree(&mut self) -> Result<Tree, Refusal> {
        let mut open: Vec<Open> = Vec::new();
        loop {
            let place = self.at;
            let tag = self.at_most(HIGHEST_TAG, TAG_TOO_HIGH)?;
            if tag == 2 || tag == 3 {
                open.push(self.connective(tag == 2, place)?);
                continue;
            }
            let end = self.end(tag)?;
            if let Some(tree) = close(&mut open, end) {
                return Ok(tree);
            }
        }
    }
}

/// Hands a finished child to the innermost open connective; the whole tree once none is open.
fn close(open: &mut Vec<Open>, mut child: Tree) -> Option<Tree> {
    while let Some(mut parent) = open.pop() {
        parent.children.push(child);
        if parent.children.len() < parent.count {
            open.push(parent);
            return None;
        }
        child = if parent.is_and { And(parent.children) } else { Or(parent.children) };
    }
    Some(child)
}

/// The tree as written, not folded, or the first refusal met from left to right.
pub fn read(bytes: &[u8]) -> Result<Tree, Refusal> {
    let mut reader = Reader { bytes, at: 0, ends_read: 0, ends_owed: 1 };
    let tree = reader.tree()?;
    if reader.at < bytes.len() {
        return refuse(BYTES_FOLLOW, reader.at);
    }
    Ok(tree)
}

// Writing.

/// The shortest form of a number of at most 21 bits.
pub fn write_number(value: u32, out: &mut Vec<u8>) {
    let mut rest = value;
    while rest >= 128 {
        out.push((rest % 128 + 128) as u8);
        rest /= 128;
    }
    out.push(rest as u8);
}

fn write_all(values: &[u32], out: &mut Vec<u8>) {
    values.iter().for_each(|value| write_number(*value, out));
}

fn write(tree: &Tree, out: &mut Vec<u8>) {
    match tree {
        Constant(value) => write_all(&[u32::from(*value)], out),
        Boolean { name, stated } => write_all(&[if *stated { 4 } else { 5 }, *name as u32], out),
        Difference { x, y, c, stated } => {
            let written = if *c >= 0 { 2 * c } else { -2 * c - 1 };
            write_all(&[if *stated { 6 } else { 7 }, *x as u32, *y as u32, written as u32], out)
        }
        And(children) | Or(children) => {
            write_all(&[if matches!(tree, And(_)) { 2 } else { 3 }, children.len() as u32], out);
            children.iter().for_each(|child| write(child, out));
        }
    }
}

// Judging.

pub fn meaning(tree: &Tree, flags: u32, value: &Values) -> bool {
    match tree {
        Constant(constant) => *constant,
        Boolean { name, stated } => (flags >> name & 1 == 1) == *stated,
        Difference { x, y, c, stated } => (value[*x] - value[*y] <= *c) == *stated,
        And(children) => children.iter().all(|child| meaning(child, flags, value)),
        Or(children) => children.iter().any(|child| meaning(child, flags, value)),
    }
}

pub fn values(numbers: &[Whole]) -> Values {
    let mut value = [0; NUMBERS + 1];
    value[1..].iter_mut().zip(numbers).for_each(|(slot, number)| *slot = i64::from(*number));
    value
}

pub fn judge(bytes: &[u8], flags: u32, numbers: &[Whole]) -> Result<bool, Refusal> {
    if numbers.len() != NUMBERS {
        return refuse(NOT_15_NUMBERS, 0);
    }
    Ok(meaning(&read(bytes)?, flags, &values(numbers)))
}

// Folding, negation and critical constraints.

/// Folding a connective in which a child `ruling` decides and its opposite is dropped: false in an `and`, true in an `or`.
fn fold_children(children: Vec<Tree>, ruling: bool, connective: fn(Vec<Tree>) -> Tree) -> Tree {
    let folded: Vec<Tree> = children.into_iter().map(fold).collect();
    if folded.contains(&Constant(ruling)) {
        return Constant(ruling);
    }
    let mut left: Vec<Tree> = folded.into_iter().filter(|child| *child != Constant(!ruling)).collect();
    match left.len() {
        0 => Constant(!ruling),
        1 => left.remove(0),
        _ => connective(left),
    }
}

pub fn fold(tree: Tree) -> Tree {
    match tree {
        And(children) => fold_children(children, false, And),
        Or(children) => fold_children(children, true, Or),
        end => end,
    }
}

fn negation(tree: &Tree) -> Tree {
    match tree {
        Constant(value) => Constant(!value),
        Boolean { name, stated } => Boolean { name: *name, stated: !stated },
        Difference { x, y, c, stated } => Difference { x: *x, y: *y, c: *c, stated: !stated },
        And(children) => Or(children.iter().map(negation).collect()),
        Or(children) => And(children.iter().map(negation).collect()),
    }
}

/// A way from the root to a node: the number of the child to take at each connective.
pub type Path = Vec<usize>;

fn children_of(tree: &Tree) -> &[Tree] {
    match tree {
        And(children) | Or(children) => children,
        _ => &[],
    }
}

/// All ends, constants counted.
pub fn count_ends(tree: &Tree) -> usize {
    match tree {
        And(children) | Or(children) => children.iter().map(count_ends).sum(),
        _ => 1,
    }
}

/// The paths of the ends that are no constants, from left to right.
pub fn ends(tree: &Tree) -> Vec<Path> {
    match tree {
        Constant(_) => Vec::new(),
        And(children) | Or(children) => {
            let below = |(number, child)| ends(child).into_iter().map(move |path| [vec![number], path].concat());
            children.iter().enumerate().flat_map(below).collect()
        }
        _ => vec![Path::new()],
    }
}

/// How many connectives stand one in another.
pub fn depth(tree: &Tree) -> usize {
    children_of(tree).iter().map(|child| depth(child) + 1).max().unwrap_or(0)
}

fn node<'a>(tree: &'a Tree, path: &[usize]) -> &'a Tree {
    path.iter().fold(tree, |parent, number| &children_of(parent)[*number])
}

/// "A child of an `and` has its parent's constraint and all its siblings; a child of an `or` .. and the negation of every sibling."
fn critical_constraint(root: &Tree, path: &[usize]) -> Tree {
    let Some((number, above)) = path.split_last() else {
        return Constant(true);
    };
    let parent = node(root, above);
    let siblings = children_of(parent).iter().enumerate().filter(|(other, _)| other != number);
    let seen = siblings.map(|(_, sibling)| if matches!(parent, Or(_)) { negation(sibling) } else { sibling.clone() });
    And([critical_constraint(root, above)].into_iter().chain(seen).collect())
}

pub fn with_end_as(tree: &Tree, path: &[usize], constant: bool) -> Tree {
    let Some((number, below)) = path.split_first() else {
        return Constant(constant);
    };
    let mut children = children_of(tree).to_vec();
    children[*number] = with_end_as(&children[*number], below, constant);
    if matches!(tree, And(_)) {
        And(children)
    } else {
        Or(children)
    }
}

// Finding.

/// The ends taken as true on one branch of the case split.
#[derive(Clone)]
struct Branch {
    booleans: [Option<bool>; HIGHEST_BOOLEAN as usize + 1],
    /// (x, y, c) for x - y <= c.
    differences: Vec<(usize, usize, i64)>,
}

impl Branch {
    /// Takes an end as true; false if a boolean or a constant says otherwise. Differences are looked at later, all at once.
    fn take(&mut self, end: &Tree) -> bool {
        match end {
            Constant(value) => *value,
            Boolean { name, stated } => *self.booleans[*name].get_or_insert(*stated) == *stated,
            Difference { x, y, c, stated: true } => {
                self.differences.push((*x, *y, *c));
                true
            }
            Difference { x, y, c, stated: false } => {
                self.differences.push((*y, *x, -c - 1));
                true
            }
            And(_) | Or(_) => unreachable!("a connective is no end"),
        }
    }

    /// Sixteen values that meet every difference, or none if a closed chain sums below zero. From sixteen zeros every simple chain is
    /// walked after 15 rounds, so a change in round 16 comes of a closed chain below zero.
    fn values(&self) -> Option<Values> {
        let mut value = [0; NUMBERS + 1];
        for _round in 0..value.len() {
            if !self.lower(&mut value) {
                return Some(value);
            }
        }
        None
    }

    /// One round: lowers each x that is above y + c; whether any was.
    fn lower(&self, value: &mut Values) -> bool {
        let mut lowered = false;
        for (x, y, c) in &self.differences {
            let most = value[*y] + c;
            if value[*x] > most {
                value[*x] = most;
                lowered = true;
            }
        }
        lowered
    }
}

/// Takes all ends that stand under no `or`, and puts the `or`s met aside; false if the ends contradict each other.
fn take_all<'a>(branch: &mut Branch, tree: &'a Tree, ors: &mut Vec<&'a [Tree]>) -> bool {
    match tree {
        And(children) => children.iter().all(|child| take_all(branch, child, ors)),
        Or(children) => {
            ors.push(children);
            true
        }
        end => branch.take(end),
    }
}

/// A branch on which the tree and one child of every `or` put aside hold.
fn split<'a>(mut branch: Branch, tree: &'a Tree, mut ors: Vec<&'a [Tree]>) -> Option<Branch> {
    if !take_all(&mut branch, tree, &mut ors) || branch.values().is_none() {
        return None;
    }
    let Some(children) = ors.pop() else {
        return Some(branch);
    };
    children.iter().find_map(|child| split(branch.clone(), child, ors.clone()))
}

fn satisfying(tree: &Tree) -> Option<Branch> {
    split(Branch { booleans: [None; HIGHEST_BOOLEAN as usize + 1], differences: Vec::new() }, tree, Vec::new())
}

/// Booleans as bits, and the numbers 1 to 15 measured from number 0.
fn assignment(branch: &Branch) -> (u32, [Whole; NUMBERS]) {
    let flags = branch.booleans.iter().rev().fold(0, |flags, boolean| flags << 1 | u32::from(*boolean == Some(true)));
    let value = branch.values().expect("a branch that was kept has values");
    (flags, std::array::from_fn(|index| (value[index + 1] - value[0]) as Whole))
}

/// One satisfying assignment for a buffer of that many numbers.
pub fn find(bytes: &[u8], buffer: usize) -> Result<(u32, [Whole; NUMBERS]), Refusal> {
    if buffer != NUMBERS {
        return refuse(NOT_15_NUMBERS, 0);
    }
    match satisfying(&read(bytes)?) {
        Some(branch) => Ok(assignment(&branch)),
        None => refuse(NO_ASSIGNMENT, 0),
    }
}

// Trimming.

/// How a sweep ended: at the first yes, at the ration's last question, or with no yes.
enum Sweep {
    Cut(Tree),
    Stopped,
    NoYes,
}

/// The questions of one sweep, ends from left to right: whether L becomes true (one), whether it becomes false (two).
pub fn questions_of(tree: &Tree) -> impl Iterator<Item = (Path, bool)> + use<> {
    ends(tree).into_iter().flat_map(|path| [(path.clone(), true), (path, false)])
}

/// Does the critical constraint of the end imply it (one, the constant true) or its negation (two, the constant false)?
fn yes(tree: &Tree, path: &[usize], constant: bool) -> bool {
    let end = node(tree, path);
    let implied = if constant { end.clone() } else { negation(end) };
    satisfying(&And(vec![negation(&implied), critical_constraint(tree, path)])).is_none()
}

fn sweep(tree: &Tree, ration: u32, asked: &mut u32) -> Sweep {
    for (path, constant) in questions_of(tree) {
        if *asked == ration {
            return Sweep::Stopped;
        }
        *asked += 1;
        if yes(tree, &path, constant) {
            return Sweep::Cut(fold(with_end_as(tree, &path, constant)));
        }
    }
    Sweep::NoYes
}

/// Where the sweeps led, before any room is looked at.
#[derive(Clone, Debug)]
pub struct Swept {
    pub finished: bool,
    pub questions: u32,
    pub ends: usize,
    pub bytes: Vec<u8>,
}

pub fn swept(bytes: &[u8], ration: u32) -> Result<Swept, Refusal> {
    let mut tree = fold(read(bytes)?);
    let mut questions = 0;
    let finished = loop {
        match sweep(&tree, ration, &mut questions) {
            Sweep::Cut(cut) => tree = cut,
            Sweep::Stopped => break false,
            Sweep::NoYes => break true,
        }
    };
    let mut written = Vec::new();
    write(&tree, &mut written);
    Ok(Swept { finished, questions, ends: ends(&tree).len(), bytes: written })
}

impl Swept {
    /// "result, a stopped one too, longer than the output buffer": refused with the bytes needed.
    pub fn in_room(self, room: usize) -> Result<Swept, Refusal> {
        if self.bytes.len() > room {
            return refuse(ROOM_TOO_SMALL, self.bytes.len());
        }
        Ok(self)
    }
}
