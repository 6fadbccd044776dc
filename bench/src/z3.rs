//! The same sweep asked of z3, question by question, and z3's own tactic ctx-solver-simplify; through z3's C interface.
use plain::folding::fold;
use plain::limits::{Whole, LAST_BOOLEAN, NUMBERS};
use plain::sweep::{constraint, Swept};
use plain::tree::{ends, Node};
use std::ffi::{c_char, c_int, c_uint, c_void, CString};
use std::ptr::null_mut;

type Ptr = *mut c_void;

#[link(name = "z3")]
extern "C" {
    fn Z3_mk_config() -> Ptr;
    fn Z3_del_config(config: Ptr);
    fn Z3_mk_context(config: Ptr) -> Ptr;
    fn Z3_del_context(c: Ptr);
    fn Z3_mk_string_symbol(c: Ptr, s: *const c_char) -> Ptr;
    fn Z3_mk_bool_sort(c: Ptr) -> Ptr;
    fn Z3_mk_int_sort(c: Ptr) -> Ptr;
    fn Z3_mk_const(c: Ptr, symbol: Ptr, sort: Ptr) -> Ptr;
    fn Z3_mk_int(c: Ptr, value: c_int, sort: Ptr) -> Ptr;
    fn Z3_mk_true(c: Ptr) -> Ptr;
    fn Z3_mk_false(c: Ptr) -> Ptr;
    fn Z3_mk_not(c: Ptr, a: Ptr) -> Ptr;
    fn Z3_mk_and(c: Ptr, many: c_uint, args: *const Ptr) -> Ptr;
    fn Z3_mk_or(c: Ptr, many: c_uint, args: *const Ptr) -> Ptr;
    fn Z3_mk_sub(c: Ptr, many: c_uint, args: *const Ptr) -> Ptr;
    fn Z3_mk_le(c: Ptr, a: Ptr, b: Ptr) -> Ptr;
    fn Z3_mk_solver_for_logic(c: Ptr, logic: Ptr) -> Ptr;
    fn Z3_solver_inc_ref(c: Ptr, s: Ptr);
    fn Z3_solver_dec_ref(c: Ptr, s: Ptr);
    fn Z3_solver_push(c: Ptr, s: Ptr);
    fn Z3_solver_pop(c: Ptr, s: Ptr, many: c_uint);
    fn Z3_solver_assert(c: Ptr, s: Ptr, a: Ptr);
    fn Z3_solver_check(c: Ptr, s: Ptr) -> c_int;
    fn Z3_mk_goal(c: Ptr, models: bool, cores: bool, proofs: bool) -> Ptr;
    fn Z3_goal_inc_ref(c: Ptr, g: Ptr);
    fn Z3_goal_dec_ref(c: Ptr, g: Ptr);
    fn Z3_goal_assert(c: Ptr, g: Ptr, a: Ptr);
    fn Z3_goal_size(c: Ptr, g: Ptr) -> c_uint;
    fn Z3_goal_formula(c: Ptr, g: Ptr, i: c_uint) -> Ptr;
    fn Z3_mk_tactic(c: Ptr, name: *const c_char) -> Ptr;
    fn Z3_tactic_inc_ref(c: Ptr, t: Ptr);
    fn Z3_tactic_dec_ref(c: Ptr, t: Ptr);
    fn Z3_tactic_apply(c: Ptr, t: Ptr, g: Ptr) -> Ptr;
    fn Z3_apply_result_inc_ref(c: Ptr, r: Ptr);
    fn Z3_apply_result_dec_ref(c: Ptr, r: Ptr);
    fn Z3_apply_result_get_num_subgoals(c: Ptr, r: Ptr) -> c_uint;
    fn Z3_apply_result_get_subgoal(c: Ptr, r: Ptr, i: c_uint) -> Ptr;
    fn Z3_get_app_decl(c: Ptr, a: Ptr) -> Ptr;
    fn Z3_get_decl_kind(c: Ptr, d: Ptr) -> c_uint;
    fn Z3_get_app_num_args(c: Ptr, a: Ptr) -> c_uint;
    fn Z3_get_app_arg(c: Ptr, a: Ptr, i: c_uint) -> Ptr;
    fn Z3_get_numeral_int(c: Ptr, a: Ptr, value: *mut c_int) -> bool;
    fn Z3_ast_to_string(c: Ptr, a: Ptr) -> *const c_char;
    fn Z3_get_full_version() -> *const c_char;
}

// Z3_decl_kind
const TRUE: c_uint = 0x100;
const FALSE: c_uint = 0x101;
const AND: c_uint = 0x105;
const OR: c_uint = 0x106;
const NOT: c_uint = 0x109;
const IMPLIES: c_uint = 0x10a;
const NUMERAL: c_uint = 0x200;
const LE: c_uint = 0x202;
const GE: c_uint = 0x203;
const ADD: c_uint = 0x206;
const SUB: c_uint = 0x207;
const UMINUS: c_uint = 0x208;
const MUL: c_uint = 0x209;

pub fn version() -> String {
    // SAFETY: z3 returns a string of its own that ends with 0.
    unsafe { std::ffi::CStr::from_ptr(Z3_get_full_version()) }.to_string_lossy().into_owned()
}

/// A z3 context with the names of all booleans and numbers. The terms made in it live until it is dropped.
pub struct Context {
    c: Ptr,
    booleans: Vec<Ptr>,
    numbers: Vec<Ptr>,
    int: Ptr,
}

impl Drop for Context {
    fn drop(&mut self) {
        // SAFETY: made by z3 in `new`, and not used after.
        unsafe { Z3_del_context(self.c) }
    }
}

impl Context {
    pub fn new() -> Context {
        // SAFETY: here and below, each pointer given to z3 came from z3, from the same context, which lives as long as `self`.
        unsafe {
            let config = Z3_mk_config();
            let c = Z3_mk_context(config);
            Z3_del_config(config);
            let (bool, int) = (Z3_mk_bool_sort(c), Z3_mk_int_sort(c));
            let named = |name: String, sort| Z3_mk_const(c, symbol(c, &name), sort);
            let booleans = (0..=LAST_BOOLEAN).map(|p| named(format!("b{p}"), bool)).collect();
            let numbers = (0..=NUMBERS).map(|x| if x == 0 { Z3_mk_int(c, 0, int) } else { named(format!("n{x}"), int) }).collect();
            Context { c, booleans, numbers, int }
        }
    }

    fn not(&self, ast: Ptr) -> Ptr {
        unsafe { Z3_mk_not(self.c, ast) }
    }

    /// The z3 term of each node, by its place.
    fn terms(&self, nodes: &[Node]) -> Vec<Ptr> {
        let mut terms = vec![null_mut(); nodes.len()];
        for at in (0..nodes.len()).rev() {
            terms[at] = self.term(nodes, at, &terms);
        }
        terms
    }

    fn term(&self, nodes: &[Node], at: usize, terms: &[Ptr]) -> Ptr {
        let (c, turned) = (self.c, |so, ast| if so { ast } else { self.not(ast) });
        unsafe {
            match nodes[at] {
                Node::Plain(true) => Z3_mk_true(c),
                Node::Plain(false) => Z3_mk_false(c),
                Node::Flag(so, p) => turned(so, self.booleans[p as usize]),
                Node::Bound(so, x, y, bound) => {
                    let (x, y) = (self.numbers[x as usize], self.numbers[y as usize]);
                    turned(so, Z3_mk_le(c, Z3_mk_sub(c, 2, [x, y].as_ptr()), Z3_mk_int(c, bound, self.int)))
                }
                Node::Join(all, ..) => {
                    let args: Vec<Ptr> = plain::tree::children(nodes, at).map(|child| terms[child]).collect();
                    (if all { Z3_mk_and } else { Z3_mk_or })(c, args.len() as c_uint, args.as_ptr())
                }
            }
        }
    }
}

fn symbol(c: Ptr, name: &str) -> Ptr {
    let name = CString::new(name).unwrap();
    unsafe { Z3_mk_string_symbol(c, name.as_ptr()) }
}

/// The sweep of document 01, each question asked of one z3 solver for the tree: push, the critical constraint and the claim's negation,
/// check, pop. Folding is the plain program's. z3 gives no answer to keep: each question is a search.
pub fn sweep(context: &Context, nodes: &[Node], ration: u32) -> Swept {
    let c = context.c;
    let solver = unsafe { Z3_mk_solver_for_logic(c, symbol(c, "QF_IDL")) };
    unsafe { Z3_solver_inc_ref(c, solver) };
    let (mut tree, mut asked) = (fold(nodes, None), 0);
    let finished = 'sweep: loop {
        let terms = context.terms(&tree);
        let claim = |(at, so): (usize, bool)| if so { terms[at] } else { context.not(terms[at]) };
        for end in ends(&tree).collect::<Vec<_>>() {
            for second in [false, true] {
                if asked == ration {
                    break 'sweep false;
                }
                asked += 1;
                unsafe { Z3_solver_push(c, solver) };
                for part in constraint(&tree, end).into_iter().chain([(end, second)]) {
                    unsafe { Z3_solver_assert(c, solver, claim(part)) };
                }
                let satisfiable = unsafe { Z3_solver_check(c, solver) };
                unsafe { Z3_solver_pop(c, solver, 1) };
                assert!(satisfiable != 0, "z3 does not know");
                if satisfiable < 0 {
                    tree = fold(&tree, Some((end, !second)));
                    continue 'sweep;
                }
            }
        }
        break true;
    };
    unsafe { Z3_solver_dec_ref(c, solver) };
    Swept { nodes: tree, asked, finished }
}

/// z3's tactic on the condition: the formulas of its result, which are joined by `and`.
pub fn simplify(context: &Context, nodes: &[Node]) -> Vec<Ptr> {
    let c = context.c;
    let name = CString::new("ctx-solver-simplify").unwrap();
    unsafe {
        // z3 keeps a new object only until the next is made, unless it is counted at once.
        let tactic = Z3_mk_tactic(c, name.as_ptr());
        Z3_tactic_inc_ref(c, tactic);
        let goal = Z3_mk_goal(c, false, false, false);
        Z3_goal_inc_ref(c, goal);
        Z3_goal_assert(c, goal, context.terms(nodes)[0]);
        let result = Z3_tactic_apply(c, tactic, goal);
        Z3_apply_result_inc_ref(c, result);
        assert_eq!(Z3_apply_result_get_num_subgoals(c, result), 1, "the tactic splits nothing");
        let left = Z3_apply_result_get_subgoal(c, result, 0);
        Z3_goal_inc_ref(c, left);
        let formulas = (0..Z3_goal_size(c, left)).map(|i| Z3_goal_formula(c, left, i)).collect();
        Z3_goal_dec_ref(c, left);
        Z3_apply_result_dec_ref(c, result);
        Z3_goal_dec_ref(c, goal);
        Z3_tactic_dec_ref(c, tactic);
        formulas
    }
}

/// The nodes of z3's formulas joined by `and`, folded. An end is one occurrence of an atom, a boolean or a comparison, below `and`, `or`
/// and `not` (and `=>`, as the `or` that it is); a `not` goes down to the ends, which changes none of their number. z3 shares equal
/// subterms; here each occurrence is counted, as in a tree.
pub fn back(context: &Context, formulas: &[Ptr]) -> Vec<Node> {
    let mut out = vec![];
    put_join(&mut out, true, formulas.len(), |i, out| put(context, formulas[i], true, out));
    fold(&out, None)
}

fn put_join(out: &mut Vec<Node>, all: bool, count: usize, mut child: impl FnMut(usize, &mut Vec<Node>)) {
    let start = out.len();
    out.push(Node::Plain(true));
    for i in 0..count {
        child(i, out);
    }
    out[start] = Node::Join(all, count as u8, (out.len() - start) as u8);
}

fn kind(c: Ptr, ast: Ptr) -> c_uint {
    unsafe { Z3_get_decl_kind(c, Z3_get_app_decl(c, ast)) }
}

fn args(c: Ptr, ast: Ptr) -> Vec<Ptr> {
    unsafe { (0..Z3_get_app_num_args(c, ast)).map(|i| Z3_get_app_arg(c, ast, i)).collect() }
}

/// A formula, or (false) its negation.
fn put(context: &Context, ast: Ptr, so: bool, out: &mut Vec<Node>) {
    let (kind, args) = (kind(context.c, ast), args(context.c, ast));
    match kind {
        TRUE | FALSE => out.push(Node::Plain((kind == TRUE) == so)),
        NOT => put(context, args[0], !so, out),
        AND | OR => put_join(out, (kind == AND) == so, args.len(), |i, out| put(context, args[i], so, out)),
        IMPLIES => put_join(out, !so, 2, |i, out| put(context, args[i], (i == 1) == so, out)),
        LE | GE => out.push(difference(context, kind, &args, so).unwrap_or_else(|| panic!("no difference: {}", text(context, ast)))),
        _ => match context.booleans.iter().position(|&b| b == ast) {
            Some(p) => out.push(Node::Flag(so, p as u8)),
            None => panic!("no end: {}", text(context, ast)),
        },
    }
}

fn text(context: &Context, ast: Ptr) -> String {
    unsafe { std::ffi::CStr::from_ptr(Z3_ast_to_string(context.c, ast)) }.to_string_lossy().into_owned()
}

/// A sum: entry x is number x's coefficient, the last the constant.
type Sum = [i64; CONSTANT + 1];
const CONSTANT: usize = NUMBERS + 1;

/// A comparison of sums as x - y <= c or (false) its negation: its coefficients, all on the left, are 1 at x, -1 at y and 0 elsewhere.
fn difference(context: &Context, kind: c_uint, args: &[Ptr], so: bool) -> Option<Node> {
    let sign = if kind == LE { 1 } else { -1 };
    let mut sum: Sum = [0; CONSTANT + 1];
    add(context, args[0], sign, &mut sum)?;
    add(context, args[1], -sign, &mut sum)?;
    let at = |coefficient| (1..=NUMBERS).filter(move |&x| sum[x] == coefficient);
    let others = (1..=NUMBERS).filter(|&x| sum[x].abs() > 1).count();
    if others > 0 || at(1).count() > 1 || at(-1).count() > 1 {
        return None;
    }
    Some(Node::Bound(so, at(1).next().unwrap_or(0) as u8, at(-1).next().unwrap_or(0) as u8, -sum[CONSTANT] as Whole))
}

/// Adds a term times a factor.
fn add(context: &Context, ast: Ptr, factor: i64, sum: &mut Sum) -> Option<()> {
    let c = context.c;
    let numeral = |ast| {
        let mut value = 0;
        unsafe { kind(c, ast) == NUMERAL && Z3_get_numeral_int(c, ast, &mut value) }.then_some(value as i64)
    };
    if let Some(value) = numeral(ast) {
        sum[CONSTANT] += factor * value;
        return Some(());
    }
    let (kind, args) = (kind(c, ast), args(c, ast));
    match kind {
        ADD => args.iter().try_for_each(|&a| add(context, a, factor, sum)),
        SUB => args.iter().enumerate().try_for_each(|(i, &a)| add(context, a, if i == 0 { factor } else { -factor }, sum)),
        UMINUS => add(context, args[0], -factor, sum),
        MUL => add(context, args[1], factor * numeral(args[0])?, sum),
        _ => {
            sum[context.numbers.iter().position(|&n| n == ast)?] += factor;
            Some(())
        }
    }
}
