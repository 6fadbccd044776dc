//! Time per find and per trim over sets of conditions: the proved library beside a plain Rust program and, with feature z3, beside z3.
mod proved;
#[cfg(feature = "z3")]
mod z3;

use plain::limits::{ENDS, FINISHED, LONGEST, NOTHING, NUMBERS};
use plain::tree::{ends, Node};
use plain::{reading, search, sweep};
use std::hint::black_box;

/// Enough for every condition: n(n+1) questions for n ends.
const RATION: u32 = (ENDS * (ENDS + 1)) as u32;
const TIMES: &str = "microseconds a call: program, median, mean, 90th hundredth, worst";

fn conditions(path: &str) -> Vec<Vec<u8>> {
    let text = std::fs::read_to_string(path).unwrap_or_else(|e| panic!("{path}: {e}"));
    let byte = |s: &str| u8::from_str_radix(s, 16).expect("two hex digits");
    text.lines().map(|l| (0..l.len() / 2).map(|i| byte(&l[2 * i..2 * i + 2])).collect()).collect()
}

extern "C" {
    fn clock_gettime(clock: i32, time: *mut [i64; 2]) -> i32;
}

/// This thread's processor time, in nanoseconds: a call of milliseconds is interrupted on a busy machine where one of microseconds
/// finds a quiet moment, and the time on the wall would favour the short.
fn now() -> f64 {
    const THREAD_CPUTIME: i32 = 3;
    let mut time = [0; 2];
    // SAFETY: two 64-bit numbers, seconds and nanoseconds, are a timespec on 64-bit Linux.
    assert_eq!(unsafe { clock_gettime(THREAD_CPUTIME, &mut time) }, 0);
    time[0] as f64 * 1e9 + time[1] as f64
}

/// The least of several timings of one call, in nanoseconds: other work on the machine only adds to one.
fn time<T>(timings: u32, mut call: impl FnMut() -> T) -> f64 {
    let mut best = f64::INFINITY;
    for _ in 0..timings {
        let mut calls = 1u32;
        loop {
            let start = now();
            for _ in 0..calls {
                black_box(call());
            }
            let spent = now() - start;
            if spent > 50_000.0 {
                best = best.min(spent / calls as f64);
                break;
            }
            calls *= 2;
        }
    }
    best
}

/// What one program did over a set: the time of each condition; and of trim's results the ends left, and those that are redundant.
struct Program {
    name: &'static str,
    times: Vec<f64>,
    ends: usize,
    redundant: usize,
}

impl Program {
    fn new(name: &'static str) -> Program {
        Program { name, times: vec![], ends: 0, redundant: 0 }
    }

    /// One condition's time, and its result, constants aside.
    fn note(&mut self, time: f64, result: &[Node]) {
        self.times.push(time);
        self.ends += ends(result).count();
        self.redundant += sweep::redundant(result);
    }

    fn mean(&self) -> f64 {
        self.times.iter().sum::<f64>() / self.times.len() as f64
    }

    /// Name, median, mean, 90th hundredth and worst, microseconds; a line of bench/README.md's tables without its bar at the end.
    fn times(&self) -> String {
        let mut times = self.times.clone();
        times.sort_by(f64::total_cmp);
        let at = |share: f64| times[((times.len() - 1) as f64 * share) as usize] / 1000.0;
        format!("| {} | {:.3} | {:.3} | {:.3} | {:.3} |", self.name, at(0.5), self.mean() / 1000.0, at(0.9), at(1.0))
    }
}

/// Both programs agree on whether an assignment exists, and both assignments satisfy the condition; then both are timed.
fn measure_find(set: &[Vec<u8>]) {
    let (mut ours, mut plain) = (Program::new("proved"), Program::new("plain"));
    let mut satisfiable = 0;
    for tree in set {
        let (mut a, mut b) = ([0; NUMBERS], [0; NUMBERS]);
        let (one, other) = (proved::find(tree, &mut a), plain::find(tree, &mut b));
        assert_eq!(one.answer, other.answer, "the two disagree on {tree:02x?}");
        satisfiable += (one.answer == FINISHED) as u32;
        for (found, numbers) in [(one, a), (other, b)] {
            assert!(found.answer == NOTHING || plain::judge(tree, found.bits, &numbers).value, "not satisfied: {tree:02x?}");
        }
        ours.times.push(time(7, || proved::find(black_box(tree), &mut a)));
        plain.times.push(time(7, || plain::find(black_box(tree), &mut b)));
    }
    println!("find, {satisfiable} satisfiable; {TIMES}");
    for program in [&ours, &plain] {
        println!("{}", program.times());
    }
    println!("proved mean: {:.2} times the plain program's", ours.mean() / plain.mean());
}

/// All programs agree on the answer, the questions, the ends, the length and the bytes of the result; then all are timed.
fn measure_trim(set: &[Vec<u8>]) {
    let (mut ours, mut plain) = (Program::new("proved"), Program::new("plain"));
    let (mut read, mut questions) = (0, 0);
    #[cfg(feature = "z3")]
    let mut others = Others::new();
    for tree in set {
        let (mut a, mut b) = ([0xee; LONGEST], [0xee; LONGEST]);
        let (one, other) = (proved::trim(tree, RATION, &mut a), plain::trim(tree, RATION, &mut b));
        assert_eq!((one, a), (other, b), "the two disagree on {tree:02x?}");
        let nodes = reading::read(tree).expect("a condition of the set reads");
        let swept = sweep::sweep(&nodes, RATION);
        assert!(same_meaning(&nodes, &swept.nodes), "another meaning: {tree:02x?}");
        read += ends(&nodes).count();
        questions += swept.asked as u64;
        let results = [a, b].map(|out| reading::read(&out[..other.bytes as usize]).expect("a result reads"));
        ours.note(time(7, || proved::trim(black_box(tree), RATION, &mut a)), &results[0]);
        plain.note(time(7, || plain::trim(black_box(tree), RATION, &mut b)), &results[1]);
        #[cfg(feature = "z3")]
        others.measure(&nodes, &swept);
    }
    println!("trim, {read} ends, {questions} questions; {TIMES}, ends left, redundant");
    #[cfg(not(feature = "z3"))]
    let programs = [&ours, &plain];
    #[cfg(feature = "z3")]
    let programs = [&ours, &plain, &others.sweep, &others.simplify];
    for program in programs {
        println!("{} {} | {} |", program.times(), program.ends, program.redundant);
    }
    println!("proved mean: {:.2} times the plain program's", ours.mean() / plain.mean());
    #[cfg(feature = "z3")]
    for other in [&others.sweep, &others.simplify] {
        println!("{} mean: {:.1} times the proved one's", other.name, other.mean() / ours.mean());
    }
}

/// Whether two trees are true under the same assignments, by the plain program's search: neither is true where the other is false.
fn same_meaning(one: &[Node], other: &[Node]) -> bool {
    let both: Vec<Node> = one.iter().chain(other).copied().collect();
    [true, false].iter().all(|&so| search::satisfy(&both, &[(0, so), (one.len(), !so)]).is_none())
}

/// z3 asked question by question, and z3's own tactic. One context serves all conditions, which favours z3.
#[cfg(feature = "z3")]
struct Others {
    context: z3::Context,
    sweep: Program,
    simplify: Program,
}

#[cfg(feature = "z3")]
impl Others {
    fn new() -> Others {
        Others { context: z3::Context::new(), sweep: Program::new("z3 loop"), simplify: Program::new("z3 ctx-solver-simplify") }
    }

    /// The loop must reach what the sweep reached, with as many questions; the tactic a tree of the same meaning.
    fn measure(&mut self, nodes: &[Node], right: &sweep::Swept) {
        let z3 = &self.context;
        let swept = z3::sweep(z3, nodes, RATION);
        assert_eq!((&swept.nodes, swept.asked, swept.finished), (&right.nodes, right.asked, right.finished), "z3 disagrees: {nodes:?}");
        self.sweep.note(time(3, || z3::sweep(z3, nodes, RATION)), &swept.nodes);
        let simplified = z3::back(z3, &z3::simplify(z3, nodes));
        assert!(same_meaning(nodes, &simplified), "another meaning: {nodes:?}");
        self.simplify.note(time(3, || z3::simplify(z3, nodes)), &simplified);
    }
}

fn main() {
    #[cfg(feature = "z3")]
    println!("z3 {}", z3::version());
    for path in std::env::args().skip(1) {
        let set = conditions(&path);
        println!("\n{path}: {} conditions", set.len());
        measure_find(&set);
        measure_trim(&set);
    }
}
