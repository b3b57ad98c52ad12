//! The known difference of the excerpt of CAR from docs/RULES.md: `adapt` moves the target by the quotient of the ghost lists' lengths, where the rules have 1. Runs the
//! excerpt beside its copy with the step set to 1 and checks that a difference always begins at an insert of a ghost page where that quotient is above 1, and
//! nowhere else. Each of the two is held against the list model with its own rule for the step, call by call, so that the step is the only rule in which they differ.
use compare::agree::Pair;
use compare::calls::{Answer, Cache, Called};
use compare::cases::{long_run, PATTERNS, STYLES};
use compare::random::Random;
use compare::rust::Side;
use compare::state::State;
use compare::trace::Operation;
use std::collections::{HashMap, HashSet};
use std::process::exit;
use std::time::{SystemTime, UNIX_EPOCH};

fn failed(said: String) -> ! {
    println!("expected: {said}");
    exit(1);
}

/// The excerpt of CAR and its copy with the step 1.
#[derive(Clone)]
struct Both {
    excerpt: Pair,
    step_1: Pair,
}

/// How the two differ after a call.
#[derive(Clone, Copy, PartialEq, Eq)]
enum Differ {
    Nowhere,
    InState,
    InLine,
}

impl Both {
    fn new(c: usize) -> Both {
        Both { excerpt: Pair::new(Side::CarExcerpt, c), step_1: Pair::new(Side::CarStep1, c) }
    }

    fn states(&self) -> [&State; 2] {
        [self.excerpt.rust.state(), self.step_1.rust.state()]
    }

    fn equal(&self) -> bool {
        self.excerpt.rust.state() == self.step_1.rust.state()
    }

    fn call(&mut self, operation: Operation) -> (Called, Called, Differ) {
        let alike = self.equal();
        let quotient = quotient(self.states()[0], operation);
        let called = |pair: &mut Pair| pair.call(operation).unwrap_or_else(|said| failed(said));
        let (a, b) = (called(&mut self.excerpt), called(&mut self.step_1));
        let differ = if a.answer != b.answer {
            Differ::InLine
        } else if a != b || !self.equal() {
            Differ::InState
        } else {
            Differ::Nowhere
        };
        if alike && differ != Differ::Nowhere && quotient < 2 {
            failed(format!("another difference than the known one, at {operation:?} from {}", self.states()[1].text(0)));
        }
        (a, b, differ)
    }
}

/// What the excerpt divides: the other ghost list by the hit one; 0 where the call is no insert of a ghost page.
fn quotient(state: &State, operation: Operation) -> usize {
    let (b1, b2) = (&state.b1, &state.b2);
    match operation {
        Operation::Insert(x, _) if b1.contains(&x) => b2.len() / b1.len(),
        Operation::Insert(x, _) if b2.contains(&x) => b1.len() / b2.len(),
        _ => 0,
    }
}

/// The two states with their pages renamed in the order in which they stand there: calls do not look at a page's number, so that one pair of states with each
/// such name is enough.
fn name(both: &Both) -> Vec<usize> {
    let mut names = HashMap::new();
    let mut out = vec![];
    for s in both.states() {
        out.extend([s.target, s.t1.len(), s.t2.len(), s.b1.len(), s.b2.len()]);
        let pages = s.residents().map(|r| r.page).chain(s.b1.iter().chain(&s.b2).copied());
        for page in pages {
            let next = names.len();
            out.push(*names.entry(page).or_insert(next));
        }
        out.extend(s.residents().map(|r| 2 * r.slot + usize::from(r.bit)));
        out.extend(&s.free);
    }
    out
}

/// All calls that can matter: inserts of known pages and of a new one, gets and removes of residents.
fn calls(both: &Both, path: &[Operation]) -> Vec<Operation> {
    let mut residents: Vec<u64> = both.states().iter().flat_map(|s| s.residents()).map(|r| r.page).collect();
    let mut known: Vec<u64> = both.states().iter().flat_map(|s| s.b1.iter().chain(&s.b2)).copied().chain(residents.iter().copied()).collect();
    let last = path.iter().map(|operation| if let Operation::Insert(x, _) = operation { *x } else { 0 }).max();
    known.push(last.unwrap_or(0) + 1);
    for pages in [&mut residents, &mut known] {
        pages.sort();
        pages.dedup();
    }
    let inserts = known.iter().map(|&x| Operation::Insert(x, x as u32));
    inserts.chain(residents.iter().map(|&x| Operation::Get(x))).chain(residents.iter().map(|&x| Operation::Remove(x))).collect()
}

fn told(path: &[Operation]) -> String {
    let told = path.iter().map(|operation| match operation {
        Operation::Insert(x, _) => format!("insert {x}"),
        Operation::Get(x) => format!("get {x}"),
        Operation::Remove(x) => format!("remove {x}"),
        other => format!("{other:?}"),
    });
    told.collect::<Vec<_>>().join(", ")
}

/// All sequences of calls at one capacity, as long as the two are alike, and up to a length once they are not: the first that shows another state, and the first
/// up to that length that shows another line.
fn search(c: usize, longest: usize) -> [Option<Vec<Operation>>; 2] {
    let mut now = vec![(Both::new(c), vec![])];
    let mut seen = HashSet::from([name(&now[0].0)]);
    let (mut found, mut alike) = ([None, None], 0);
    while !now.is_empty() {
        let mut next = vec![];
        for (both, path) in &now {
            alike += usize::from(both.equal());
            for operation in calls(both, path) {
                let mut after: Both = both.clone();
                let (_, _, differ) = after.call(operation);
                let mut longer: Vec<Operation> = path.clone();
                longer.push(operation);
                if differ != Differ::Nowhere && found[0].is_none() {
                    found[0] = Some(longer.clone());
                }
                if differ == Differ::InLine && found[1].is_none() && longer.len() <= longest {
                    found[1] = Some(longer.clone());
                }
                if (after.equal() || longer.len() < longest) && seen.insert(name(&after)) {
                    next.push((after, longer));
                }
            }
        }
        now = next;
    }
    println!("expected: capacity {c}: {alike} states that both reach in step; no call from them but the known one tells the two apart");
    found
}

/// The two lines and states after each of some inserts.
fn run(c: usize, pages: &[u64]) -> (Both, Answer, Answer, Vec<Differ>) {
    let mut both = Both::new(c);
    let (mut differs, mut last) = (vec![], (Answer::Miss, Answer::Miss));
    for &x in pages {
        let (a, b, differ) = both.call(Operation::Insert(x, x as u32));
        differs.push(differ);
        last = (a.answer, b.answer);
    }
    (both, last.0, last.1, differs)
}

/// The inputs that docs/DIFFERENCES.md names.
fn named() {
    let (both, _, _, differs) = run(2, &[1, 2, 3, 1, 4, 5, 1]);
    let first = differs.iter().position(|&differ| differ != Differ::Nowhere);
    let [excerpt, step_1] = both.states();
    if first != Some(6) || differs[6] != Differ::InState || (excerpt.target, step_1.target) != (0, 1) {
        failed("insert 1, 2, 3, 1, 4, 5, 1 at capacity 2 does not show target 0 in the excerpt and 1 by the rules".to_string());
    }
    for next in [2, 6] {
        let (_, a, b, differs) = run(2, &[1, 2, 3, 1, 4, 5, 1, next]);
        if differs.last() != Some(&Differ::InLine) {
            failed(format!("insert {next} after it shows no other line"));
        }
        println!("expected: capacity 2, insert 1, 2, 3, 1, 4, 5, 1: target 0 in the excerpt and 1 by the rules; then insert {next}: `{a}` in the excerpt and `{b}` by the rules");
    }
}

/// Random runs: how many differ, of how many.
fn random_runs(seed: u64, count: u64) {
    let (mut differing, mut calls) = (0, 0);
    for i in 0..count {
        let mut random = Random::new(seed.wrapping_add(i));
        let most = random.choice(&[4, 16, 64, 256]);
        let c = 1 + random.below(most) as usize;
        let pattern = random.choice(&PATTERNS);
        let style = random.choice(&STYLES);
        let mut both = Both::new(c);
        let mut once = false;
        for operation in long_run(&mut random, pattern, c, 40 + 6 * c, style) {
            once |= both.call(operation).2 != Differ::Nowhere;
            calls += 1;
        }
        differing += u64::from(once);
    }
    println!("expected: {count} random runs with the seeds {seed} to {}, {calls} calls: {differing} come to differ, each at such an insert", seed + count - 1);
}

fn main() {
    let fresh = SystemTime::now().duration_since(UNIX_EPOCH).expect("the clock").as_nanos() as u64 % 1_000_000_000_000;
    let seed = std::env::args().nth(1).map_or(fresh, |word| word.parse().expect("usage: expected [SEED]"));
    for c in 1..=3 {
        let found = search(c, 8);
        for (what, path) in ["state", "line"].into_iter().zip(&found) {
            if let Some(path) = path {
                println!("expected: capacity {c}: another {what} first after {} calls: {}", path.len(), told(path));
            }
        }
        let lengths = found.map(|path| path.map_or(usize::MAX, |path| path.len()));
        let right = if c == 2 { lengths == [7, 8] } else { lengths[0] > 7 && lengths[1] > 8 };
        if !right {
            failed("the shortest inputs are not those of docs/DIFFERENCES.md".to_string());
        }
    }
    named();
    random_runs(seed, 300);
    println!("expected: the step of CAR's target is the only difference");
}
