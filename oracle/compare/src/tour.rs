//! All states that calls reach from a fresh cache of a small capacity, up to the names of pages, and walks that make every call from every one of them. A policy
//! does not look at a page's number or at frames, so that two states that differ in these alone go on alike, and there are finitely many others.
use crate::agree::Pair;
use crate::calls::Cache;
use crate::rust::Side;
use crate::state::State;
use crate::trace::Operation;
use std::collections::{HashMap, HashSet, VecDeque};

/// A state without its pages' numbers and frames. Its pages are distinct, so that their places are all that is left of them.
pub fn name(state: &State) -> Vec<usize> {
    let mut out = vec![state.target, state.t1.len(), state.t2.len(), state.b1.len(), state.b2.len()];
    out.extend(state.residents().map(|r| 2 * r.slot + usize::from(r.bit)));
    out.extend(&state.free);
    out
}

/// The calls that can matter in a state, in an order that its name settles: an insert of every page that it holds and of another one, gets and removes of every
/// resident, of a ghost and of a page that it does not hold. The other calls change nothing, or are a clear.
pub fn calls(state: &State, frame: u32) -> Vec<Operation> {
    let residents: Vec<u64> = state.residents().map(|r| r.page).collect();
    let ghosts: Vec<u64> = state.b1.iter().chain(&state.b2).copied().collect();
    let absent = (1..).find(|x| !residents.contains(x) && !ghosts.contains(x)).unwrap();
    let asked: Vec<u64> = residents.iter().chain(ghosts.first()).copied().chain([absent]).collect();
    let inserts = residents.iter().chain(&ghosts).copied().chain([absent]).map(|x| Operation::Insert(x, frame));
    inserts.chain(asked.iter().map(|&x| Operation::Get(x))).chain(asked.iter().map(|&x| Operation::Remove(x))).collect()
}

/// For every state, where each call leads, and the state and call that it was first reached by; the fresh state is 0.
pub struct Graph {
    pub next: Vec<Vec<usize>>,
    came: Vec<(usize, usize)>,
}

impl Graph {
    pub fn calls(&self) -> usize {
        self.next.iter().map(Vec::len).sum()
    }

    /// The numbers of the calls that lead from the fresh state to one.
    fn from_fresh(&self, mut at: usize) -> Vec<usize> {
        let mut found = vec![];
        while at != 0 {
            let (before, call) = self.came[at];
            found.push(call);
            at = before;
        }
        found.reverse();
        found
    }
}

/// Makes every call from every state that calls reach, on the Rust and on the list model, which must agree.
pub fn explore(side: Side, c: usize) -> Result<Graph, String> {
    let fresh = Pair::new(side, c);
    let mut ids = HashMap::from([(name(fresh.rust.state()), 0)]);
    let mut waiting = VecDeque::from([fresh]);
    let mut graph = Graph { next: vec![], came: vec![(0, 0)] };
    while let Some(pair) = waiting.pop_front() {
        let mut row = vec![];
        for (call, operation) in calls(pair.rust.state(), graph.next.len() as u32).into_iter().enumerate() {
            let mut after = pair.clone();
            after.call(operation)?;
            let count = ids.len();
            let id = *ids.entry(name(after.rust.state())).or_insert(count);
            if id == count {
                waiting.push_back(after);
                graph.came.push((graph.next.len(), call));
            }
            row.push(id);
        }
        pair.end()?;
        graph.next.push(row);
    }
    Ok(graph)
}

/// Within so many states a walk looks for one from which a call is still to be made; otherwise it clears and starts anew.
const NEAR: usize = 100;

/// A walk through the states of a graph, and what was made on it so far.
struct Walk<'a> {
    graph: &'a Graph,
    /// For every state, how many of its calls were made.
    made: Vec<usize>,
    pair: Pair,
    at: usize,
    done: Vec<Operation>,
}

impl Walk<'_> {
    fn open(&self, state: usize) -> bool {
        self.made[state] < self.graph.next[state].len()
    }

    fn step(&mut self, call: usize) -> Result<(), String> {
        let operation = calls(self.pair.rust.state(), self.done.len() as u32)[call];
        self.done.push(operation);
        self.at = self.graph.next[self.at][call];
        self.pair.call(operation).map(|_| ())
    }

    fn clear(&mut self) -> Result<(), String> {
        self.done.push(Operation::Clear);
        self.at = 0;
        self.pair.call(Operation::Clear).map(|_| ())
    }

    /// The numbers of the calls that lead to an open state nearby.
    fn way(&self) -> Option<Vec<usize>> {
        let mut waiting = VecDeque::from([(self.at, vec![])]);
        let mut seen = HashSet::from([self.at]);
        while let Some((at, path)) = waiting.pop_front() {
            if self.open(at) {
                return Some(path);
            }
            for (call, &to) in self.graph.next[at].iter().enumerate() {
                if seen.len() < NEAR && seen.insert(to) {
                    let mut longer = path.clone();
                    longer.push(call);
                    waiting.push_back((to, longer));
                }
            }
        }
        None
    }
}

/// Walks from a fresh cache of at most about `longest` calls each that together make every call from every state.
pub fn tours(side: Side, c: usize, longest: usize) -> Result<Vec<Vec<Operation>>, String> {
    let graph = explore(side, c)?;
    let mut walk = Walk { graph: &graph, made: vec![0; graph.next.len()], pair: Pair::new(side, c), at: 0, done: vec![] };
    let mut found = vec![];
    while let Some(open) = (0..graph.next.len()).find(|&state| walk.open(state)) {
        let there = match walk.way() {
            Some(there) => there,
            None => {
                walk.clear()?;
                graph.from_fresh(open)
            }
        };
        for call in there {
            walk.step(call)?;
        }
        walk.made[walk.at] += 1;
        walk.step(walk.made[walk.at] - 1)?;
        if walk.done.len() >= longest {
            found.push(std::mem::take(&mut walk.done));
            walk.pair = Pair::new(side, c);
            walk.at = 0;
        }
    }
    found.push(walk.done);
    Ok(found)
}
