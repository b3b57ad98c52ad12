//! A whole state, as numbers in one order: kind, c, target, the lengths of T1, T2, B1 and B2, then their entries in that order, ARC's lists and all ghosts
//! newest first, CAR's clocks from the hand on. A resident is its page and frame, for CAR also its slot and reference bit; a ghost is its page. CAR ends with
//! the free slots in the order they will be taken.

#[derive(Clone, Copy, Debug, PartialEq, Eq)]
pub struct Resident {
    pub page: u64,
    pub frame: u32,
    /// CAR's; 0 for ARC.
    pub slot: usize,
    /// CAR's reference bit; clear for ARC.
    pub bit: bool,
}

#[derive(Clone, Debug, PartialEq, Eq)]
pub struct State {
    pub kind: u8,
    pub c: usize,
    pub target: usize,
    pub t1: Vec<Resident>,
    pub t2: Vec<Resident>,
    pub b1: Vec<u64>,
    pub b2: Vec<u64>,
    /// CAR's; empty for ARC.
    pub free: Vec<usize>,
}

impl State {
    pub fn residents(&self) -> impl Iterator<Item = &Resident> {
        self.t1.iter().chain(&self.t2)
    }

    pub fn resident(&self, page: u64) -> Option<&Resident> {
        self.residents().find(|r| r.page == page)
    }

    /// Hands the numbers of the state on, in order: pages to one function, all others, which are below 2^32, to another.
    fn each<T>(&self, to: &mut T, page: fn(&mut T, u64), small: fn(&mut T, u64)) {
        let car = self.kind == crate::calls::CAR;
        let lengths = [self.t1.len(), self.t2.len(), self.b1.len(), self.b2.len()];
        for n in [self.kind as usize, self.c, self.target].into_iter().chain(lengths) {
            small(to, n as u64);
        }
        for r in self.residents() {
            page(to, r.page);
            small(to, u64::from(r.frame));
            if car {
                small(to, r.slot as u64);
                small(to, u64::from(r.bit));
            }
        }
        for &x in self.b1.iter().chain(&self.b2) {
            page(to, x);
        }
        for &slot in &self.free {
            small(to, slot as u64);
        }
    }

    /// `state`, the steps of the call before, then the state's numbers, each after a space.
    pub fn text(&self, steps: u64) -> String {
        fn put(out: &mut String, n: u64) {
            out.push(' ');
            out.push_str(&n.to_string());
        }
        let mut out = String::from("state");
        put(&mut out, steps);
        self.each(&mut out, put, put);
        out
    }

    /// The digest of the same numbers.
    pub fn digest(&self, steps: u64) -> u64 {
        let mut h = mixed(0, steps);
        self.each(&mut h, |h, x| *h = mixed(mixed(*h, x % HALF), x / HALF), |h, n| *h = mixed(*h, n));
        h
    }
}

const HALF: u64 = 1 << 32;

/// FACTOR * 2^32 - 1 is prime, and `mixed` is h * FACTOR + n modulo that prime, reached by sums and products that stay below 2^64.
const FACTOR: u64 = 4_294_957_665;

/// A digest with one more number, below 2^32.
fn mixed(h: u64, n: u64) -> u64 {
    h % HALF * FACTOR + h / HALF + n
}
