//! ARC and CAR by plain lists, from docs/RULES.md alone. Names and order are those of docs/RULES.md; nothing here knows the Rust.
use crate::calls::{Answer, Cache, Called, Counts, Victim, ARC, CAR};
use crate::state::{Resident, State};
use crate::trace::Operation;

/// How far a ghost hit moves the target.
#[derive(Clone, Copy, PartialEq, Eq)]
pub enum Step {
    /// RULES 5.11: always 1.
    One,
    /// The excerpt of CAR: the other ghost list's length by the hit one's, rounded down, at least 1.
    Quotient,
}

#[derive(Clone)]
pub struct Model {
    state: State,
    step: Step,
}

/// Where a page of no resident is.
#[derive(Clone, Copy, PartialEq, Eq)]
enum Place {
    B1,
    B2,
    Neither,
}

impl Model {
    pub fn new(kind: u8, c: usize, step: Step) -> Model {
        let (t1, t2, b1, b2) = (vec![], vec![], vec![], vec![]);
        let free = if kind == CAR { (0..c).collect() } else { vec![] };
        Model { state: State { kind, c, target: c / 2, t1, t2, b1, b2, free }, step }
    }

    fn car(&self) -> bool {
        self.state.kind == CAR
    }

    fn full(&self) -> bool {
        self.state.t1.len() + self.state.t2.len() >= self.state.c
    }

    fn resident(&mut self, page: u64) -> Option<&mut Resident> {
        self.state.t1.iter_mut().chain(&mut self.state.t2).find(|r| r.page == page)
    }

    fn take(&mut self, page: u64) -> Resident {
        let lists = [&mut self.state.t1, &mut self.state.t2];
        for list in lists {
            if let Some(at) = list.iter().position(|r| r.page == page) {
                return list.remove(at);
            }
        }
        unreachable!()
    }

    /// A hit of either kind: ARC's page goes to the front of T2, CAR's bit is set.
    fn touch(&mut self, page: u64) {
        if self.car() {
            self.resident(page).unwrap().bit = true;
        } else {
            let r = self.take(page);
            self.state.t2.insert(0, r);
        }
    }

    fn get(&mut self, page: u64) -> Answer {
        match self.state.resident(page) {
            Some(&Resident { frame, .. }) => {
                self.touch(page);
                Answer::Hit(frame)
            }
            None => Answer::Miss,
        }
    }

    fn place(&self, page: u64) -> Place {
        if self.state.b1.contains(&page) {
            Place::B1
        } else if self.state.b2.contains(&page) {
            Place::B2
        } else {
            Place::Neither
        }
    }

    /// The target's move on a ghost hit; the page is still in its ghost list.
    fn adapt(&mut self, place: Place) {
        let (b1, b2) = (self.state.b1.len(), self.state.b2.len());
        let (hit, other) = if place == Place::B1 { (b1, b2) } else { (b2, b1) };
        let step = match self.step {
            Step::One => 1,
            Step::Quotient => (other / hit).max(1),
        };
        self.state.target = if place == Place::B1 { (self.state.target + step).min(self.state.c) } else { self.state.target.saturating_sub(step) };
    }

    fn insert(&mut self, page: u64, frame: u32) -> Called {
        if self.state.c == 0 {
            return Called { answer: Answer::Nothing, steps: 0 };
        }
        if let Some(r) = self.resident(page) {
            let old = std::mem::replace(&mut r.frame, frame);
            self.touch(page);
            return Called { answer: Answer::Old(old), steps: 0 };
        }
        let place = self.place(page);
        match place {
            Place::B1 => {
                self.adapt(place);
                self.state.b1.retain(|&x| x != page);
            }
            Place::B2 => {
                self.adapt(place);
                self.state.b2.retain(|&x| x != page);
            }
            Place::Neither if !self.car() => self.trim(),
            Place::Neither => {}
        }
        let (victim, steps) = if self.full() { self.replace(place == Place::B2) } else { (None, 0) };
        self.enter(page, frame, place != Place::Neither);
        Called { answer: Answer::New(victim), steps }
    }

    /// ARC, a page in neither ghost list: if T1+B1 >= c, drop B1's oldest if any; otherwise, if all four lists total >= 2c, drop B2's oldest.
    fn trim(&mut self) {
        let State { c, t1, t2, b1, b2, .. } = &mut self.state;
        if t1.len() + b1.len() >= *c {
            b1.pop();
        } else if t1.len() + t2.len() + b1.len() + b2.len() >= 2 * *c {
            b2.pop();
        }
    }

    fn enter(&mut self, page: u64, frame: u32, ghost_hit: bool) {
        let car = self.car();
        let slot = if car { self.state.free.remove(0) } else { 0 };
        let list = if ghost_hit { &mut self.state.t2 } else { &mut self.state.t1 };
        let at = if car { list.len() } else { 0 };
        list.insert(at, Resident { page, frame, slot, bit: false });
    }

    /// From T1 if T1 is not empty and (T1 > target, or T1 = target on a B2 hit); otherwise from T2 if not empty; otherwise from T1.
    fn from_t1(&self, b2_hit: bool) -> bool {
        let (t1, target) = (self.state.t1.len(), self.state.target);
        (t1 > 0 && (t1 > target || (t1 == target && b2_hit))) || self.state.t2.is_empty()
    }

    fn replace(&mut self, b2_hit: bool) -> (Option<Victim>, u64) {
        let mut steps = 0;
        loop {
            steps += 1;
            let in_b1 = self.from_t1(b2_hit);
            let car = self.car();
            let list = if in_b1 { &mut self.state.t1 } else { &mut self.state.t2 };
            let mut r = if car { list.remove(0) } else { list.pop().unwrap() };
            if r.bit {
                r.bit = false;
                self.state.t2.push(r);
                continue;
            }
            self.record(r.page, in_b1);
            self.release(r.slot);
            return (Some(Victim { page: r.page, frame: r.frame, in_b1 }), steps);
        }
    }

    /// Puts a page at the front of its ghost list, which keeps its c newest.
    fn record(&mut self, page: u64, in_b1: bool) {
        let ghosts = if in_b1 { &mut self.state.b1 } else { &mut self.state.b2 };
        ghosts.insert(0, page);
        ghosts.truncate(self.state.c);
    }

    /// A freed slot goes on top of the free stack; ARC has none.
    fn release(&mut self, slot: usize) {
        if self.car() {
            self.state.free.insert(0, slot);
        }
    }

    fn remove(&mut self, page: u64) -> Answer {
        if self.resident(page).is_none() {
            return Answer::Absent;
        }
        let r = self.take(page);
        self.release(r.slot);
        Answer::Gone(r.frame)
    }

    fn peek(&self, page: u64) -> Answer {
        self.state.resident(page).map_or(Answer::No, |r| Answer::See(r.frame))
    }
}

impl Cache for Model {
    fn call(&mut self, operation: Operation) -> Called {
        let answer = match operation {
            Operation::Insert(page, frame) => return self.insert(page, frame),
            Operation::Get(page) => self.get(page),
            Operation::Remove(page) => self.remove(page),
            Operation::Peek(page) => self.peek(page),
            Operation::Clear => {
                *self = Model::new(self.state.kind, self.state.c, self.step);
                Answer::Clear
            }
        };
        Called { answer, steps: 0 }
    }

    fn state(&self) -> &State {
        &self.state
    }

    /// ARC: T1 newest to oldest, then T2 the same way; CAR: by rising slot.
    fn listing(&self) -> Vec<(u64, u32)> {
        let mut residents: Vec<Resident> = self.state.residents().copied().collect();
        if self.state.kind != ARC {
            residents.sort_by_key(|r| r.slot);
        }
        residents.iter().map(|r| (r.page, r.frame)).collect()
    }

    fn own_counts(&self) -> Option<Counts> {
        None
    }
}
