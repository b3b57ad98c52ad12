//! pace KIND CAPACITY REPEATS [reading]: the speed of the excerpts on a trace, operations only, from standard input. KIND is 1 ARC, 2 CAR, or 3 CAR with the
//! step set to 1. Each repeat runs the trace on a fresh cache. The counts of the last go to standard output, `gets hits updates news evictions`, the nanoseconds
//! an operation of each repeat to standard error. Operations are read into memory before, and only the calls are timed; with `reading` they are read from the
//! trace's bytes while it runs, as the proved batch must.
use cachekit::policy::{arc::ArcCore, car::CarCore, car_step_1};
use cachekit::traits::Cache;
use std::hint::black_box;
use std::io::Read;
use std::process::exit;
use std::time::Instant;

#[derive(Clone, Copy)]
enum Operation {
    Get(u64),
    Insert(u64, u32),
    Remove(u64),
    Clear,
    Peek(u64),
}

/// A number in groups of seven bits and the place after it. Its form is not checked: the traces that are measured are well formed.
#[inline(always)]
fn number(trace: &[u8], mut at: usize) -> Option<(u64, usize)> {
    let mut byte = *trace.get(at)?;
    at += 1;
    let mut value = u64::from(byte & 127);
    let mut shift = 7;
    while byte >= 128 {
        byte = *trace.get(at)?;
        at += 1;
        if shift > 63 {
            return None;
        }
        value |= u64::from(byte & 127) << shift;
        shift += 7;
    }
    Some((value, at))
}

/// The operation at a place and the place after it; none at the end, or where the bytes are no operation.
#[inline(always)]
fn next(trace: &[u8], at: usize) -> Option<(Operation, usize)> {
    let &code = trace.get(at)?;
    if code == 4 {
        return Some((Operation::Clear, at + 1));
    }
    let (page, at) = number(trace, at + 1)?;
    match code {
        1 => Some((Operation::Get(page), at)),
        2 => {
            let (frame, at) = number(trace, at)?;
            Some((Operation::Insert(page, frame as u32), at))
        }
        3 => Some((Operation::Remove(page), at)),
        5 => Some((Operation::Peek(page), at)),
        _ => None,
    }
}

#[derive(Default)]
struct Counts {
    gets: u64,
    hits: u64,
    updates: u64,
    news: u64,
    evictions: u64,
}

/// One operation. An insert of a new page that leaves the length as it was has put a page out.
#[inline(always)]
fn call<C: Cache<u64, u32>>(cache: &mut C, counts: &mut Counts, operation: Operation) {
    match operation {
        Operation::Get(page) => {
            counts.gets += 1;
            counts.hits += u64::from(black_box(cache.get(&page)).is_some());
        }
        Operation::Insert(page, frame) => {
            let before = cache.len();
            if black_box(cache.insert(page, frame)).is_some() {
                counts.updates += 1;
            } else if cache.capacity() > 0 {
                counts.news += 1;
                counts.evictions += u64::from(cache.len() == before);
            }
        }
        Operation::Remove(page) => {
            black_box(cache.remove(&page));
        }
        Operation::Clear => cache.clear(),
        Operation::Peek(page) => {
            black_box(cache.peek(&page));
        }
    }
}

#[inline(never)]
fn run_read<C: Cache<u64, u32>>(cache: &mut C, operations: &[Operation]) -> Counts {
    let mut counts = Counts::default();
    for &operation in operations {
        call(cache, &mut counts, operation);
    }
    counts
}

#[inline(never)]
fn run_reading<C: Cache<u64, u32>>(cache: &mut C, trace: &[u8]) -> Counts {
    let mut counts = Counts::default();
    let mut at = 0;
    while let Some((operation, after)) = next(trace, at) {
        call(cache, &mut counts, operation);
        at = after;
    }
    counts
}

/// A trace in both forms, and how it is to be run.
struct Job {
    trace: Vec<u8>,
    operations: Vec<Operation>,
    reading: bool,
    repeats: u64,
}

fn timed<C: Cache<u64, u32>>(job: &Job, new: impl Fn() -> C) -> Counts {
    let mut last = Counts::default();
    for _ in 0..job.repeats {
        let mut cache = new();
        let began = Instant::now();
        last = if job.reading { run_reading(&mut cache, &job.trace) } else { run_read(&mut cache, &job.operations) };
        eprintln!("{:.2}", began.elapsed().as_nanos() as f64 / job.operations.len().max(1) as f64);
    }
    last
}

fn main() {
    let words: Vec<String> = std::env::args().skip(1).collect();
    let number_at = |i: usize| words.get(i).and_then(|word| word.parse::<u64>().ok());
    let (Some(kind @ 1..=3), Some(capacity), Some(repeats)) = (number_at(0), number_at(1), number_at(2)) else {
        eprintln!("usage: pace KIND CAPACITY REPEATS [reading] <TRACE, KIND being 1 ARC, 2 CAR, 3 CAR with the step set to 1");
        exit(2);
    };
    let mut trace = vec![];
    std::io::stdin().lock().read_to_end(&mut trace).expect("standard input");
    let mut operations = vec![];
    let mut at = 0;
    while let Some((operation, after)) = next(&trace, at) {
        operations.push(operation);
        at = after;
    }
    if at != trace.len() {
        eprintln!("pace: no operation at byte {at}");
        exit(1);
    }
    let job = Job { trace, operations, reading: words.get(3).map(String::as_str) == Some("reading"), repeats };
    let capacity = capacity as usize;
    let counts = match kind {
        1 => timed(&job, || ArcCore::new(capacity)),
        2 => timed(&job, || CarCore::new(capacity)),
        _ => timed(&job, || car_step_1::CarCore::new(capacity)),
    };
    println!("{} {} {} {} {}", counts.gets, counts.hits, counts.updates, counts.news, counts.evictions);
}
