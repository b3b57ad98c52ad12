//! everywhere ARC CAR: every call from every state that calls reach from a fresh cache, up to the names of pages and the frames, at all capacities up to ARC and
//! CAR: the excerpts against the list model, CAR also as published against the model with its step.
use compare::rust::Side;
use compare::tour::explore;

fn main() {
    let most: Vec<usize> = std::env::args().skip(1).map(|word| word.parse().expect("usage: everywhere ARC CAR")).collect();
    let [arc, car] = most[..] else {
        panic!("usage: everywhere ARC CAR");
    };
    for (side, what, most) in [(Side::Arc, "ARC", arc), (Side::CarStep1, "CAR with the step 1", car), (Side::CarExcerpt, "CAR as published", car)] {
        for c in 0..=most {
            match explore(side, c) {
                Ok(graph) => println!("everywhere: {what}, capacity {c}: {} states, {} calls from them: the same as the list model", graph.next.len(), graph.calls()),
                Err(said) => {
                    println!("everywhere: {what}, capacity {c}: {said}");
                    std::process::exit(1);
                }
            }
        }
    }
}
