//! What the test program `states` writes on its standard input (oracle/README.md), by the excerpts, each call compared with the list model.
use compare::agree::states;
use compare::program::Case;
use std::io::{Read, Write};

fn main() {
    let mut bytes = vec![];
    std::io::stdin().lock().read_to_end(&mut bytes).expect("standard input");
    let mut out = std::io::BufWriter::new(std::io::stdout().lock());
    let mut at = 0;
    while let Some((case, after)) = Case::read(&bytes, at) {
        match states(&case) {
            Ok((text, _)) => out.write_all(text.as_bytes()).expect("standard output"),
            Err(said) => {
                eprintln!("states: the case at byte {at}: {said}");
                std::process::exit(1);
            }
        }
        at = after;
    }
}
