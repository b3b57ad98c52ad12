//! The program of RULES 9 by the excerpts, each call compared with the list model.
use compare::agree::replay;
use std::io::{Read, Write};

fn main() {
    let mut bytes = vec![];
    std::io::stdin().lock().read_to_end(&mut bytes).expect("standard input");
    match replay(&bytes) {
        Ok((text, _)) => std::io::stdout().write_all(text.as_bytes()).expect("standard output"),
        Err(said) => {
            eprintln!("replay: {said}");
            std::process::exit(1);
        }
    }
}
