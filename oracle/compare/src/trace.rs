//! RULES 8: the reading and the writing of operations.

#[derive(Clone, Copy, Debug, PartialEq, Eq)]
pub enum Operation {
    Get(u64),
    Insert(u64, u32),
    Remove(u64),
    Clear,
    Peek(u64),
}

/// What stands at a place of a trace.
pub enum Next {
    End,
    Operation(Operation, usize),
    /// Refusal 4 or 5.
    Refused(u8),
}

/// A number of at most `most` bytes, the last possible one being at most `limit`, and the place after it.
fn number(bytes: &[u8], at: usize, most: usize, limit: u8) -> Option<(u64, usize)> {
    let mut value = 0;
    for i in 0..most {
        let byte = *bytes.get(at + i)?;
        if i + 1 == most && byte > limit {
            return None;
        }
        value |= u64::from(byte & 127) << (7 * i);
        if byte < 128 {
            let shortest = byte != 0 || i == 0;
            return if shortest { Some((value, at + i + 1)) } else { None };
        }
    }
    None
}

/// A page: at most ten bytes, the tenth being 1.
pub fn page(bytes: &[u8], at: usize) -> Option<(u64, usize)> {
    number(bytes, at, 10, 1)
}

/// A frame: at most five bytes, the fifth at most 15.
pub fn frame(bytes: &[u8], at: usize) -> Option<(u32, usize)> {
    number(bytes, at, 5, 15).map(|(value, after)| (value as u32, after))
}

fn operation(code: u8, bytes: &[u8], at: usize) -> Option<(Operation, usize)> {
    if code == 4 {
        return Some((Operation::Clear, at));
    }
    let (x, at) = page(bytes, at)?;
    Some(match code {
        1 => (Operation::Get(x), at),
        2 => {
            let (f, at) = frame(bytes, at)?;
            (Operation::Insert(x, f), at)
        }
        3 => (Operation::Remove(x), at),
        _ => (Operation::Peek(x), at),
    })
}

pub fn next(bytes: &[u8], at: usize) -> Next {
    let Some(&code) = bytes.get(at) else {
        return Next::End;
    };
    if !(1..=5).contains(&code) {
        return Next::Refused(4);
    }
    match operation(code, bytes, at + 1) {
        Some((operation, after)) => Next::Operation(operation, after),
        None => Next::Refused(5),
    }
}

/// Appends a number in its shortest form.
pub fn write_number(out: &mut Vec<u8>, mut value: u64) {
    while value >= 128 {
        out.push(value as u8 | 128);
        value >>= 7;
    }
    out.push(value as u8);
}

pub fn write(out: &mut Vec<u8>, operation: Operation) {
    let (code, page) = match operation {
        Operation::Get(x) => (1, Some(x)),
        Operation::Insert(x, _) => (2, Some(x)),
        Operation::Remove(x) => (3, Some(x)),
        Operation::Clear => (4, None),
        Operation::Peek(x) => (5, Some(x)),
    };
    out.push(code);
    if let Some(x) = page {
        write_number(out, x);
    }
    if let Operation::Insert(_, f) = operation {
        write_number(out, u64::from(f));
    }
}
