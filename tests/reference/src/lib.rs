//! The plot hub and its line program once more, in plain Rust, written from document 01 and, where a request changed them, document 02
//! alone.
//!
//! The product is compared with it, byte for byte, and timed against it. It shares no code with the product.

#![forbid(unsafe_code)]

pub mod examples;
pub mod histories;
pub mod hub;
pub mod line;

/// What `run_into` returns when the buffer is too short: the table's number, negated.
pub const TOO_SHORT: i64 = -21;

/// The whole line program: all lines of the input, then the device lines.
pub fn run(input: &[u8]) -> Vec<u8> {
    let mut out = Vec::with_capacity(input.len() + input.len() / 2);
    let mut program = line::Program::new();
    program.lines(input, &mut out);
    program.end(&mut out);
    out
}

/// The same into a lent buffer. The result is the length written; bytes behind it are not touched. -21 if the buffer is
/// too short, and then none of it is touched.
pub fn run_into(input: &[u8], out: &mut [u8]) -> i64 {
    let text = run(input);
    match out.get_mut(..text.len()) {
        Some(place) => {
            place.copy_from_slice(&text);
            text.len() as i64
        }
        None => TOO_SHORT,
    }
}
