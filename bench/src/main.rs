//! `bench product|tight|reference INPUT ROUNDS` runs the input so many times and prints the nanoseconds of the fastest round.
//!
//! `product` is `plot_hub_run` with room for any output of so many lines, so that it goes over the lines once; `tight` the same with a
//! buffer of just the length, where it has to measure first; `reference` is the plain Rust program on the `product` buffer. The
//! buffers are not cleared between rounds.

use std::hint::black_box;
use std::time::Instant;

extern "C" {
    fn plot_hub_run(input: *const u8, input_length: usize, output: *mut u8, output_length: usize) -> i64;
}

/// The product's call.
fn product(input: &[u8], out: &mut [u8]) -> i64 {
    // SAFETY: the two ranges are those of two slices, one of them exclusive.
    unsafe { plot_hub_run(input.as_ptr(), input.len(), out.as_mut_ptr(), out.len()) }
}

/// The reference's, under a name that callgrind can be told.
#[no_mangle]
#[inline(never)]
fn reference_run(input: &[u8], out: &mut [u8]) -> i64 {
    reference::run_into(input, out)
}

fn main() {
    let words: Vec<String> = std::env::args().skip(1).collect();
    let [who, path, rounds] = words.as_slice() else { panic!("bench product|tight|reference INPUT ROUNDS") };
    let input = std::fs::read(path).expect("the input");
    let rounds: u32 = rounds.parse().expect("a number of rounds");
    let lines = input.iter().filter(|byte| **byte == 10).count();
    let room = if who == "tight" { reference::run(&input).len() } else { 800 * (lines + 4) };
    let mut out = vec![0; room];
    if who != "reference" {
        let result = product(&input, &mut out);
        assert!(out[..usize::try_from(result).expect("room")] == reference::run(&input), "another text than the reference's");
    }
    let mut fastest = u128::MAX;
    for _ in 0..rounds {
        let start = Instant::now();
        let result = if who == "reference" { reference_run(black_box(&input), &mut out) } else { product(black_box(&input), &mut out) };
        fastest = fastest.min(start.elapsed().as_nanos());
        assert!(result > 0, "{who}: {result}");
    }
    println!("{fastest}");
}
