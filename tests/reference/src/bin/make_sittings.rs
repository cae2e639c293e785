//! Writes inputs and what they must print: `make_sittings SEED COUNT EXAMPLES INPUTS OUTPUTS`.
//!
//! INPUTS has a record for each input: its length in two bytes, low first, and then so many bytes. First come the examples of
//! the file EXAMPLES that are lines of the line program, with the output that stands there, which must be this
//! implementation's too. Then COUNT more: even ones are `histories::random(SEED, i)`, odd ones `histories::damaged(SEED, i)`,
//! i counting from 0. OUTPUTS has, record by record, the output and then a line `end`.

use reference::{examples, histories, run};
use std::fs;
use std::process::exit;

/// The vector programs have so much room for their records.
const ROOM: usize = 2_097_152;

fn main() {
    let words: Vec<String> = std::env::args().skip(1).collect();
    let [seed, count, examples_path, inputs_path, outputs_path] = words.as_slice() else { usage() };
    let (Ok(seed), Ok(count)) = (seed.parse::<u64>(), count.parse::<u64>()) else { usage() };

    let mut sittings = Vec::new();
    for (input, output) in examples::read(examples_path) {
        if run(&input) != output {
            stop(&format!("another output than {examples_path} has:\n{}", String::from_utf8_lossy(&input)));
        }
        sittings.push(input);
    }
    let example_count = sittings.len();
    sittings.extend((0..count).map(|index| if index % 2 == 0 { histories::random(seed, index) } else { histories::damaged(seed, index) }));
    let (mut inputs, mut outputs) = (Vec::new(), Vec::new());
    for (index, input) in sittings.iter().enumerate() {
        let Ok(length) = u16::try_from(input.len()) else { stop(&format!("input {index} is too long for a record")) };
        inputs.extend_from_slice(&length.to_le_bytes());
        inputs.extend_from_slice(input);
        outputs.extend_from_slice(&run(input));
        outputs.extend_from_slice(b"end\n");
    }
    if inputs.len() > ROOM {
        stop(&format!("{} bytes of records, more than {ROOM}", inputs.len()));
    }
    for (path, content) in [(inputs_path, &inputs), (outputs_path, &outputs)] {
        if let Err(error) = fs::write(path, content) {
            stop(&format!("{path}: {error}"));
        }
    }
    println!("{example_count} examples, {count} inputs, seed {seed}: {} bytes in, {} out", inputs.len(), outputs.len());
}

fn usage() -> ! {
    eprintln!("make_sittings SEED COUNT EXAMPLES INPUTS OUTPUTS");
    exit(2)
}

fn stop(why: &str) -> ! {
    eprintln!("{why}");
    exit(1)
}
