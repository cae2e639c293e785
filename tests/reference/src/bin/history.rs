//! Prints one input, so that a failed comparison can be made again: `history random|damaged SEED INDEX`.

use reference::histories;
use std::io::{self, Write};
use std::process::exit;

fn main() -> io::Result<()> {
    let words: Vec<String> = std::env::args().skip(1).collect();
    let [kind, seed, index] = words.as_slice() else { usage() };
    let (Ok(seed), Ok(index)) = (seed.parse(), index.parse()) else { usage() };
    let input = match kind.as_str() {
        "random" => histories::random(seed, index),
        "damaged" => histories::damaged(seed, index),
        _ => usage(),
    };
    io::stdout().lock().write_all(&input)
}

fn usage() -> ! {
    eprintln!("history random|damaged SEED INDEX");
    exit(2)
}
