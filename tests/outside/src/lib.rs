//! What the test programs share.

use std::collections::HashMap;
use std::sync::atomic::{AtomicU64, Ordering};
use std::sync::Mutex;
use std::thread;
use std::time::{Duration, Instant};

/// Random numbers that are the same for the same seed, on every machine.
pub struct Random(u64);

impl Random {
    /// The row of numbers that belongs to this seed and index.
    pub fn new(seed: u64, index: u64) -> Random {
        let mut start = Random(seed ^ 0x706c_6f74_2068_7562);
        let mixed = start.next().wrapping_add(index.wrapping_mul(0x9e6c_63d0_876a_68ee));
        Random(Random(mixed).next())
    }

    pub fn next(&mut self) -> u64 {
        self.0 = self.0.wrapping_add(0x9e37_79b9_7f4a_7c15);
        let mut z = self.0;
        z = (z ^ (z >> 30)).wrapping_mul(0xbf58_476d_1ce4_e5b9);
        z = (z ^ (z >> 27)).wrapping_mul(0x94d0_49bb_1331_11eb);
        z ^ (z >> 31)
    }

    /// From 0 to one below the bound.
    pub fn below(&mut self, bound: usize) -> usize {
        (self.next() % bound as u64) as usize
    }

    pub fn between(&mut self, least: i64, most: i64) -> i64 {
        least + (self.next() % (most - least + 1) as u64) as i64
    }

    /// True in so many of a hundred cases.
    pub fn chance(&mut self, percent: usize) -> bool {
        self.below(100) < percent
    }

    pub fn pick<'a, T>(&mut self, from: &'a [T]) -> &'a T {
        &from[self.below(from.len())]
    }
}

/// Bytes as a person can read them, line by line.
pub fn readable(bytes: &[u8]) -> String {
    bytes.split_inclusive(|&b| b == 10).map(|line| format!("    {}\n", line.escape_ascii())).collect()
}

/// An environment variable, or else this.
pub fn setting(name: &str, otherwise: &str) -> String {
    std::env::var(name).unwrap_or_else(|_| otherwise.to_string())
}

/// The command that calls this test program again, with the variables that it was called with.
pub fn again(variables: &[&str], words: &str) -> String {
    let mut command = String::new();
    for name in variables {
        if let Ok(value) = std::env::var(name) {
            command += &format!("{name}='{value}' ");
        }
    }
    command + &std::env::args().next().unwrap_or_default() + " " + words
}

/// A number given on the command line.
pub fn number(word: Option<&String>, what: &str) -> u64 {
    match word.map(|word| word.parse()) {
        Some(Ok(number)) => number,
        _ => {
            eprintln!("{what} must be a number");
            std::process::exit(2)
        }
    }
}

/// Something that takes longer than this does not end. (The longest takes a second or two on a quiet machine.)
pub const LONGEST: Duration = Duration::from_secs(100);

/// Sees that nothing takes for ever: what each thread is at, and since when.
pub struct Watch {
    program: &'static str,
    variables: &'static [&'static str],
    longest: Duration,
    at: Mutex<HashMap<thread::ThreadId, (Instant, String)>>,
}

impl Watch {
    pub fn start(program: &'static str, variables: &'static [&'static str], longest: Duration) -> &'static Watch {
        let watch: &'static Watch = Box::leak(Box::new(Watch { program, variables, longest, at: Mutex::default() }));
        thread::spawn(move || loop {
            thread::sleep(Duration::from_secs(1));
            watch.look();
        });
        watch
    }

    /// This thread now begins with this; the words show it again when put behind `one`.
    pub fn begin(&self, words: String) {
        self.at.lock().unwrap().insert(thread::current().id(), (Instant::now(), words));
    }

    pub fn end(&self) {
        self.at.lock().unwrap().remove(&thread::current().id());
    }

    fn look(&self) {
        for (begun, words) in self.at.lock().unwrap().values() {
            if begun.elapsed() > self.longest {
                println!("{}: FAILED: {words} did not end within {:?}", self.program, self.longest);
                println!("{}: to see it: {}", self.program, again(self.variables, &format!("one {words}")));
                std::process::exit(1);
            }
        }
    }
}

/// Runs histories 0 to one below the count, by seed and index, on every processor, and hands what each gives to `add`. One that
/// fails is shown, and how to see it again, and ends the program.
pub fn run_all<T: Send>(
    program: &'static str,
    count: u64,
    seed: u64,
    run: impl Fn(u64, u64) -> Result<T, (String, Vec<u8>)> + Sync,
    add: impl FnMut(T) + Send,
) {
    let watch = Watch::start(program, &[], LONGEST);
    let next = AtomicU64::new(0);
    let add = Mutex::new(add);
    thread::scope(|scope| {
        for _ in 0..thread::available_parallelism().map_or(2, |n| n.get()) {
            scope.spawn(|| loop {
                let index = next.fetch_add(1, Ordering::Relaxed);
                if index >= count {
                    return watch.end();
                }
                watch.begin(format!("{seed} {index}"));
                let result = run(seed, index);
                let mut add = add.lock().unwrap();
                match result {
                    Ok(given) => add(given),
                    Err((how, input)) => {
                        println!("{program}: FAILED: seed {seed}, index {index}: {how}\ninput:\n{}", String::from_utf8_lossy(&input));
                        println!("{program}: to see it: {}", again(&[], &format!("one {seed} {index}")));
                        std::process::exit(1);
                    }
                }
            });
        }
    });
}

/// The archive: `build.rs` links it in.
pub mod archive {
    extern "C" {
        fn plot_hub_run(input: *const u8, input_length: usize, output: *mut u8, output_length: usize) -> i64;
    }

    /// What the line program prints for this input.
    pub fn run(input: &[u8]) -> Result<Vec<u8>, String> {
        let mut output = vec![0; 4096];
        let length = run_in(input, &mut output)?;
        output.truncate(length);
        Ok(output)
    }

    /// The same, put into this buffer, which grows if it is too short; the length written.
    pub fn run_in(input: &[u8], output: &mut Vec<u8>) -> Result<usize, String> {
        loop {
            // SAFETY: both pointers are of ranges as long as said; the ranges are apart, since one of them is lent mutably.
            let result = unsafe { plot_hub_run(input.as_ptr(), input.len(), output.as_mut_ptr(), output.len()) };
            match usize::try_from(result) {
                Ok(length) if length <= output.len() => return Ok(length),
                Err(_) if result == -21 && output.len() < 1 << 24 => *output = vec![0; output.len() * 4],
                _ => return Err(format!("the call with a buffer of {} has the result {result}", output.len())),
            }
        }
    }
}

/// A setting sent back to a device.
pub type Back = (usize, i64);

/// An answer, as the line program prints it.
#[derive(Clone, Debug)]
pub enum Answer {
    Placed { id: u64, after: u64 },
    Send { id: u64, device: usize, setting: i64 },
    Wait { id: u64, on: u64 },
    Held { id: u64 },
    NotHeld { id: u64 },
    Skipped { id: u64, back: Vec<Back> },
    Committed { id: u64 },
    Aborted { id: u64, back: Vec<Back> },
    Done { id: u64 },
    Down { device: usize, after: u64 },
    Up { device: usize, after: u64 },
    Refused,
    Unread,
}

impl Answer {
    pub fn read(line: &str) -> Option<Answer> {
        let words: Vec<&str> = line.split(' ').collect();
        let id = |at: usize| words.get(at)?.parse::<u64>().ok();
        let device = |at: usize| words.get(at)?.parse::<usize>().ok();
        let setting = |at: usize| words.get(at)?.parse::<i64>().ok();
        let long = |count: usize| (words.len() == count).then_some(());
        // `back`, a count, then device and setting for each, up to the line's end.
        let back = |at: usize| {
            let count = device(at + 1)?;
            (words.len() == at + 2 + 2 * count && words[at] == "back").then_some(())?;
            (0..count).map(|i| Some((device(at + 2 + 2 * i)?, setting(at + 3 + 2 * i)?))).collect::<Option<Vec<Back>>>()
        };
        Some(match words[0] {
            "placed" if words.get(2) == Some(&"after") => long(4).and(Some(Answer::Placed { id: id(1)?, after: id(3)? }))?,
            "send" => long(4).and(Some(Answer::Send { id: id(1)?, device: device(2)?, setting: setting(3)? }))?,
            "wait" if words.get(2) == Some(&"on") => long(4).and(Some(Answer::Wait { id: id(1)?, on: id(3)? }))?,
            "held" => long(2).and(Some(Answer::Held { id: id(1)? }))?,
            "not" if words.get(1) == Some(&"held") => long(3).and(Some(Answer::NotHeld { id: id(2)? }))?,
            "skipped" if words.len() == 2 => Answer::Skipped { id: id(1)?, back: Vec::new() },
            "skipped" => Answer::Skipped { id: id(1)?, back: back(2)? },
            "committed" => long(2).and(Some(Answer::Committed { id: id(1)? }))?,
            "aborted" => Answer::Aborted { id: id(1)?, back: back(2)? },
            "done" => long(2).and(Some(Answer::Done { id: id(1)? }))?,
            "down" if words.get(2) == Some(&"after") => long(4).and(Some(Answer::Down { device: device(1)?, after: id(3)? }))?,
            "up" if words.get(2) == Some(&"after") => long(4).and(Some(Answer::Up { device: device(1)?, after: id(3)? }))?,
            "refused" => {
                id(1)?;
                (words.len() == 2 || (words.len() == 3 && id(2).is_some())).then_some(Answer::Refused)?
            }
            "unread" => long(1).and(Some(Answer::Unread))?,
            _ => return None,
        })
    }
}
