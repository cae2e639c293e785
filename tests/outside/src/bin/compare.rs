//! Compares the bytes that the line program prints, by the C call and by the program, with those of the independent reference.
//!
//!     compare COUNT SEED              COUNT random histories and COUNT damaged inputs, long joined ones, examples, edges, cuts
//!     compare caller COUNT SEED       the same inputs, only by the C call
//!     compare one KIND SEED INDEX     one input in every way; shows it and what differs
//!
//! From the root. PLOT_HUB_CALLER and PLOT_HUB_PROGRAM name other programs than the built ones; the words of PLOT_HUB_UNDER
//! are put before the caller's name (valgrind with its options).

use outside::{again, number, readable, setting, Random, Watch, LONGEST};
use reference::examples;
use std::fmt;
use std::io::{Read, Write};
use std::process::{Child, ChildStdin, ChildStdout, Command, ExitCode, Stdio};
use std::sync::atomic::{AtomicU64, AtomicUsize, Ordering};
use std::sync::Mutex;
use std::thread;

const EXAMPLES: &str = "tests/hub/examples.txt";
/// So many inputs of each kind are generated, run and compared together.
const BATCH: u64 = 500;
/// So many inputs make a joined one, and one is made for every so many.
const JOINED: u64 = 120;
/// In one of so many inputs every buffer length is tried, if the output is not longer than SHORT.
const EVERY: u64 = 100;
const SHORT: usize = 1000;

// ---- inputs

#[derive(Clone, Copy, PartialEq, Debug)]
enum Kind {
    Random,
    Damaged,
    Joined,
    Example,
    Edge,
    Cut,
}

impl Kind {
    const ALL: [Kind; 6] = [Kind::Random, Kind::Damaged, Kind::Joined, Kind::Example, Kind::Edge, Kind::Cut];
}

impl fmt::Display for Kind {
    fn fmt(&self, f: &mut fmt::Formatter) -> fmt::Result {
        f.write_str(match self {
            Kind::Random => "random",
            Kind::Damaged => "damaged",
            Kind::Joined => "joined",
            Kind::Example => "example",
            Kind::Edge => "edge",
            Kind::Cut => "cut",
        })
    }
}

/// One input with what it must print.
struct Item {
    kind: Kind,
    seed: u64,
    index: u64,
    input: Vec<u8>,
    expected: Vec<u8>,
}

impl Item {
    /// None: there are not so many of the kind.
    fn new(kind: Kind, seed: u64, index: u64) -> Option<Item> {
        let mut stated = None;
        let input = match kind {
            Kind::Random => reference::histories::random(seed, index),
            Kind::Damaged => reference::histories::damaged(seed, index),
            Kind::Joined => joined(seed, index),
            Kind::Example => {
                let (input, output) = examples::read(EXAMPLES).into_iter().nth(index as usize)?;
                stated = Some(output);
                input
            }
            Kind::Edge => edges().into_iter().nth(index as usize)?,
            Kind::Cut => cut(index as usize)?,
        };
        let expected = reference::run(&input);
        // The examples state their output; the reference, too, must print it.
        if let Some(output) = stated {
            assert!(output == expected, "the reference prints other bytes for example {index}:\n{}", readable(&expected));
        }
        Some(Item { kind, seed, index, input, expected })
    }

    fn name(&self) -> String {
        format!("{} {} {}", self.kind, self.seed, self.index)
    }
}

/// Many inputs in one. In every second one, lines that lack their end run together with the next input.
fn joined(seed: u64, index: u64) -> Vec<u8> {
    let mut all = Vec::new();
    for i in index * JOINED..(index + 1) * JOINED {
        let part = if i % 2 == 0 { reference::histories::random(seed, i) } else { reference::histories::damaged(seed, i) };
        all.extend_from_slice(&part);
        if index % 2 == 0 && part.last() != Some(&10) {
            all.push(10);
        }
    }
    all
}

/// Inputs at the edges of the line format and of the ranges.
fn edges() -> Vec<Vec<u8>> {
    let mut all: Vec<Vec<u8>> = Vec::new();
    let mut add = |text: &str| {
        all.push(text.as_bytes().to_vec());
        all.push([text.as_bytes(), b"\n"].concat());
    };
    for text in ["", "\n", "\n\n", " ", "O", "O ", "O 1 0 1", "O 1 0 1 ", " O 1 0 1", "O  1 0 1", "O 1\t0 1", "O 1 0 1\r", "O 1 0 1\0"] {
        add(text);
    }
    // A line of 128 bytes is the longest; one that is longer is unread, whatever stands in it.
    for length in (0..=4).chain(120..=140).chain(250..=260).chain([511, 512, 513, 1023, 1024, 1025, 4095, 4096, 4097, 70_000]) {
        add(&format!("O 1 0 1\n{}", "x".repeat(length)));
        add(&format!("O 1 0 1\n{}\nC 7", "\u{0}".repeat(length)));
        if length > 3 {
            add(&format!("O 1 0 1\nS 0 0 5\nN {}1", "0".repeat(length - 3)));
            add(&format!("O 1 0 1\nS 0 0 {}7\nN 1\nD 1", "0".repeat(length.saturating_sub(7))));
        }
    }
    for rest in ["", " ", " 0", " 0 0", " 0 0 0", " 0 0 0 ", " 0 0 0 0", " 0 0 -0", " 0 0 --1", " 0 0 -", " 0 0 +1", " 0 -0 1"] {
        add(&format!("O 2 1 1\nS{rest}\nN 1\nD 1"));
    }
    // Tags up to 2 and above; conditions where they may stand and where not.
    for commands in ["0 2 0", "0 2 0 1 0 5", "0 2 1 1 0 5", "0 2 0 1 2 0", "0 02 0 1 1 5", "0 3 0 1 0 5", "0 2 0 1 3 5", "0 2 1001 1 0 5"] {
        add(&format!("O 2 1 1\nS {commands}\nN 1\nD 1\nN 1\nD 1\nF 0\nN 1"));
    }
    for (n, k, first) in [("0", "0", "1"), ("33", "9", "0"), ("32", "9", "0"), ("32", "8", "0"), ("32", "8", "4294967295")] {
        add(&format!("O {n} {k} {first}\nS 31 1 1000\nS 0 0 -1000\nN {first}\nD {first}"));
    }
    for word in ["255", "256", "-1", "99999999999999999999999", "0000000000000000000255", "4294967295", "4294967296", "00", "", "a", "1a"] {
        add(&format!("O {word} 0 1\nO 1 {word} 1\nO 1 1 {word}"));
        add(&format!("O 3 3 3\nN {word}\nD {word}\nB {word}\nC {word}\nF {word}\nR {word} 1\nS {word} 0 0\nS 0 {word} 0\nS 0 0 {word}"));
    }
    for setting in [-32769, -32768, -1001, -1000, -999, 999, 1000, 1001, 32767, 32768, 65536, 4294967296i64] {
        add(&format!("O 1 0 1\nS 0 0 {setting}\nN 1\nD 1\nF 0\nR 0 {setting}\nR 0 5"));
    }
    for device in [8, 9, 255, 256] {
        add(&format!("O 9 0 1\nS{}\nS{}", " 0 0 1".repeat(8), format!(" {device} 0 1").repeat(9)));
    }
    // A full sequence; the settled part, refusals 8 and 9; a second opening forgets the first.
    add(&format!("O 32 8 1\n{}N 1\nD 1\nN 1\nS 0 0 1\nS 0 0 1", "S 0 0 7\n".repeat(17)));
    add("O 1 0 4294967295\nS 0 0 1\nS 0 0 1\nN 4294967295\nD 4294967295\nO 0 0 0\nN 4294967295\nO 2 0 1\nN 4294967295");
    all
}

/// Long inputs for the program, which reads piece by piece. The same lines are repeated; in one input after the other they
/// are moved on by a byte, so that a piece of any length up to LONG ends at each of their bytes. Then inputs that end about
/// where a piece may.
fn cut(index: usize) -> Option<Vec<u8>> {
    const LONG: usize = 70_000;
    let lines = format!(
        "O 3 2 1\n\n\n\nS 0 0 50 1 0 20\nN 1\nD 1\nN {:0>126}\nD {:0>127}\n{}\nC 1\nF 0\nR 0 -15\n",
        1,
        1,
        "x".repeat(300)
    );
    let length = if index < lines.len() {
        LONG
    } else {
        let (power, more) = ((index - lines.len()) / 5, (index - lines.len()) % 5);
        (64 << power) - 2 + more
    };
    if length > 2 * LONG {
        return None;
    }
    let start = if index < lines.len() { index } else { 0 };
    let mut input = vec![10; start];
    while input.len() < length {
        input.extend_from_slice(lines.as_bytes());
    }
    input.truncate(length);
    Some(input)
}

// ---- the program

/// How its input is written to the pipe.
#[derive(Clone, Copy)]
enum Feed {
    Whole,
    /// In writes of so many bytes.
    Pieces(usize),
    /// In writes of 1 to 300 bytes, at random.
    Odd(u64),
}

impl fmt::Display for Feed {
    fn fmt(&self, f: &mut fmt::Formatter) -> fmt::Result {
        match self {
            Feed::Whole => f.write_str("all in one write"),
            Feed::Pieces(length) => write!(f, "in writes of {length}"),
            Feed::Odd(_) => f.write_str("in odd writes"),
        }
    }
}

fn write_in_pieces(to: &mut ChildStdin, input: &[u8], feed: Feed) -> std::io::Result<()> {
    let mut rest = input;
    let mut random = Random::new(if let Feed::Odd(seed) = feed { seed } else { 0 }, 0);
    while !rest.is_empty() {
        let length = match feed {
            Feed::Whole => rest.len(),
            Feed::Pieces(length) => length,
            Feed::Odd(_) => 1 + random.below(300),
        };
        let (piece, behind) = rest.split_at(length.min(rest.len()));
        to.write_all(piece)?;
        rest = behind;
    }
    Ok(())
}

fn program() -> String {
    setting("PLOT_HUB_PROGRAM", "target/bin/run_plot_hub")
}

/// What the program prints for this input. Err: it ended otherwise than it should.
fn run_program(input: &[u8], feed: Feed) -> Result<Vec<u8>, String> {
    let mut child = Command::new(program())
        .stdin(Stdio::piped())
        .stdout(Stdio::piped())
        .spawn()
        .map_err(|problem| format!("{} cannot be started: {problem}", program()))?;
    let mut to = child.stdin.take().unwrap();
    let mut from = child.stdout.take().unwrap();
    let mut printed = Vec::new();
    let written = if input.len() <= 4096 && matches!(feed, Feed::Whole) {
        // A pipe takes this much at once, so no thread is needed to read meanwhile.
        let written = to.write_all(input);
        drop(to);
        from.read_to_end(&mut printed).map_err(|problem| format!("reading: {problem}"))?;
        written
    } else {
        thread::scope(|scope| {
            let writer = scope.spawn(move || write_in_pieces(&mut to, input, feed));
            from.read_to_end(&mut printed).map_err(|problem| format!("reading: {problem}"))?;
            Ok::<_, String>(writer.join().unwrap())
        })?
    };
    let status = child.wait().map_err(|problem| format!("waiting: {problem}"))?;
    if !status.success() {
        return Err(format!("{} ended with {status}", program()));
    }
    written.map_err(|problem| format!("{} did not read all of its input: {problem}", program()))?;
    Ok(printed)
}

// ---- the C call

/// What the caller is run by, if anything.
fn under() -> String {
    setting("PLOT_HUB_UNDER", "")
}

struct Caller {
    child: Child,
    to: ChildStdin,
    from: ChildStdout,
}

impl Caller {
    fn start() -> Result<Caller, String> {
        let path = setting("PLOT_HUB_CALLER", "target/outside/caller");
        let under = under();
        let mut words: Vec<&str> = under.split_whitespace().collect();
        words.push(&path);
        let mut child = Command::new(words[0])
            .args(&words[1..])
            .stdin(Stdio::piped())
            .stdout(Stdio::piped())
            .spawn()
            .map_err(|problem| format!("{} cannot be started: {problem}", words[0]))?;
        let to = child.stdin.take().unwrap();
        let from = child.stdout.take().unwrap();
        Ok(Caller { child, to, from })
    }

    /// Runs the inputs, each with the letter that tests/c/caller.c explains, and hands each output to `each`.
    /// Err: the number of the first input without an output, and why.
    fn run(&mut self, inputs: &[(u8, &[u8])], mut each: impl FnMut(usize, Vec<u8>)) -> Result<(), (usize, String)> {
        let (to, from) = (&mut self.to, &mut self.from);
        let broken = thread::scope(|scope| {
            // Written by a thread of its own: the caller may write more than a pipe holds before it has read everything.
            scope.spawn(|| {
                for (letter, input) in inputs {
                    let head = [&[*letter][..], &(input.len() as u32).to_le_bytes()].concat();
                    if to.write_all(&head).and_then(|()| to.write_all(input)).is_err() {
                        return; // the reader sees that the output ends
                    }
                }
            });
            (0..inputs.len()).find(|&i| {
                let mut length = [0; 4];
                let mut output = Vec::new();
                let read = from.read_exact(&mut length).and_then(|()| {
                    output.resize(u32::from_le_bytes(length) as usize, 0);
                    from.read_exact(&mut output)
                });
                if read.is_ok() {
                    each(i, output);
                }
                read.is_err()
            })
        });
        match broken {
            None => Ok(()),
            Some(i) => {
                let status = self.child.wait().map_or_else(|problem| problem.to_string(), |status| status.to_string());
                Err((i, format!("the C caller ended with {status}; what it said stands above")))
            }
        }
    }

    fn end(self) -> Result<(), String> {
        let Caller { mut child, to, from } = self;
        drop(to);
        drop(from);
        match child.wait() {
            Ok(status) if status.success() => Ok(()),
            Ok(status) => Err(format!("the C caller ended with {status}")),
            Err(problem) => Err(problem.to_string()),
        }
    }
}

// ---- failures

const VARIABLES: [&str; 3] = ["PLOT_HUB_CALLER", "PLOT_HUB_PROGRAM", "PLOT_HUB_UNDER"];

/// Says what failed, on which input, and how to see it again; ends the run.
fn failed(item: &Item, how: &str) -> ! {
    static FIRST: Mutex<()> = Mutex::new(());
    let guard = FIRST.lock(); // the first one ends the run, the others wait for ever
    println!("compare: FAILED: {} input, seed {}, index {}: {how}", item.kind, item.seed, item.index);
    println!("compare: to see it: {}", again(&VARIABLES, &format!("one {}", item.name())));
    std::process::exit(1 + i32::from(guard.is_err()))
}

/// Where two outputs differ first. None: nowhere.
fn difference(got: &[u8], expected: &[u8]) -> Option<String> {
    if got == expected {
        return None;
    }
    let lines = |bytes: &[u8]| bytes.split_inclusive(|&b| b == 10).map(|line| line.escape_ascii().to_string()).collect::<Vec<_>>();
    let (got, expected) = (lines(got), lines(expected));
    let at = got.iter().zip(&expected).take_while(|(a, b)| a == b).count();
    let shown = |lines: &[String]| lines.get(at).map_or("nothing".to_string(), |line| format!("`{line}`"));
    Some(format!("output line {}: {}, expected {}", at + 1, shown(&got), shown(&expected)))
}

// ---- the comparison

#[derive(Default)]
struct Counts {
    inputs: AtomicU64,
    by_call: AtomicU64,
    every_length: AtomicU64,
    by_program: AtomicU64,
    bytes: AtomicU64,
}

fn letter(item: &Item) -> u8 {
    let slow = !under().is_empty() && item.index % 20 != 0;
    match item.kind {
        Kind::Edge | Kind::Example if item.expected.len() <= SHORT && item.input.len() <= SHORT && !slow => b'e',
        Kind::Random | Kind::Damaged if item.expected.len() <= SHORT && item.index % EVERY == 0 => b'e',
        Kind::Random | Kind::Damaged if item.index % EVERY == 1 => b't',
        _ => b'p',
    }
}

/// How the program is fed with this input: one process for each.
fn feeds(item: &Item) -> Vec<Feed> {
    match item.kind {
        Kind::Joined => vec![
            Feed::Whole,
            Feed::Odd(item.seed ^ item.index),
            Feed::Pieces(1 + item.index as usize % 7),
            Feed::Pieces(127 + item.index as usize % 5),
            Feed::Pieces(4093 + item.index as usize % 7),
        ],
        Kind::Edge | Kind::Example => vec![Feed::Whole, Feed::Pieces(1), Feed::Odd(item.index)],
        Kind::Random | Kind::Damaged if item.index % 50 == 3 => vec![Feed::Whole, Feed::Pieces(1), Feed::Odd(item.index)],
        Kind::Random | Kind::Damaged | Kind::Cut => vec![Feed::Whole],
    }
}

fn by_call(items: &[&Item], caller: &mut Caller, counts: &Counts, watch: &Watch) {
    let records: Vec<(u8, &[u8])> = items.iter().map(|item| (letter(item), &item.input[..])).collect();
    if let Some(first) = items.first() {
        watch.begin(first.name());
    }
    let run = caller.run(&records, |i, output| {
        if let Some(how) = difference(&output, &items[i].expected) {
            failed(items[i], &format!("by the C call: {how}"));
        }
        counts.by_call.fetch_add(1, Ordering::Relaxed);
        counts.every_length.fetch_add(u64::from(records[i].0 == b'e'), Ordering::Relaxed);
        if let Some(next) = items.get(i + 1) {
            watch.begin(next.name());
        }
    });
    watch.end();
    if let Err((i, how)) = run {
        failed(items[i], &how);
    }
}

fn by_program(items: &[Item], next: &AtomicUsize, counts: &Counts, watch: &Watch) {
    while let Some(item) = items.get(next.fetch_add(1, Ordering::Relaxed)) {
        watch.begin(item.name());
        for feed in feeds(item) {
            match run_program(&item.input, feed) {
                Err(how) => failed(item, &how),
                Ok(output) => {
                    if let Some(how) = difference(&output, &item.expected) {
                        failed(item, &format!("by the program, fed {feed}: {how}"));
                    }
                }
            }
            counts.by_program.fetch_add(1, Ordering::Relaxed);
        }
    }
    watch.end();
}

fn cores() -> usize {
    thread::available_parallelism().map_or(2, |n| n.get())
}

/// The inputs with these names, in order; made on all cores.
fn made(names: &[(Kind, u64)], seed: u64) -> Vec<Item> {
    let share = names.len().div_ceil(cores()).max(1);
    thread::scope(|scope| {
        let make = |part: &[(Kind, u64)]| part.iter().filter_map(|&(kind, index)| Item::new(kind, seed, index)).collect::<Vec<_>>();
        let parts: Vec<_> = names.chunks(share).map(|part| scope.spawn(move || make(part))).collect();
        parts.into_iter().flat_map(|part| part.join().expect("the reference failed")).collect()
    })
}

fn compare(count: u64, seed: u64, programs: bool) {
    println!("compare: {count} random and {count} damaged inputs, seed {seed}");
    let counts = Counts::default();
    // valgrind is some 50 times slower.
    let watch = Watch::start("compare", &VARIABLES, if under().is_empty() { LONGEST } else { 10 * LONGEST });
    let mut caller = Caller::start().unwrap_or_else(|how| {
        println!("compare: FAILED: {how}");
        std::process::exit(1)
    });
    let mut start = 0;
    while start < count.max(1) {
        let end = (start + BATCH).min(count);
        let mut names: Vec<(Kind, u64)> = Vec::new();
        if start == 0 {
            names.extend((0..examples::read(EXAMPLES).len() as u64).map(|index| (Kind::Example, index)));
            names.extend((0..edges().len() as u64).map(|index| (Kind::Edge, index)));
            if programs {
                names.extend((0..).take_while(|&index| cut(index).is_some()).map(|index| (Kind::Cut, index as u64)));
            }
        }
        let joined = [0, 1].map(|more| (Kind::Joined, 2 * (start / BATCH) + more));
        // Before the rest, since several threads run the inputs before one that they are to run: then long ones, too.
        // valgrind has one thread run at a time, so there it would only take long.
        let (before, behind) = if under().is_empty() { (&joined[..], &[][..]) } else { (&[][..], &joined[..]) };
        names.extend(before);
        names.extend((start..end).map(|index| (Kind::Random, index)));
        names.extend((start..end).map(|index| (Kind::Damaged, index)));
        names.extend(behind);
        let items = made(&names, seed);
        assert_eq!(items.len(), names.len());
        counts.inputs.fetch_add(items.len() as u64, Ordering::Relaxed);
        counts.bytes.fetch_add(items.iter().map(|item| item.input.len() as u64).sum(), Ordering::Relaxed);
        let next = AtomicUsize::new(0);
        thread::scope(|scope| {
            for _ in 0..if programs { cores() } else { 0 } {
                scope.spawn(|| by_program(&items, &next, &counts, watch));
            }
            // The call has its whole input at once.
            let whole: Vec<&Item> = items.iter().filter(|item| item.kind != Kind::Cut).collect();
            by_call(&whole, &mut caller, &counts, watch);
        });
        start += BATCH;
    }
    if let Err(how) = caller.end() {
        println!("compare: FAILED: at its end {how}");
        std::process::exit(1);
    }
    let count = |counter: &AtomicU64| counter.load(Ordering::Relaxed);
    println!(
        "compare: all agree: {} inputs of {} bytes; {} by the C call, {} of them with every buffer length; {} by a process of the program",
        count(&counts.inputs),
        count(&counts.bytes),
        count(&counts.by_call),
        count(&counts.every_length),
        count(&counts.by_program)
    );
}

/// Runs one input in every way and shows what comes out. True if all agree.
fn one(item: &Item) -> bool {
    println!("input:\n{}expected:\n{}", readable(&item.input), readable(&item.expected));
    let mut agree = true;
    let mut show = |way: String, got: Result<Vec<u8>, String>| {
        let how = match &got {
            Err(how) => Some(how.clone()),
            Ok(output) => difference(output, &item.expected),
        };
        println!("{way}: {}", how.as_deref().unwrap_or("agrees"));
        if let (Some(_), Ok(output)) = (&how, &got) {
            println!("printed:\n{}", readable(output));
        }
        agree &= how.is_none();
    };
    let mut letters = vec![b'p', b't'];
    if item.expected.len() <= 20 * SHORT {
        letters.push(b'e');
    }
    for letter in letters {
        let mut output = Vec::new();
        let run = Caller::start().and_then(|mut caller| {
            caller.run(&[(letter, &item.input)], |_, got| output = got).map_err(|(_, how)| how)?;
            caller.end()
        });
        let way = match letter {
            b'p' => "by the C call",
            b't' => "by the C call, from several threads",
            _ => "by the C call, with every buffer length",
        };
        show(way.to_string(), run.map(|()| output));
    }
    let mut all = feeds(item);
    all.push(Feed::Pieces(1));
    all.push(Feed::Odd(item.seed));
    for feed in all {
        show(format!("by the program, fed {feed}"), run_program(&item.input, feed));
    }
    agree
}

fn main() -> ExitCode {
    let words: Vec<String> = std::env::args().skip(1).collect();
    match words.first().map(|word| word.as_str()) {
        Some("one") => {
            let kind = Kind::ALL.into_iter().find(|kind| Some(kind.to_string()) == words.get(1).cloned());
            let (seed, index) = (number(words.get(2), "SEED"), number(words.get(3), "INDEX"));
            let Some(item) = kind.and_then(|kind| Item::new(kind, seed, index)) else {
                eprintln!("KIND is random, damaged, joined, example, edge or cut; there are not so many of the last three");
                return ExitCode::from(2);
            };
            return if one(&item) { ExitCode::SUCCESS } else { ExitCode::FAILURE };
        }
        Some("caller") => compare(number(words.get(1), "COUNT"), number(words.get(2), "SEED"), false),
        _ => compare(number(words.first(), "COUNT"), number(words.get(1), "SEED"), true),
    }
    ExitCode::SUCCESS
}
