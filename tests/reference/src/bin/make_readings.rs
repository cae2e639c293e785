//! Writes histories with readings of due settings and new pass limits, and what they must print:
//! `make_readings SEED COUNT INPUTS OUTPUTS`.
//!
//! They are the histories `histories::random(SEED, i)`, i below COUNT, as records of the program `hub_vectors`
//! (tests/hub/make_vectors.py says what a record holds), one for each accepted opening. Behind every other call or so stands a
//! reading: of one device, or of all into a list (document 02, item 14); at the end of a record one list of each length.
//! In every other history new pass limits stand between the calls (item 13), too.

use reference::histories::{self, Random};
use reference::hub::{Answer, Hub, MOST_PASSES};
use reference::line::Program;
use std::fs;
use std::process::exit;

/// The vector programs have so much room for their records.
const ROOM: usize = 2_097_152;

/// Of a call in a record; so no more than nine commands.
const CALL_SIZE: usize = 40;

/// The list of which the first entries are lent.
const LIST: usize = 40;

fn main() {
    let words: Vec<String> = std::env::args().skip(1).collect();
    let [seed, count, inputs_path, outputs_path] = words.as_slice() else { usage() };
    let (Ok(seed), Ok(count)) = (seed.parse::<u64>(), count.parse::<u64>()) else { usage() };
    let mut made = Made::default();
    for index in 0..count {
        let text = histories::random(seed, index);
        let (random, limits) = (Random::new(seed, index), index % 2 == 1);
        let mut record = Record { random, program: Program::new(), limits, bytes: Vec::new(), printed: Vec::new() };
        for line in text.split(|&b| b == b'\n') {
            record.line(line, &mut made);
        }
        record.end(&mut made);
    }
    if made.inputs.len() > ROOM {
        stop(&format!("{} bytes of records, more than {ROOM}", made.inputs.len()));
    }
    for (path, content) in [(inputs_path, &made.inputs), (outputs_path, &made.outputs)] {
        if let Err(error) = fs::write(path, content) {
            stop(&format!("{path}: {error}"));
        }
    }
    let Made { records, ones, lists, refused, limits, limits_refused, .. } = made;
    println!("{records} records, seed {seed}: {ones} readings of one device, {lists} of all, {refused} of them refused");
    println!("{limits} new pass limits, {limits_refused} of them refused");
}

#[derive(Default)]
struct Made {
    inputs: Vec<u8>,
    outputs: Vec<u8>,
    records: usize,
    ones: usize,
    lists: usize,
    refused: usize,
    limits: usize,
    limits_refused: usize,
}

/// A record in the making; no bytes before the first accepted opening.
struct Record {
    random: Random,
    program: Program,
    limits: bool,
    bytes: Vec<u8>,
    printed: Vec<u8>,
}

impl Record {
    fn hub(&self) -> &Hub {
        self.program.hub().expect("an accepted opening")
    }

    fn line(&mut self, line: &[u8], made: &mut Made) {
        let Some((opens, body)) = body_of(line) else { return };
        let before = self.program.clone();
        let mut said = Vec::new();
        self.program.line(line, &mut said);
        if said == b"unread\n" || opens && said != b"opened\n" {
            return;
        }
        if opens {
            let opened = std::mem::replace(&mut self.program, before);
            self.end(made);
            self.program = opened;
            self.bytes = body;
        } else {
            self.call(body);
        }
        self.printed.extend_from_slice(&said);
        if self.random.percent(40) {
            self.reading(made);
        }
        if self.limits && self.random.percent(15) {
            self.limit(made);
        }
    }

    fn limit(&mut self, made: &mut Made) {
        let odd = [MOST_PASSES + 1, u8::MAX];
        let new = if self.random.percent(90) { self.random.below(usize::from(MOST_PASSES) + 1) as u8 } else { *self.random.pick(&odd) };
        let text = match self.program.hub_mut().expect("an accepted opening").limit(new) {
            Ok(Answer::Limited { pass_limit }) => format!("limited {pass_limit}\n"),
            Ok(answer) => unreachable!("{answer:?}"),
            Err(refusal) => {
                made.limits_refused += 1;
                format!("refused {}\n", refusal.number)
            }
        };
        self.call(vec![b'K', new]);
        self.printed.extend_from_slice(text.as_bytes());
        made.limits += 1;
    }

    fn call(&mut self, mut body: Vec<u8>) {
        body.resize(CALL_SIZE, 0);
        self.bytes.extend_from_slice(&body);
    }

    fn reading(&mut self, made: &mut Made) {
        let devices = self.hub().device_count();
        if self.random.percent(30) {
            let device = if self.random.percent(80) { self.random.below(devices.into()) as u8 } else { self.random.below(32) as u8 };
            let due = self.hub().due_setting(device);
            self.call(vec![b'V', device]);
            self.printed.extend_from_slice(format!("due {due}\n").as_bytes());
            made.ones += 1;
        } else {
            let around = usize::from(devices) + self.random.below(3) - 1;
            let lent = if self.random.percent(50) { around } else { self.random.below(LIST + 1) };
            self.list(lent, made);
        }
    }

    fn list(&mut self, lent: usize, made: &mut Made) {
        let before = self.random.draw() as i16;
        let mut list = [before; LIST];
        let result = self.hub().due_settings(&mut list[..lent]);
        let [low, high] = before.to_le_bytes();
        self.call(vec![b'L', lent as u8, low, high]);
        if let Err(refusal) = result {
            self.printed.extend_from_slice(format!("refused {}\n", refusal.number).as_bytes());
            made.refused += 1;
        }
        let entries: String = list.iter().map(|setting| format!(" {setting}")).collect();
        self.printed.extend_from_slice(format!("list{entries}\n").as_bytes());
        made.lists += 1;
    }

    fn end(&mut self, made: &mut Made) {
        if self.bytes.is_empty() {
            return;
        }
        for lent in 0..=LIST {
            self.list(lent, made);
        }
        self.program.end(&mut self.printed);
        let Ok(length) = u16::try_from(self.bytes.len()) else { stop("a record is too long") };
        made.inputs.extend_from_slice(&length.to_le_bytes());
        made.inputs.append(&mut self.bytes);
        made.outputs.append(&mut self.printed);
        made.records += 1;
    }
}

/// A line as it stands in a record, and whether it is an opening; none if it has no place there.
fn body_of(line: &[u8]) -> Option<(bool, Vec<u8>)> {
    let text = std::str::from_utf8(line).ok()?;
    let mut words = text.split(' ');
    let letter = words.next()?;
    let numbers: Vec<i64> = words.map(|word| word.parse().ok()).collect::<Option<_>>()?;
    let id = |letter: u8, small: u8, id: i64| [&[letter, small], (id as u32).to_le_bytes().as_slice()].concat();
    let body = match (letter, numbers.as_slice()) {
        ("O", &[n, k, first]) => return Some((true, [&[0, n as u8, k as u8], (first as u32).to_le_bytes().as_slice()].concat())),
        ("S", numbers) if numbers.len() % 3 == 0 && numbers.len() <= 27 => {
            let mut body = vec![b'S', (numbers.len() / 3) as u8];
            for command in numbers.chunks(3) {
                let [low, high] = (command[2] as i16).to_le_bytes();
                body.extend_from_slice(&[command[0] as u8, command[1] as u8, low, high]);
            }
            body
        }
        ("N", &[n]) => id(b'N', 0, n),
        ("D", &[n]) => id(b'P', 0, n),
        ("B", &[n]) => id(b'P', 1, n),
        ("C", &[n]) => id(b'C', 0, n),
        ("F", &[device]) => vec![b'F', device as u8],
        ("R", &[device, setting]) => {
            let [low, high] = (setting as i16).to_le_bytes();
            vec![b'R', device as u8, low, high]
        }
        _ => return None,
    };
    Some((false, body))
}

fn usage() -> ! {
    eprintln!("make_readings SEED COUNT INPUTS OUTPUTS");
    exit(2)
}

fn stop(why: &str) -> ! {
    eprintln!("{why}");
    exit(1)
}
