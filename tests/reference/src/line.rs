//! The line program: reads lines, makes the calls they ask for, prints the answers.

use crate::hub::{Aborted, Answer, Command, Hub, Refusal, DONE, FAILED};

pub const LONGEST_LINE: usize = 128;

/// No line has room for more commands: a letter, then six bytes or more for each.
const MOST_IN_A_LINE: usize = (LONGEST_LINE - 1) / 6;

/// A line of the right shape, with numbers inside their widths.
enum Request {
    Open { device_count: u8, pass_limit: u8, first_id: u32 },
    Submit { commands: [Command; MOST_IN_A_LINE], count: usize },
    Turn { id: u32 },
    Report { id: u32, code: u8 },
    Cancel { id: u32 },
    Fail { device: u8 },
    Restart { device: u8, setting: i16 },
}

// ---- reading

/// What is left of a line. Each number takes the space before it.
struct Words<'a> {
    rest: &'a [u8],
}

impl Words<'_> {
    fn take(&mut self, byte: u8) -> Option<()> {
        let (&first, rest) = self.rest.split_first()?;
        if first != byte {
            return None;
        }
        self.rest = rest;
        Some(())
    }

    /// One digit or more, leading zeros included, of a number that is at most `most`.
    fn digits(&mut self, most: u32) -> Option<u32> {
        let mut value: u64 = 0;
        let mut count = 0;
        while let Some(digit) = self.rest.get(count).filter(|b| b.is_ascii_digit()) {
            value = value * 10 + u64::from(digit - b'0');
            if value > u64::from(most) {
                return None;
            }
            count += 1;
        }
        if count == 0 {
            return None;
        }
        self.rest = &self.rest[count..];
        Some(value as u32)
    }

    fn byte(&mut self) -> Option<u8> {
        self.take(b' ')?;
        self.digits(u32::from(u8::MAX)).map(|n| n as u8)
    }

    fn id(&mut self) -> Option<u32> {
        self.take(b' ')?;
        self.digits(u32::MAX)
    }

    fn setting(&mut self) -> Option<i16> {
        self.take(b' ')?;
        let value = match self.take(b'-') {
            Some(()) => -(self.digits(32768)? as i32),
            None => self.digits(32767)? as i32,
        };
        Some(value as i16)
    }

    fn command(&mut self) -> Option<Command> {
        Some(Command { device: self.byte()?, tag: self.byte()?, setting: self.setting()? })
    }
}

/// What a line asks for; none if it has another shape or a number outside its width.
fn read(line: &[u8]) -> Option<Request> {
    if line.len() > LONGEST_LINE {
        return None;
    }
    let (letter, rest) = line.split_first()?;
    let mut words = Words { rest };
    let request = match letter {
        b'O' => Request::Open { device_count: words.byte()?, pass_limit: words.byte()?, first_id: words.id()? },
        b'S' => {
            let mut commands = [Command::default(); MOST_IN_A_LINE];
            let mut count = 0;
            while !words.rest.is_empty() {
                commands[count] = words.command()?;
                count += 1;
            }
            Request::Submit { commands, count }
        }
        b'N' => Request::Turn { id: words.id()? },
        b'D' => Request::Report { id: words.id()?, code: DONE },
        b'B' => Request::Report { id: words.id()?, code: FAILED },
        b'C' => Request::Cancel { id: words.id()? },
        b'F' => Request::Fail { device: words.byte()? },
        b'R' => Request::Restart { device: words.byte()?, setting: words.setting()? },
        _ => return None,
    };
    words.rest.is_empty().then_some(request)
}

// ---- printing

fn word(out: &mut Vec<u8>, text: &str) {
    out.extend_from_slice(text.as_bytes());
}

/// A space and a number.
fn number(out: &mut Vec<u8>, value: i64) {
    word(out, if value < 0 { " -" } else { " " });
    let mut digits = [0; 20];
    let mut from = digits.len();
    let mut left = value.unsigned_abs();
    loop {
        from -= 1;
        digits[from] = b'0' + (left % 10) as u8;
        left /= 10;
        if left == 0 {
            break;
        }
    }
    out.extend_from_slice(&digits[from..]);
}

fn words(out: &mut Vec<u8>, text: &str, numbers: &[i64]) {
    word(out, text);
    for &n in numbers {
        number(out, n);
    }
}

fn print_backs(out: &mut Vec<u8>, backs: &[(u8, i16)]) {
    words(out, " back", &[backs.len() as i64]);
    for &(device, setting) in backs {
        number(out, device.into());
        number(out, setting.into());
    }
}

fn print_aborted(out: &mut Vec<u8>, aborted: &Aborted) {
    words(out, "aborted", &[aborted.id.into()]);
    print_backs(out, aborted.backs.as_slice());
    out.push(b'\n');
}

fn print_event(out: &mut Vec<u8>, text: &str, device: u8, after: u32, aborted: &Option<Aborted>) {
    // The abort comes before its event, on a line of its own.
    if let Some(aborted) = aborted {
        print_aborted(out, aborted);
    }
    words(out, text, &[device.into()]);
    words(out, " after", &[after.into()]);
    out.push(b'\n');
}

fn print_answer(out: &mut Vec<u8>, answer: &Answer) {
    match answer {
        Answer::Opened => word(out, "opened"),
        Answer::Placed { id, after } => {
            words(out, "placed", &[(*id).into()]);
            words(out, " after", &[(*after).into()]);
        }
        Answer::Committed { id } => words(out, "committed", &[(*id).into()]),
        Answer::Wait { id, on } => {
            words(out, "wait", &[(*id).into()]);
            words(out, " on", &[(*on).into()]);
        }
        Answer::Send { id, device, setting } => {
            words(out, "send", &[(*id).into(), (*device).into(), (*setting).into()]);
        }
        Answer::Held { id } => words(out, "held", &[(*id).into()]),
        Answer::NotHeld { id } => words(out, "not held", &[(*id).into()]),
        Answer::Done { id } => words(out, "done", &[(*id).into()]),
        Answer::Skipped { id, backs } => {
            words(out, "skipped", &[(*id).into()]);
            if !backs.as_slice().is_empty() {
                print_backs(out, backs.as_slice());
            }
        }
        Answer::Aborted(aborted) => return print_aborted(out, aborted),
        Answer::Down { device, after, aborted } => return print_event(out, "down", *device, *after, aborted),
        Answer::Up { device, after, aborted } => return print_event(out, "up", *device, *after, aborted),
        Answer::Limited { .. } => unreachable!("no line asks for a new pass limit"),
    }
    out.push(b'\n');
}

fn print_refusal(out: &mut Vec<u8>, refusal: &Refusal) {
    words(out, "refused", &[refusal.number.into()]);
    if let Some(index) = refusal.index {
        number(out, index.into());
    }
    out.push(b'\n');
}

// ---- running

/// The program between two lines.
#[derive(Clone, Default)]
pub struct Program {
    hub: Option<Hub>,
}

impl Program {
    pub fn new() -> Program {
        Program::default()
    }

    /// For calls that no line makes.
    pub fn hub_mut(&mut self) -> Option<&mut Hub> {
        self.hub.as_mut()
    }

    /// The hub of the last accepted opening.
    pub fn hub(&self) -> Option<&Hub> {
        self.hub.as_ref()
    }

    /// Runs each line of a text. The last may do without its byte 10; nothing behind the last byte 10 is no line.
    pub fn lines(&mut self, text: &[u8], out: &mut Vec<u8>) {
        let mut rest = text;
        while !rest.is_empty() {
            let length = rest.iter().position(|&b| b == b'\n').unwrap_or(rest.len());
            self.line(&rest[..length], out);
            rest = rest.get(length + 1..).unwrap_or_default();
        }
    }

    /// Runs one line, given without its byte 10.
    pub fn line(&mut self, line: &[u8], out: &mut Vec<u8>) {
        match self.answer(line) {
            None => word(out, "unread\n"),
            Some(Ok(answer)) => print_answer(out, &answer),
            Some(Err(refusal)) => print_refusal(out, &refusal),
        }
    }

    /// None for a line that is not read: its shape, its widths, or no hub was opened before it.
    fn answer(&mut self, line: &[u8]) -> Option<Result<Answer, Refusal>> {
        Some(match read(line)? {
            Request::Open { device_count, pass_limit, first_id } => {
                Hub::open(device_count, pass_limit, first_id).map(|hub| {
                    self.hub = Some(hub);
                    Answer::Opened
                })
            }
            Request::Submit { commands, count } => self.hub.as_mut()?.submit(&commands[..count]),
            Request::Turn { id } => self.hub.as_mut()?.turn(id),
            Request::Report { id, code } => self.hub.as_mut()?.report(id, code),
            Request::Cancel { id } => self.hub.as_mut()?.cancel(id),
            Request::Fail { device } => self.hub.as_mut()?.fail(device),
            Request::Restart { device, setting } => self.hub.as_mut()?.restart(device, setting),
        })
    }

    /// The device lines, if a hub was opened.
    pub fn end(&self, out: &mut Vec<u8>) {
        let Some(hub) = &self.hub else {
            return;
        };
        for device in 0..hub.device_count() {
            words(out, "device", &[device.into()]);
            if hub.is_up(device) {
                words(out, " up", &[hub.due_setting(device).into()]);
            } else {
                word(out, " down");
            }
            out.push(b'\n');
        }
    }
}
