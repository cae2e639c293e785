//! Demand 3 tried on the line program of the archive: simulated devices, and the hub's order built from text alone.
//!
//!     world COUNT SEED        so many random histories
//!     world one SEED INDEX    one of them, with every line, answer and move of a device
//!
//! A history is made while it runs: what is called next depends on the answers. From calls and answers, and nothing else,
//! this program keeps the order, as document 01's paragraph "The hub's order" says, and the devices, as "The devices"
//! says. What an event skips (document 02, item 3) no answer tells: it is worked out. Reports on what was skipped in flight
//! may come late; this program is the server, too, and drops them while another command of the routine is in flight.
//! After every call it checks that
//!   - the settled part of before stands unchanged at the beginning of the order;
//!   - in the order's serial run every done command finds its device up, and every skipped one was reported failed, finds it
//!     down, was skipped by an event (then an event of its device stands behind its routine and before the next one), or follows a
//!     condition that did not hold or was skipped (item 4);
//!   - every condition that was not skipped finds its device up and has the outcome that it was answered with, in the serial run of the
//!     whole order and in that of the committed routines and the events alone;
//!   - a wait is on the first routine ahead that gives a cause, and no other answer of a turn has one;
//!   - a late report is refused, with 12 while its routine runs, with 10 once that has ended;
//!   - the device lines printed at the end of the input so far are those of the serial run;
//!   - if no routine runs: whatever the working devices still take of what was sent to them, once every setting put back
//!     is carried out they have the settings of the serial run.

use outside::{archive, number, run_all, Answer, Back, Random};
use std::collections::{BTreeMap, HashSet, VecDeque};
use std::process::ExitCode;

// ---- calls and answers as text

#[derive(Clone, Copy, PartialEq, Debug)]
struct Command {
    /// In its routine.
    place: usize,
    device: usize,
    tag: u8,
    setting: i64,
}

const MUST: u8 = 0;
const BEST_EFFORT: u8 = 1;
const CONDITION: u8 = 2;

#[derive(Clone, Debug)]
enum Call {
    Submit(Vec<Command>),
    Turn(u64),
    Done(u64),
    Failed(u64),
    Cancel(u64),
    Failure(usize),
    Restart(usize, i64),
    /// A late report, done or failed, and the number that it must be refused with.
    Late { id: u64, done: bool, number: u8 },
    /// A line that tells nothing, whatever it is; its answer must be a refusal or `unread`.
    Idle(String),
}

impl Call {
    fn line(&self) -> String {
        match self {
            Call::Submit(commands) => {
                commands.iter().fold("S".to_string(), |line, c| line + &format!(" {} {} {}", c.device, c.tag, c.setting))
            }
            Call::Turn(id) => format!("N {id}"),
            Call::Done(id) | Call::Late { id, done: true, .. } => format!("D {id}"),
            Call::Failed(id) | Call::Late { id, done: false, .. } => format!("B {id}"),
            Call::Cancel(id) => format!("C {id}"),
            Call::Failure(device) => format!("F {device}"),
            Call::Restart(device, setting) => format!("R {device} {setting}"),
            Call::Idle(line) => line.clone(),
        }
    }
}

/// What a device line says: the setting if the device is up.
type Line = Option<i64>;

fn device_line(line: &str, device: usize) -> Option<Line> {
    let words: Vec<&str> = line.split(' ').collect();
    match words[..] {
        ["device", d, "up", setting] if d == device.to_string() => setting.parse().ok().map(Some),
        ["device", d, "down"] if d == device.to_string() => Some(None),
        _ => None,
    }
}

// ---- the hub's order

#[derive(Clone, Copy, PartialEq, Debug)]
enum How {
    Done,
    Held,
    NotHeld,
    ReportedFailed,
    SkippedAsDown,
    SkippedByEvent,
    /// After a condition that did not hold or was skipped.
    SkippedAfterCondition,
}

#[derive(Clone, PartialEq, Debug)]
enum Entry {
    /// Its answered commands, in the order of the answers.
    Routine { id: u64, commands: Vec<(Command, How)>, committed: bool },
    Failure(usize),
    Restart(usize, i64),
}

impl Entry {
    fn is_routine(&self) -> bool {
        matches!(self, Entry::Routine { .. })
    }

    fn is_event_of(&self, wanted: usize) -> bool {
        matches!(self, Entry::Failure(device) | Entry::Restart(device, _) if *device == wanted)
    }

    fn runs(&self) -> bool {
        matches!(self, Entry::Routine { committed: false, .. })
    }

    /// The answered commands; an event has none.
    fn commands(&self) -> &[(Command, How)] {
        match self {
            Entry::Routine { commands, .. } => commands,
            _ => &[],
        }
    }

    fn has_done(&self, device: usize) -> bool {
        self.commands().iter().any(|(command, how)| *how == How::Done && command.device == device)
    }

    /// A condition was answered `held` or `not held`.
    fn has_outcome(&self) -> bool {
        self.commands().iter().any(|(_, how)| matches!(how, How::Held | How::NotHeld))
    }
}

/// The command follows a condition that did not hold or was skipped.
fn is_dropped(answered: &[(Command, How)], command: Command) -> bool {
    answered.iter().any(|(before, how)| before.tag == CONDITION && before.place + 1 == command.place && *how != How::Held)
}

/// A list with a bar that ends the settled part.
#[derive(Default)]
struct Order {
    entries: Vec<Entry>,
    bar: usize,
}

impl Order {
    fn place_of(&self, wanted: u64) -> Result<usize, String> {
        let found = |entry: &Entry| matches!(entry, Entry::Routine { id, .. } if *id == wanted);
        self.entries.iter().position(found).ok_or(format!("routine {wanted} is not in the order"))
    }

    /// Before the next routine behind the one it follows, or last; after 0, before the first routine behind the bar, or last.
    fn insert(&mut self, entry: Entry, after: u64) -> Result<(), String> {
        let behind = if after == 0 { self.bar } else { self.place_of(after)? + 1 };
        let next = self.entries[behind..].iter().position(Entry::is_routine);
        self.entries.insert(next.map_or(self.entries.len(), |i| behind + i), entry);
        Ok(())
    }

    /// The routine goes, its events stay.
    fn remove(&mut self, id: u64) -> Result<(), String> {
        let at = self.place_of(id)?;
        self.entries.remove(at);
        Ok(())
    }

    fn answered(&mut self, wanted: u64, command: Command, how: How) -> Result<(), String> {
        let at = self.place_of(wanted)?;
        if let Entry::Routine { commands, .. } = &mut self.entries[at] {
            commands.push((command, how));
        }
        Ok(())
    }

    fn commit(&mut self, wanted: u64) -> Result<(), String> {
        let at = self.place_of(wanted)?;
        if let Entry::Routine { committed, .. } = &mut self.entries[at] {
            *committed = true;
        }
        Ok(())
    }

    /// The bar goes before the first routine not committed, or to the end.
    fn move_bar(&mut self) {
        self.bar = self.entries.iter().position(Entry::runs).unwrap_or(self.entries.len());
    }

    fn settled(&self) -> &[Entry] {
        &self.entries[..self.bar]
    }

    /// Runs it, or only its committed routines and its events, from all devices up at 0. Err: a command stands where it must not.
    fn serial_run(&self, device_count: usize, only_committed: bool) -> Result<Vec<(bool, i64)>, String> {
        let mut devices = vec![(true, 0); device_count];
        for (at, entry) in self.entries.iter().enumerate() {
            let events = self.entries[at + 1..].iter().take_while(|entry| !entry.is_routine());
            match entry {
                Entry::Failure(device) => devices[*device].0 = false,
                Entry::Restart(device, setting) => devices[*device] = (true, *setting),
                Entry::Routine { committed: false, .. } if only_committed => {}
                Entry::Routine { id, commands, .. } => {
                    for (command, how) in commands {
                        let Command { device, setting, .. } = *command;
                        let (up, now) = devices[device];
                        match how {
                            How::Done | How::ReportedFailed if is_dropped(commands, *command) => {
                                return Err(format!("routine {id} sent a command on device {device} after a condition that did not hold"));
                            }
                            How::Done if !up => return Err(format!("a done command of routine {id} finds device {device} down")),
                            How::Done => devices[device].1 = setting,
                            How::Held | How::NotHeld if !up => {
                                return Err(format!("a condition of routine {id} finds device {device} down"));
                            }
                            How::Held | How::NotHeld if (now < setting) != (*how == How::NotHeld) => {
                                return Err(format!("a condition of routine {id}, {how:?}, finds device {device} at {now}: {setting}"));
                            }
                            How::SkippedAsDown if up => {
                                return Err(format!("a command that routine {id} skipped in its turn finds device {device} up"));
                            }
                            How::SkippedByEvent if !events.clone().any(|event| event.is_event_of(device)) => {
                                return Err(format!("routine {id} skipped by an event of device {device}; behind it stands none"));
                            }
                            How::SkippedAfterCondition if !is_dropped(commands, *command) => {
                                return Err(format!("routine {id} skipped a command on device {device}; no condition is the ground"));
                            }
                            _ => {}
                        }
                    }
                }
            }
        }
        Ok(devices)
    }

    /// The last to set the device ahead of this routine is a restart.
    fn is_restarted(&self, wanted: u64, device: usize) -> Result<bool, String> {
        let ahead = &self.entries[..self.place_of(wanted)?];
        let last = ahead.iter().rev().find(|entry| matches!(entry, Entry::Restart(on, _) if *on == device) || entry.has_done(device));
        Ok(matches!(last, Some(Entry::Restart(..))))
    }
}

// ---- the devices

#[derive(Clone, Copy)]
struct Sent {
    ticket: usize,
    setting: i64,
    is_back: bool,
}

#[derive(Clone, Default)]
struct Device {
    /// The setting it has.
    actual: i64,
    /// What was sent to it and lies behind the last it took.
    sent: Vec<Sent>,
    /// Its last accepted event is a failure.
    failed: bool,
}

// ---- routines, as the answers tell of them

#[derive(Clone, Copy)]
struct Flight {
    device: usize,
    ticket: usize,
}

struct Routine {
    commands: Vec<Command>,
    /// Those that are not answered, in turn. The one in flight is the first.
    left: VecDeque<Command>,
    /// The devices of those that are, or were sent.
    begun: HashSet<usize>,
    flight: Option<Flight>,
}

impl Routine {
    fn new(commands: &[Command]) -> Routine {
        Routine { commands: commands.to_vec(), left: commands.iter().copied().collect(), begun: HashSet::new(), flight: None }
    }

    /// The tag that counts where the device is down or has an event: of a condition, that of the command after it.
    fn deciding_tag(&self, command: Command) -> u8 {
        let place = if command.tag == CONDITION { command.place + 1 } else { command.place };
        self.commands[place].tag
    }
}

/// A report that has not come yet, on a command that was skipped in flight.
#[derive(Clone, Copy)]
struct Late {
    id: u64,
    device: usize,
    /// The device took it before it failed.
    done: bool,
}

/// How often something happened that a history must reach for the checks to say anything.
#[derive(Clone, Copy)]
enum Seen {
    Calls,
    Refusals,
    Settled,
    SendTakenAfterAbort,
    BackOvertaken,
    SendOvertaken,
    FailureInFlight,
    FailureLeavesOther,
    RestartAtOther,
    AbortByFailure,
    AbortByRestart,
    FlightSkipped,
    SkippedByFailure,
    SkippedByRestart,
    SkippedApart,
    SkippedToTheEnd,
    LateDone12,
    LateFailed12,
    LateDone10,
    LateFailed10,
    LateDoneDropped,
    LateFailedDropped,
    BackByAbort,
    BackBySkip,
    SkippedAsDown,
    Held,
    NotHeld,
    AtTheNumber,
    DecidedByRestart,
    BehindCommitted,
    AbortAheadOfOutcome,
    WaitsForDoneSetting,
    ConditionSkippedAsDown,
    ConditionAborted,
    ConditionSkippedByFailure,
    ConditionSkippedByRestart,
    SkippedAfterCondition,
    SkippedAfterConditionDown,
    SkippedAfterSkippedCondition,
    CommittedBehindRunning,
    PlacedAhead,
    FullSequence,
    EndStates,
}

const SEEN: [(Seen, &str); 43] = [
    (Seen::Calls, "calls"),
    (Seen::Refusals, "refused or unread"),
    (Seen::Settled, "entries settled"),
    (Seen::SendTakenAfterAbort, "sent commands taken after their routine's abort"),
    (Seen::BackOvertaken, "put-back settings overtaken"),
    (Seen::SendOvertaken, "sent commands overtaken"),
    (Seen::FailureInFlight, "failures with a command in flight"),
    (Seen::FailureLeavesOther, "failures that left another setting"),
    (Seen::RestartAtOther, "restarts at another setting than the serial run's before"),
    (Seen::AbortByFailure, "aborts by a failure"),
    (Seen::AbortByRestart, "aborts by a restart"),
    (Seen::FlightSkipped, "commands in flight skipped by a failure"),
    (Seen::SkippedByFailure, "other commands skipped by a failure"),
    (Seen::SkippedByRestart, "commands skipped by a restart"),
    (Seen::SkippedApart, "of them with one on another device between"),
    (Seen::SkippedToTheEnd, "routines whose last commands an event skipped"),
    (Seen::LateDone12, "late done reports refused with 12"),
    (Seen::LateFailed12, "late failed reports refused with 12"),
    (Seen::LateDone10, "late done reports refused with 10"),
    (Seen::LateFailed10, "late failed reports refused with 10"),
    (Seen::LateDoneDropped, "late done reports dropped"),
    (Seen::LateFailedDropped, "late failed reports dropped"),
    (Seen::BackByAbort, "settings put back by an abort"),
    (Seen::BackBySkip, "settings put back by a skip"),
    (Seen::SkippedAsDown, "commands skipped as down"),
    (Seen::Held, "conditions held"),
    (Seen::NotHeld, "conditions not held"),
    (Seen::AtTheNumber, "of both with the setting at the number"),
    (Seen::DecidedByRestart, "of both where a restart set the device last"),
    (Seen::BehindCommitted, "of both where a committed routine ahead, not settled, has set the device"),
    (Seen::AbortAheadOfOutcome, "aborts ahead of a routine with such an outcome"),
    (Seen::WaitsForDoneSetting, "waits of conditions for a done setting alone"),
    (Seen::ConditionSkippedAsDown, "conditions skipped as down"),
    (Seen::ConditionAborted, "conditions that abort as down"),
    (Seen::ConditionSkippedByFailure, "conditions skipped by a failure"),
    (Seen::ConditionSkippedByRestart, "conditions skipped by a restart"),
    (Seen::SkippedAfterCondition, "commands skipped after a condition, the device up"),
    (Seen::SkippedAfterConditionDown, "commands skipped after a condition, the device down"),
    (Seen::SkippedAfterSkippedCondition, "of both after one that was skipped"),
    (Seen::CommittedBehindRunning, "commits behind a running routine"),
    (Seen::PlacedAhead, "routines placed ahead of another"),
    (Seen::FullSequence, "refusals of a full sequence"),
    (Seen::EndStates, "end states compared"),
];

type Counts = [u64; SEEN.len()];

// ---- the world

struct World {
    random: Random,
    rates: Rates,
    input: Vec<u8>,
    /// The output lines so far, without the device lines.
    printed: Vec<String>,
    device_lines: Vec<Line>,
    order: Order,
    devices: Vec<Device>,
    running: BTreeMap<u64, Routine>,
    committed: Vec<u64>,
    late: Vec<Late>,
    /// Routines whose command in flight is to fail if it still can.
    to_fail: HashSet<u64>,
    taken: HashSet<usize>,
    tickets: usize,
    counts: Counts,
    /// Show every line.
    shown: bool,
}

/// What a history does how often, in a hundred.
struct Rates {
    lines: i64,
    takes: usize,
    failures: usize,
    cancels: usize,
    cancels_ahead: usize,
    submissions: usize,
    idle: usize,
    best_effort: usize,
    /// Conditions, where one may stand.
    conditions: usize,
    /// Routines that come back to a device, mostly best-effort.
    lamps: usize,
    reported_failed: usize,
    late: usize,
    most_commands: i64,
    most_running: usize,
    settings: Vec<i64>,
}

impl World {
    fn new(seed: u64, index: u64, shown: bool) -> World {
        let mut random = Random::new(seed, index);
        let settings = (0..random.between(2, 6)).map(|_| if random.chance(20) { 0 } else { random.between(-1000, 1000) }).collect();
        let rates = Rates {
            lines: random.between(30, 140),
            takes: *random.pick(&[5, 15, 40, 80]),
            failures: *random.pick(&[0, 3, 8, 15]),
            cancels: *random.pick(&[2, 5, 12]),
            cancels_ahead: *random.pick(&[0, 5, 20]),
            submissions: *random.pick(&[12, 20, 30]),
            idle: *random.pick(&[1, 5, 15]),
            best_effort: *random.pick(&[10, 40, 70]),
            conditions: *random.pick(&[0, 20, 50]),
            lamps: *random.pick(&[0, 20, 80]),
            reported_failed: *random.pick(&[10, 30, 60]),
            late: *random.pick(&[5, 15, 40]),
            most_commands: *random.pick(&[2, 4, 8]),
            most_running: *random.pick(&[3, 6, 18]),
            settings,
        };
        World {
            random,
            rates,
            input: Vec::new(),
            printed: Vec::new(),
            device_lines: Vec::new(),
            order: Order::default(),
            devices: Vec::new(),
            running: BTreeMap::new(),
            committed: Vec::new(),
            late: Vec::new(),
            to_fail: HashSet::new(),
            taken: HashSet::new(),
            tickets: 0,
            counts: [0; SEEN.len()],
            shown,
        }
    }

    fn seen(&mut self, what: Seen) {
        self.counts[what as usize] += 1;
    }

    /// Appends a line to the input and runs it all. Ok: the lines printed for the new one.
    fn say(&mut self, line: &str) -> Result<Vec<String>, String> {
        self.input.extend_from_slice(line.as_bytes());
        self.input.push(10);
        if self.shown {
            println!("{line}");
        }
        let output = archive::run(&self.input)?;
        let text = String::from_utf8(output).map_err(|_| "the output is no text".to_string())?;
        let mut lines: Vec<String> = text.split_terminator('\n').map(str::to_string).collect();
        if !text.ends_with('\n') || lines.len() < self.printed.len() + self.devices.len() + 1 {
            return Err(format!("too few lines of output:\n{text}"));
        }
        let device_lines = lines.split_off(lines.len() - self.devices.len());
        if lines[..self.printed.len()] != self.printed[..] {
            return Err(format!("the lines for the same input before are others now:\n{text}"));
        }
        self.device_lines.clear();
        for (device, line) in device_lines.iter().enumerate() {
            self.device_lines.push(device_line(line, device).ok_or(format!("no line of device {device}: `{line}`"))?);
        }
        let new = lines[self.printed.len()..].to_vec();
        if self.shown {
            for line in &new {
                println!("        {line}");
            }
        }
        self.printed = lines;
        Ok(new)
    }

    fn open(&mut self) -> Result<(), String> {
        let device_count = match self.random.below(10) {
            0 => 1,
            1..=3 => 2,
            4..=8 => self.random.between(3, 6),
            _ => self.random.between(7, 32),
        };
        let pass_limit = self.random.between(0, 8);
        let first = if self.random.chance(10) { 4_294_967_295 - self.random.between(0, 12) } else { self.random.between(1, 9) };
        self.devices = vec![Device::default(); device_count as usize];
        let answer = self.say(&format!("O {device_count} {pass_limit} {first}"))?;
        if answer != ["opened"] {
            return Err(format!("the opening is answered with {answer:?}"));
        }
        Ok(())
    }

    // ---- devices take what was sent

    fn send(&mut self, device: usize, setting: i64, is_back: bool) -> Result<usize, String> {
        let to = self.devices.get_mut(device).ok_or(format!("a command for device {device}"))?;
        self.tickets += 1;
        to.sent.push(Sent { ticket: self.tickets, setting, is_back });
        Ok(self.tickets)
    }

    /// The device takes the command at this place of those sent; the ones before it are passed over.
    fn take(&mut self, device: usize, at: usize) {
        let gone: Vec<Sent> = self.devices[device].sent.drain(..=at).collect();
        let (last, over) = gone.split_last().unwrap();
        self.devices[device].actual = last.setting;
        self.taken.insert(last.ticket);
        let flying = self.running.values().any(|routine| routine.flight.is_some_and(|flight| flight.ticket == last.ticket));
        if !last.is_back && !flying {
            self.seen(Seen::SendTakenAfterAbort);
        }
        for sent in over {
            self.seen(if sent.is_back { Seen::BackOvertaken } else { Seen::SendOvertaken });
        }
        if self.shown {
            println!("        (device {device} takes {}, passes over {})", last.setting, over.len());
        }
    }

    fn some_take(&mut self) {
        for device in 0..self.devices.len() {
            let waiting = self.devices[device].sent.len();
            if waiting > 0 && self.random.chance(self.rates.takes) {
                let at = if self.random.chance(50) { 0 } else { self.random.below(waiting) };
                self.take(device, at);
            }
        }
    }

    // ---- a call, its answers, and what they tell

    fn call(&mut self, call: Call) -> Result<(), String> {
        let settled: Vec<Entry> = self.order.settled().to_vec();
        let lines = self.say(&call.line())?;
        let mut answers = Vec::new();
        for line in &lines {
            answers.push(Answer::read(line).ok_or(format!("an answer of no known form: `{line}`"))?);
        }
        self.seen(Seen::Calls);
        self.tell(&call, &answers, &lines)?;
        self.order.move_bar();

        self.order.serial_run(self.devices.len(), true)?;
        let serial = self.order.serial_run(self.devices.len(), false)?;
        if self.order.bar < settled.len() || self.order.entries[..settled.len()] != settled[..] {
            return Err(format!("the settled part was {settled:?} and is now {:?}", self.order.settled()));
        }
        self.counts[Seen::Settled as usize] += (self.order.bar - settled.len()) as u64;
        for (device, &(up, setting)) in serial.iter().enumerate() {
            if up == self.devices[device].failed {
                return Err(format!("in the serial run device {device} is {}", if up { "up" } else { "down" }));
            }
            let line = self.device_lines[device];
            if line != up.then_some(setting) {
                return Err(format!("device {device}: the serial run gives up {up}, {setting}; the line of the device says {line:?}"));
            }
        }
        if self.running.is_empty() {
            self.end_state(&serial)?;
        }
        Ok(())
    }

    /// No routine runs: each working device, whatever it still takes, ends at the serial run's setting once every setting
    /// put back is carried out, that is, taken or overtaken.
    fn end_state(&mut self, serial: &[(bool, i64)]) -> Result<(), String> {
        for (device, it) in self.devices.iter().enumerate() {
            if it.failed {
                continue;
            }
            let last_back = it.sent.iter().rposition(|sent| sent.is_back);
            let mut ends: Vec<i64> = it.sent[last_back.unwrap_or(0)..].iter().map(|sent| sent.setting).collect();
            if last_back.is_none() {
                ends.push(it.actual);
            }
            if let Some(end) = ends.iter().find(|&&end| end != serial[device].1) {
                return Err(format!("no routine runs; device {device} may end at {end}, the serial run gives {}", serial[device].1));
            }
        }
        self.seen(Seen::EndStates);
        Ok(())
    }

    fn routine(&mut self, id: u64) -> Result<&mut Routine, String> {
        self.running.get_mut(&id).ok_or(format!("routine {id} is answered for, but does not run"))
    }

    /// The first routine ahead that gives the next command of this one a cause to wait, and whether only by what it has done.
    fn awaited(&self, id: u64) -> Result<Option<(u64, bool)>, String> {
        let Some(command) = self.running.get(&id).and_then(|routine| routine.left.front()) else { return Ok(None) };
        let ahead = &self.order.entries[..self.order.place_of(id)?];
        Ok(ahead.iter().filter(|entry| entry.runs()).find_map(|entry| {
            let Entry::Routine { id, .. } = entry else { return None };
            let unfinished = self.running[id].left.iter().any(|left| left.device == command.device);
            let done = command.tag == CONDITION && entry.has_done(command.device);
            (unfinished || done).then_some((*id, !unfinished))
        }))
    }

    /// The next command of the routine is answered: it is left no longer, and its device is begun.
    fn answered(&mut self, id: u64, how: How) -> Result<Command, String> {
        let routine = self.routine(id)?;
        let command = routine.left.pop_front().ok_or(format!("routine {id} has no command left to answer"))?;
        routine.begun.insert(command.device);
        self.order.answered(id, command, how)?;
        Ok(command)
    }

    /// A turn of this routine, which has commands left and none in flight, was answered with this; only an abort is still to be told.
    fn turned(&mut self, id: u64, answer: &Answer) -> Result<(), String> {
        let awaited = self.awaited(id)?;
        let routine = self.routine(id)?;
        let unexpected = |why: &str| Err(format!("the turn of {id} is answered with {answer:?}: {why}"));
        let next = if routine.flight.is_none() { routine.left.front().copied() } else { None };
        let Some(command) = next else { return unexpected("it has no command left, or one in flight") };
        let tag = routine.deciding_tag(command);
        let down = self.devices[command.device].failed;
        let at = self.order.place_of(id)?;
        let dropped = is_dropped(self.order.entries[at].commands(), command);
        let is_condition = command.tag == CONDITION;
        if let Answer::Wait { on, .. } = answer {
            if awaited.map(|(first, _)| first) != Some(*on) {
                return unexpected(&format!("it must wait on {awaited:?}"));
            }
            if awaited.is_some_and(|(_, done)| done) {
                self.seen(Seen::WaitsForDoneSetting);
            }
            return Ok(());
        }
        if awaited.is_some() {
            return unexpected(&format!("it must wait on {awaited:?}"));
        }
        match answer {
            Answer::Send { device, setting, .. } => {
                if (command.device, command.setting) != (*device, *setting) || is_condition || down || dropped {
                    return unexpected("not that command, or it is not to be sent");
                }
                let ticket = self.send(*device, *setting, false)?;
                let routine = self.routine(id)?;
                routine.begun.insert(*device);
                routine.flight = Some(Flight { device: *device, ticket });
            }
            Answer::Held { .. } | Answer::NotHeld { .. } => {
                if !is_condition || down {
                    return unexpected("no condition, or its device is down");
                }
                let (how, seen) = match answer {
                    Answer::Held { .. } => (How::Held, Seen::Held),
                    _ => (How::NotHeld, Seen::NotHeld),
                };
                self.outcome(id, command)?;
                self.answered(id, how)?;
                self.seen(seen);
            }
            Answer::Skipped { back, .. } if dropped && back.is_empty() => {
                self.answered(id, How::SkippedAfterCondition)?;
                self.seen(if down { Seen::SkippedAfterConditionDown } else { Seen::SkippedAfterCondition });
                let skipped = |(before, how): &(Command, How)| before.place + 1 == command.place && *how != How::NotHeld;
                if self.order.entries[at].commands().iter().any(skipped) {
                    self.seen(Seen::SkippedAfterSkippedCondition);
                }
            }
            Answer::Skipped { back, .. } if down && tag == BEST_EFFORT && back.is_empty() => {
                self.answered(id, How::SkippedAsDown)?;
                self.seen(if is_condition { Seen::ConditionSkippedAsDown } else { Seen::SkippedAsDown });
            }
            Answer::Aborted { .. } if down && tag == MUST && !dropped => {
                if is_condition {
                    self.seen(Seen::ConditionAborted);
                }
            }
            _ => return unexpected("the rules give something else"),
        }
        Ok(())
    }

    /// Notes what decides the outcome of a condition.
    fn outcome(&mut self, id: u64, command: Command) -> Result<(), String> {
        let at = self.order.place_of(id)?;
        let own = self.order.entries[at].has_done(command.device);
        if !own && self.order.is_restarted(id, command.device)? {
            self.seen(Seen::DecidedByRestart);
        }
        if self.order.entries[self.order.bar..at].iter().any(|entry| !entry.runs() && entry.has_done(command.device)) {
            self.seen(Seen::BehindCommitted);
        }
        // The device's line is its due setting.
        if self.device_lines[command.device] == Some(command.setting) {
            self.seen(Seen::AtTheNumber);
        }
        Ok(())
    }

    fn tell(&mut self, call: &Call, answers: &[Answer], lines: &[String]) -> Result<(), String> {
        let unexpected = || Err(format!("`{}` is answered with {lines:?}", call.line()));
        match (call, answers) {
            (Call::Late { done, number, .. }, _) => {
                if lines != [format!("refused {number}")] {
                    return unexpected();
                }
                self.seen(match (number, done) {
                    (12, true) => Seen::LateDone12,
                    (12, false) => Seen::LateFailed12,
                    (_, true) => Seen::LateDone10,
                    (_, false) => Seen::LateFailed10,
                });
            }
            (Call::Idle(_), [Answer::Refused | Answer::Unread]) => self.seen(Seen::Refusals),
            (Call::Idle(_), _) | (_, [Answer::Unread]) => return unexpected(),
            (_, [Answer::Refused]) => {
                // Refused calls tell nothing.
                self.seen(Seen::Refusals);
                if lines[0] == "refused 8" {
                    self.seen(Seen::FullSequence);
                }
            }
            (Call::Submit(commands), [Answer::Placed { id, after }]) => {
                if self.running.contains_key(id) || self.order.place_of(*id).is_ok() {
                    return unexpected();
                }
                self.order.insert(Entry::Routine { id: *id, commands: Vec::new(), committed: false }, *after)?;
                if self.order.entries[self.order.place_of(*id)? + 1..].iter().any(Entry::is_routine) {
                    self.seen(Seen::PlacedAhead);
                }
                self.running.insert(*id, Routine::new(commands));
            }
            (
                Call::Turn(id),
                [answer @ (Answer::Wait { id: same, .. }
                | Answer::Send { id: same, .. }
                | Answer::Held { id: same }
                | Answer::NotHeld { id: same }
                | Answer::Skipped { id: same, .. })],
            ) if id == same => self.turned(*id, answer)?,
            (Call::Turn(id), [answer @ Answer::Aborted { id: same, back }]) if id == same => {
                self.turned(*id, answer)?;
                self.aborted(*id, back)?;
            }
            (Call::Turn(id), [Answer::Committed { id: same }]) if id == same => {
                let routine = self.routine(*id)?;
                if !routine.left.is_empty() {
                    return unexpected();
                }
                self.running.remove(id);
                self.committed.push(*id);
                self.order.commit(*id)?;
                let at = self.order.place_of(*id)?;
                if self.order.entries[..at].iter().any(|e| matches!(e, Entry::Routine { committed: false, .. })) {
                    self.seen(Seen::CommittedBehindRunning);
                }
            }
            (Call::Done(id), [Answer::Done { id: same }]) if id == same => {
                let Some(flight) = self.routine(*id)?.flight.take() else { return unexpected() };
                // The premise: a report says done only if the device took the command.
                assert!(self.taken.contains(&flight.ticket), "this test broke the premise of a done report");
                self.answered(*id, How::Done)?;
            }
            (Call::Failed(id), [Answer::Skipped { id: same, back }]) if id == same => {
                self.never_taken(*id)?;
                if self.answered(*id, How::ReportedFailed)?.tag != BEST_EFFORT {
                    return unexpected();
                }
                self.put_back(back, Seen::BackBySkip)?;
            }
            (Call::Failed(id), [Answer::Aborted { id: same, back }]) if id == same => {
                self.never_taken(*id)?;
                self.aborted(*id, back)?;
            }
            (Call::Cancel(id), [Answer::Aborted { id: same, back }]) if id == same => self.aborted(*id, back)?,
            (Call::Failure(device), [before @ .., Answer::Down { device: same, after }]) if device == same && before.len() <= 1 => {
                // What was sent before is over, and the device has any setting.
                self.devices[*device].sent.clear();
                if self.random.chance(60) {
                    let any = self.random.between(-1000, 1000);
                    let other = if self.random.chance(50) { *self.random.pick(&self.rates.settings) } else { any };
                    if other != self.devices[*device].actual {
                        self.seen(Seen::FailureLeavesOther);
                    }
                    self.devices[*device].actual = other;
                }
                if self.running.values().any(|routine| routine.flight.is_some_and(|flight| flight.device == *device)) {
                    self.seen(Seen::FailureInFlight);
                }
                self.devices[*device].failed = true;
                match before {
                    [] => {}
                    [Answer::Aborted { id, back }] if self.has_must_left(*id, *device)? => {
                        self.aborted(*id, back)?;
                        self.seen(Seen::AbortByFailure);
                    }
                    _ => return unexpected(),
                }
                self.skipped(*device, Seen::SkippedByFailure)?;
                self.order.insert(Entry::Failure(*device), *after)?;
            }
            (Call::Restart(device, setting), [before @ .., Answer::Up { device: same, after }]) if device == same && before.len() <= 1 => {
                // The premise: a restart reports the setting that the device has.
                assert_eq!(self.devices[*device].actual, *setting, "this test broke the premise of a restart");
                match before {
                    [] => {}
                    [Answer::Aborted { id, back }] if self.has_must_left(*id, *device)? => {
                        self.aborted(*id, back)?;
                        self.seen(Seen::AbortByRestart);
                    }
                    _ => return unexpected(),
                }
                if self.order.serial_run(self.devices.len(), false)?[*device].1 != *setting {
                    self.seen(Seen::RestartAtOther);
                }
                self.skipped(*device, Seen::SkippedByRestart)?;
                self.devices[*device].failed = false;
                self.order.insert(Entry::Restart(*device, *setting), *after)?;
            }
            _ => return unexpected(),
        }
        Ok(())
    }

    /// The premise: a report says failed only if the device did not take the command, and it never will.
    fn never_taken(&mut self, id: u64) -> Result<(), String> {
        let flight = self.routine(id)?.flight.take().ok_or(format!("a report on {id} is accepted with none in flight"))?;
        assert!(!self.taken.contains(&flight.ticket), "this test broke the premise of a failed report");
        self.devices[flight.device].sent.retain(|sent| sent.ticket != flight.ticket);
        Ok(())
    }

    /// It has begun the device, and a must is left on it, or a condition before a must.
    fn has_must_left(&mut self, id: u64, device: usize) -> Result<bool, String> {
        let routine = self.routine(id)?;
        let must = |command: &Command| command.device == device && routine.deciding_tag(*command) == MUST;
        Ok(routine.begun.contains(&device) && routine.left.iter().any(must))
    }

    /// An event of this device: each routine that runs, has begun it and has commands left on it loses them.
    fn skipped(&mut self, device: usize, seen: Seen) -> Result<(), String> {
        let ids: Vec<u64> = self.running.keys().copied().collect();
        for id in ids {
            let routine = self.routine(id)?;
            let places: Vec<usize> = (0..routine.left.len()).filter(|&i| routine.left[i].device == device).collect();
            let (Some(first), Some(last)) = (places.first(), places.last()) else { continue };
            if !routine.begun.contains(&device) {
                continue;
            }
            if places.iter().any(|&i| routine.deciding_tag(routine.left[i]) == MUST) {
                return Err(format!("routine {id} goes on, a must left on device {device}, which has an event"));
            }
            let flight = routine.flight.take_if(|flight| flight.device == device);
            let gone: Vec<Command> = places.iter().map(|&i| routine.left[i]).collect();
            routine.left.retain(|command| command.device != device);
            let to_the_end = routine.left.is_empty();
            if let Some(flight) = flight {
                let done = self.taken.contains(&flight.ticket);
                self.late.push(Late { id, device, done });
                self.seen(Seen::FlightSkipped);
            }
            for command in gone {
                self.order.answered(id, command, How::SkippedByEvent)?;
                if command.tag == CONDITION {
                    self.seen(match seen {
                        Seen::SkippedByFailure => Seen::ConditionSkippedByFailure,
                        _ => Seen::ConditionSkippedByRestart,
                    });
                }
            }
            for _ in usize::from(flight.is_some())..places.len() {
                self.seen(seen);
            }
            if last - first >= places.len() {
                self.seen(Seen::SkippedApart);
            }
            if to_the_end {
                self.seen(Seen::SkippedToTheEnd);
            }
        }
        Ok(())
    }

    /// The server has one of the late reports: it drops it if another command of the routine is in flight.
    fn late_report(&mut self) -> Option<Call> {
        let flying = self.late.iter().position(|late| self.running.get(&late.id).is_some_and(|routine| routine.flight.is_some()));
        let at = flying.unwrap_or(self.random.below(self.late.len()));
        let Late { id, device, done } = self.late[at];
        if self.random.chance(30) {
            self.late.swap_remove(at); // else it comes again
        }
        let number = match self.running.get(&id) {
            None => 10,
            Some(Routine { flight: None, .. }) => 12,
            Some(_) => {
                if self.shown {
                    println!("        (a late report on {id}, device {device}, done: {done}, is dropped)");
                }
                self.seen(if done { Seen::LateDoneDropped } else { Seen::LateFailedDropped });
                return None;
            }
        };
        Some(Call::Late { id, done, number })
    }

    fn put_back(&mut self, back: &[Back], seen: Seen) -> Result<(), String> {
        for &(device, setting) in back {
            self.send(device, setting, true)?;
            self.seen(seen);
        }
        Ok(())
    }

    fn aborted(&mut self, id: u64, back: &[Back]) -> Result<(), String> {
        self.routine(id)?;
        if self.order.entries[self.order.place_of(id)? + 1..].iter().any(Entry::has_outcome) {
            self.seen(Seen::AbortAheadOfOutcome);
        }
        self.running.remove(&id);
        self.order.remove(id)?;
        self.put_back(back, Seen::BackByAbort)
    }

    // ---- what is called

    fn commands(&mut self) -> Vec<Command> {
        // Few devices, so that routines meet on them.
        let mut devices: Vec<usize> = (0..self.devices.len().min(6)).collect();
        let mut best_effort = self.rates.best_effort;
        if self.random.chance(self.rates.lamps) {
            devices = vec![*self.random.pick(&devices), *self.random.pick(&devices)];
            best_effort = 85;
        }
        let mut commands: Vec<Command> = (0..self.random.between(1, self.rates.most_commands) as usize)
            .map(|place| Command {
                place,
                device: *self.random.pick(&devices),
                tag: u8::from(self.random.chance(best_effort)),
                setting: *self.random.pick(&self.rates.settings),
            })
            .collect();
        // Conditions: not last, and none before another.
        for at in 1..commands.len() {
            if (at < 2 || commands[at - 2].tag != CONDITION) && self.random.chance(self.rates.conditions) {
                let number = self.random.pick(&self.rates.settings) + self.random.between(-1, 1);
                commands[at - 1] = Command { tag: CONDITION, setting: number.clamp(-1000, 1000), ..commands[at - 1] };
            }
        }
        commands
    }

    /// A turn or a report of this routine that keeps to the premise.
    fn advance(&mut self, id: u64) -> Call {
        let Some(flight) = self.running[&id].flight else { return Call::Turn(id) };
        if self.taken.contains(&flight.ticket) {
            return Call::Done(id);
        }
        let place = self.devices[flight.device].sent.iter().position(|sent| sent.ticket == flight.ticket);
        match place {
            Some(at) if !self.to_fail.contains(&id) && !self.random.chance(self.rates.reported_failed) => {
                self.take(flight.device, at);
                Call::Done(id)
            }
            // Passed over, or not to be taken from now on.
            _ => Call::Failed(id),
        }
    }

    /// A routine that set a device, to be cancelled while a best-effort command of another is in flight there. If that one
    /// then fails, its device must be sent a setting.
    fn cancel_ahead(&mut self) -> Option<u64> {
        let mut found = Vec::new();
        for (&flying, routine) in &self.running {
            let Some(flight) = routine.flight else { continue };
            if routine.left[0].tag == MUST || self.taken.contains(&flight.ticket) {
                continue;
            }
            for entry in &self.order.entries {
                if let Entry::Routine { id, committed: false, .. } = entry {
                    if *id != flying && entry.has_done(flight.device) {
                        found.push((flying, *id));
                    }
                }
            }
        }
        let &(flying, id) = if found.is_empty() { return None } else { self.random.pick(&found) };
        self.to_fail.insert(flying);
        Some(id)
    }

    fn any_running(&mut self) -> Option<u64> {
        let ids: Vec<u64> = self.running.keys().copied().collect();
        (!ids.is_empty()).then(|| *self.random.pick(&ids))
    }

    /// A line that must change nothing.
    fn idle(&mut self) -> Call {
        let count = self.devices.len();
        let device = self.random.below(count);
        let not_flying: Vec<u64> = self.running.iter().filter(|(_, r)| r.flight.is_none()).map(|(id, _)| *id).collect();
        let flying: Vec<u64> = self.running.iter().filter(|(_, r)| r.flight.is_some()).map(|(id, _)| *id).collect();
        let ended = if self.committed.is_empty() { 0 } else { *self.random.pick(&self.committed) };
        let setting = self.random.between(-1000, 1000);
        Call::Idle(match self.random.below(11) {
            0 if !not_flying.is_empty() => format!("{} {}", self.random.pick(&["D", "B"]), self.random.pick(&not_flying)),
            1 if !flying.is_empty() => format!("N {}", self.random.pick(&flying)),
            2 => format!("{} {ended}", self.random.pick(&["N", "D", "B", "C"])),
            3 if self.devices[device].failed => format!("F {device}"),
            3 => format!("R {device} {setting}"),
            4 => format!("R {} {setting}", self.random.between(count as i64, 255)),
            5 if self.devices[device].failed => format!("R {device} {}", self.random.pick(&[1001, -1001, 32767])),
            6 => format!("S {device} 0 {}", self.random.pick(&[1001, -1001])),
            7 => format!("S {device} 0 5 {count} 1 7"),
            // Tags above 2, and conditions that are last or before another.
            10 => format!("S {device} {}", self.random.pick(&["3 5", "2 5", "0 5 0 2 7", "2 5 0 2 6 0 0 7", "2 5 0 3 7"])),
            8 => self.random.pick(&["O 0 0 1", "O 33 1 1", "O 3 9 1", "O 3 0 0", "S"]).to_string(),
            _ => self.random.pick(&["", " ", "N", "D 1 ", "F -1", "C 4294967296", "S 0 0", "X 1", "O 1 1"]).to_string(),
        })
    }

    fn step(&mut self) -> Result<(), String> {
        self.some_take();
        if self.random.chance(self.rates.cancels_ahead) {
            if let Some(id) = self.cancel_ahead() {
                return self.call(Call::Cancel(id));
            }
        }
        if !self.late.is_empty() && self.random.chance(self.rates.late) {
            if let Some(call) = self.late_report() {
                return self.call(call);
            }
        }
        let device = self.random.below(self.devices.len().min(6));
        let (mut roll, rates) = (self.random.below(100), &self.rates);
        let mut turn_of = |share: usize| {
            let now = roll < share;
            roll = roll.wrapping_sub(share);
            now
        };
        let call = if self.running.len() < rates.most_running && turn_of(rates.submissions) {
            Call::Submit(self.commands())
        } else if turn_of(rates.failures) {
            match &self.devices[device] {
                // More often than not a device with something in flight fails.
                Device { failed: true, actual, .. } => Call::Restart(device, *actual),
                _ => {
                    let flying: Vec<usize> = self.running.values().filter_map(|r| r.flight).map(|flight| flight.device).collect();
                    Call::Failure(if flying.is_empty() || self.random.chance(40) { device } else { *self.random.pick(&flying) })
                }
            }
        } else if turn_of(rates.idle) {
            self.idle()
        } else {
            let cancel = turn_of(rates.cancels);
            match self.any_running() {
                None => Call::Submit(self.commands()),
                Some(id) if cancel => Call::Cancel(id),
                Some(id) => self.advance(id),
            }
        };
        self.call(call)
    }

    /// The whole history: so many lines, then on until no routine runs and every setting put back is carried out.
    fn run(&mut self) -> Result<(), String> {
        self.open()?;
        for _ in 1..self.rates.lines {
            self.step()?;
        }
        for tried in 0.. {
            self.some_take();
            let Some(id) = self.any_running() else { break };
            if !self.late.is_empty() && self.random.chance(self.rates.late) {
                if let Some(call) = self.late_report() {
                    self.call(call)?;
                }
            }
            let down = self.devices.iter().position(|device| device.failed);
            match down {
                Some(device) if self.random.chance(10) => self.call(Call::Restart(device, self.devices[device].actual))?,
                // A routine that is cancelled is over, so this loop ends.
                _ if tried > 60 || self.random.chance(self.rates.cancels) => {
                    self.call(Call::Cancel(id))?;
                    if self.running.contains_key(&id) {
                        return Err(format!("routine {id} runs and cannot be cancelled"));
                    }
                }
                _ => {
                    let call = self.advance(id);
                    self.call(call)?
                }
            }
        }
        let serial = self.order.serial_run(self.devices.len(), false)?;
        self.end_state(&serial)?;
        while let Some(Late { id, done, .. }) = self.late.pop() {
            self.call(Call::Late { id, done, number: 10 })?;
        }
        // The same with devices that do it: each takes until nothing put back is left, then perhaps one more.
        for device in 0..self.devices.len() {
            while let Some(last) = self.devices[device].sent.iter().rposition(|sent| sent.is_back) {
                let at = self.random.below(last + 1);
                self.take(device, at);
            }
            if !self.devices[device].sent.is_empty() && self.random.chance(50) {
                self.take(device, 0);
            }
            let (it, line, end) = (&self.devices[device], self.device_lines[device], serial[device].1);
            if !it.failed && (it.actual != end || line != Some(end)) {
                return Err(format!("device {device} ends at {}, the serial run at {end}, its line says {line:?}", it.actual));
            }
        }
        Ok(())
    }
}

// ---- the program

fn run(seed: u64, index: u64, shown: bool) -> Result<Counts, (String, Vec<u8>)> {
    let mut world = World::new(seed, index, shown);
    match world.run() {
        Ok(()) => Ok(world.counts),
        Err(how) => Err((how, world.input)),
    }
}

fn main() -> ExitCode {
    let words: Vec<String> = std::env::args().skip(1).collect();
    if words.first().map(|word| word.as_str()) == Some("one") {
        return match run(number(words.get(1), "SEED"), number(words.get(2), "INDEX"), true) {
            Ok(_) => {
                println!("world: holds");
                ExitCode::SUCCESS
            }
            Err((how, _)) => {
                println!("world: FAILED: {how}");
                ExitCode::FAILURE
            }
        };
    }
    let (count, seed) = (number(words.first(), "COUNT"), number(words.get(1), "SEED"));
    println!("world: {count} histories, seed {seed}");
    let mut total: Counts = [0; SEEN.len()];
    let add = |counts: Counts| total.iter_mut().zip(counts).for_each(|(sum, more)| *sum += more);
    run_all("world", count, seed, |seed, index| run(seed, index, false), add);
    let mut reached = true;
    for (what, words) in SEEN {
        println!("world: {:>9} {words}", total[what as usize]);
        // Histories that never come to one of these would show little.
        reached &= total[what as usize] > 0 || count < 2000;
    }
    if !reached {
        println!("world: FAILED: something above never happened");
        return ExitCode::FAILURE;
    }
    println!("world: demand 3 holds in {count} histories");
    ExitCode::SUCCESS
}
