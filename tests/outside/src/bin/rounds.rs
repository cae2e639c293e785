//! Document 02's waiting promise (item 1, "Nobody waits for ever") tried on the line program of the archive.
//!
//!     rounds COUNT SEED        so many random schedules
//!     rounds one SEED INDEX    one of them, with every line and answer
//!
//! A schedule begins after a history of any calls, failures, restarts and cancels among them. Then come rounds, in each of
//! them one turn for each routine that runs and has nothing in flight, in any order, and then a done or failed report for
//! each command in flight, in any order; submissions between them; and refused calls anywhere. Which routines run and what
//! is in flight is known from the answers alone; a command in flight that a failure skips (item 3) is so no longer, and no
//! answer says so. A condition (item 4) takes one turn and is never in flight. This program checks that
//!   - no such turn and no such report is refused, and each is answered for its routine;
//!   - each routine placed since the rounds began has ended after (8 + 1) x (16 + K) rounds.
//! It prints the largest share of these rounds that a routine needed.

use outside::{archive, number, run_all, Answer, Random};
use std::collections::BTreeMap;
use std::process::ExitCode;

const MOST_COMMANDS: u64 = 8;
const MOST_HELD: u64 = 16;
const HIGHEST_PASS_LIMIT: u64 = 8;

/// A routine that runs.
struct Routine {
    /// The device of its command in flight.
    flying: Option<usize>,
    /// It was placed after so many rounds; none if that was before the rounds began.
    placed: Option<u64>,
}

/// How often something happened that schedules must reach for the checks to say anything.
#[derive(Clone, Copy)]
enum Seen {
    Rounds,
    Placed,
    Ended,
    Waits,
    Refusals,
    FullSequence,
    AbortedByReport,
    AbortedAsDown,
    Skipped,
    Held,
    NotHeld,
    FlyingAtStart,
    DownAtStart,
    SkippedBefore,
}

const SEEN: [(Seen, &str); 14] = [
    (Seen::Rounds, "rounds"),
    (Seen::Placed, "routines placed since the rounds began"),
    (Seen::Ended, "of them ended"),
    (Seen::Waits, "turns that wait"),
    (Seen::Refusals, "refused calls in between"),
    (Seen::FullSequence, "submissions refused by a full sequence"),
    (Seen::AbortedByReport, "aborts by a failed report"),
    (Seen::AbortedAsDown, "aborts by a turn, a device being down"),
    (Seen::Skipped, "commands skipped by a turn"),
    (Seen::Held, "conditions held"),
    (Seen::NotHeld, "conditions not held"),
    (Seen::FlyingAtStart, "schedules that begin with a command in flight"),
    (Seen::DownAtStart, "schedules that begin with a device down"),
    (Seen::SkippedBefore, "commands in flight skipped by a failure before the rounds"),
];

/// How many rounds a routine needed, of how many.
#[derive(Clone, Copy)]
struct Need {
    rounds: u64,
    of: u64,
    index: u64,
}

impl Need {
    fn exceeds(&self, other: &Need) -> bool {
        self.rounds * other.of > other.rounds * self.of
    }
}

struct Told {
    counts: [u64; SEEN.len()],
    most: Need,
}

/// What a schedule does how often, in a hundred.
struct Rates {
    before: i64,
    rounds_with_submissions: u64,
    submissions: usize,
    refusals: usize,
    best_effort: usize,
    /// Conditions, where one may stand.
    conditions: usize,
    reported_failed: usize,
    least_commands: i64,
    used_devices: usize,
}

struct Schedule {
    random: Random,
    rates: Rates,
    index: u64,
    device_count: usize,
    pass_limit: u64,
    input: Vec<u8>,
    output: Vec<u8>,
    /// How much of the output stands for the lines so far; what comes behind it are the lines of the devices.
    printed: usize,
    running: BTreeMap<u64, Routine>,
    down: Vec<bool>,
    rounds: Option<u64>,
    told: Told,
    shown: bool,
}

impl Schedule {
    fn new(seed: u64, index: u64, shown: bool) -> Schedule {
        let mut random = Random::new(seed, index);
        // One in twelve is crowded: a full sequence of full routines on one device, all done, and newcomers all the time.
        let crowded = index % 12 == 0;
        let device_count = if crowded { 1 } else { random.between(1, 6) as usize };
        let pass_limit = random.below(HIGHEST_PASS_LIMIT as usize + 1) as u64;
        let rates = if crowded {
            Rates {
                before: 0,
                rounds_with_submissions: (MOST_COMMANDS + 1) * (MOST_HELD + pass_limit),
                submissions: 100,
                refusals: 0,
                best_effort: 0,
                // Every other one has as many as there can be: each routine then waits for the one ahead to commit.
                conditions: if index % 24 == 0 { 0 } else { 100 },
                reported_failed: 0,
                least_commands: MOST_COMMANDS as i64,
                used_devices: 1,
            }
        } else {
            Rates {
                before: random.between(0, 60),
                rounds_with_submissions: random.between(5, 60) as u64,
                submissions: *random.pick(&[10, 40, 80, 100]),
                refusals: *random.pick(&[0, 5, 20]),
                best_effort: *random.pick(&[10, 50, 90]),
                conditions: *random.pick(&[0, 20, 60]),
                reported_failed: *random.pick(&[0, 5, 30]),
                least_commands: *random.pick(&[1, 1, 4, MOST_COMMANDS as i64]),
                used_devices: random.between(1, device_count as i64) as usize,
            }
        };
        Schedule {
            random,
            rates,
            index,
            device_count,
            pass_limit,
            input: Vec::new(),
            output: vec![0; 1 << 16],
            printed: 0,
            running: BTreeMap::new(),
            down: vec![false; device_count],
            rounds: None,
            told: Told { counts: [0; SEEN.len()], most: Need { rounds: 0, of: 1, index } },
            shown,
        }
    }

    fn seen(&mut self, what: Seen) {
        self.told.counts[what as usize] += 1;
    }

    /// The promise: "9 x (16 + K) rounds".
    fn enough(&self) -> u64 {
        (MOST_COMMANDS + 1) * (MOST_HELD + self.pass_limit)
    }

    /// Appends lines to the input and runs it all. Ok: the lines printed for the new ones.
    fn say(&mut self, lines: &[String]) -> Result<Vec<String>, String> {
        let before = self.output[..self.printed].to_vec();
        for line in lines {
            self.input.extend_from_slice(line.as_bytes());
            self.input.push(10);
        }
        let length = archive::run_in(&self.input, &mut self.output)?;
        if length < before.len() || self.output[..before.len()] != before[..] {
            return Err("the lines for the same input before are others now".to_string());
        }
        let text = std::str::from_utf8(&self.output[before.len()..length]).map_err(|_| "the output is no text".to_string())?;
        let mut new: Vec<String> = text.split_terminator('\n').map(str::to_string).collect();
        if !text.ends_with('\n') || new.len() < lines.len() + self.device_count {
            return Err(format!("too few lines of output for {lines:?}: {new:?}"));
        }
        let device_lines = new.split_off(new.len() - self.device_count);
        self.printed = length - device_lines.iter().map(|line| line.len() + 1).sum::<usize>();
        if self.shown {
            println!("{}\n        {}", lines.join("\n"), new.join("\n        "));
        }
        Ok(new)
    }

    /// Lines that get one line of output each.
    fn ask(&mut self, lines: &[String]) -> Result<Vec<Answer>, String> {
        let printed = self.say(lines)?;
        if printed.len() != lines.len() {
            return Err(format!("{} lines are answered with {}", lines.len(), printed.len()));
        }
        printed.iter().map(|line| Answer::read(line).ok_or(format!("an answer of no known form: `{line}`"))).collect()
    }

    // ---- what the answers tell

    fn routine(&mut self, id: u64) -> Result<&mut Routine, String> {
        self.running.get_mut(&id).ok_or(format!("routine {id} is answered for, but does not run"))
    }

    fn ends(&mut self, id: u64, round: u64) -> Result<(), String> {
        let routine = self.running.remove(&id).ok_or(format!("routine {id} ends, but does not run"))?;
        if let Some(placed) = routine.placed {
            let need = Need { rounds: round - placed, of: self.enough(), index: self.index };
            if need.exceeds(&self.told.most) {
                self.told.most = need;
            }
            self.seen(Seen::Ended);
        }
        Ok(())
    }

    /// An event of the device: what is in flight on it, of a routine that still runs, is skipped.
    fn skipped(&mut self, device: usize) {
        let flying = self.running.values_mut().filter_map(|routine| routine.flying.take_if(|on| *on == device));
        let count = flying.count() as u64;
        self.told.counts[Seen::SkippedBefore as usize] += count;
    }

    /// One answer. `round`: the number of the round that it falls into, or that ended last.
    fn tell(&mut self, answer: &Answer, round: u64) -> Result<(), String> {
        match answer {
            Answer::Placed { id, .. } => {
                let placed = self.rounds;
                if placed.is_some() {
                    self.seen(Seen::Placed);
                }
                if self.running.insert(*id, Routine { flying: None, placed }).is_some() {
                    return Err(format!("routine {id} is placed twice"));
                }
            }
            Answer::Wait { id, .. } => {
                self.routine(*id)?;
                self.seen(Seen::Waits);
            }
            Answer::Held { id } => {
                self.routine(*id)?;
                self.seen(Seen::Held);
            }
            Answer::NotHeld { id } => {
                self.routine(*id)?;
                self.seen(Seen::NotHeld);
            }
            Answer::Send { id, device, .. } => self.routine(*id)?.flying = Some(*device),
            Answer::Done { id } | Answer::Skipped { id, .. } => self.routine(*id)?.flying = None,
            Answer::Committed { id } | Answer::Aborted { id, .. } => self.ends(*id, round)?,
            Answer::Down { device, .. } => {
                self.down[*device] = true;
                self.skipped(*device);
            }
            Answer::Up { device, .. } => {
                self.down[*device] = false;
                self.skipped(*device);
            }
            Answer::Refused => {}
            Answer::Unread => return Err("a line is unread".to_string()),
        }
        Ok(())
    }

    // ---- lines

    fn submission(&mut self) -> String {
        let mut line = "S".to_string();
        let count = self.random.between(self.rates.least_commands, MOST_COMMANDS as i64);
        let mut before = 0;
        for at in 1..=count {
            let device = self.random.below(self.rates.used_devices);
            // A condition is not last, and not before another.
            let condition = at < count && before != 2 && self.random.chance(self.rates.conditions);
            let tag = if condition { 2 } else { u8::from(self.random.chance(self.rates.best_effort)) };
            line += &format!(" {device} {tag} {}", self.random.between(-1000, 1000));
            before = tag;
        }
        line
    }

    fn shuffled(&mut self, mut ids: Vec<u64>) -> Vec<u64> {
        for at in (1..ids.len()).rev() {
            ids.swap(at, self.random.below(at + 1));
        }
        ids
    }

    /// The ids of the running routines that have a command in flight, or of those that have none.
    fn those(&self, flying: bool) -> Vec<u64> {
        self.running.iter().filter(|(_, routine)| routine.flying.is_some() == flying).map(|(id, _)| *id).collect()
    }

    fn report(&mut self, id: u64) -> String {
        format!("{} {id}", if self.random.chance(self.rates.reported_failed) { "B" } else { "D" })
    }

    /// A line that is refused whenever it comes. `flying`: routines whose command stays in flight meanwhile.
    fn refusal(&mut self, flying: &[u64]) -> String {
        let device = self.random.below(self.device_count);
        match self.random.below(6) {
            0 if !flying.is_empty() => format!("N {}", self.random.pick(flying)),
            1 if self.down[device] => format!("F {device}"),
            1 => format!("R {device} 5"),
            2 => format!("{} 0", self.random.pick(&["N", "D", "B", "C"])),
            3 => format!("R {} 0", self.device_count),
            4 => self.random.pick(&["S 0 0 1001", "S 0 3 5", "S 0 2 5", "S 0 2 5 0 2 5 0 0 5"]).to_string(),
            _ => "S".to_string(),
        }
    }

    // ---- the parts of a history

    fn open(&mut self) -> Result<(), String> {
        let first = self.random.between(1, 9);
        let line = format!("O {} {} {first}", self.device_count, self.pass_limit);
        match &self.say(&[line])?[..] {
            [opened] if opened == "opened" => Ok(()),
            other => Err(format!("the opening is answered with {other:?}")),
        }
    }

    /// Any call.
    fn any_call(&mut self) -> Result<(), String> {
        let device = self.random.below(self.device_count);
        let any: Vec<u64> = self.running.keys().copied().collect();
        let flown: Vec<usize> = self.running.values().filter_map(|routine| routine.flying).collect();
        let line = match self.random.below(100) {
            0..=29 => self.submission(),
            30..=37 if !flown.is_empty() => format!("F {}", self.random.pick(&flown)),
            30..=41 if self.down[device] => format!("R {device} {}", self.random.between(-1000, 1000)),
            30..=35 => format!("F {device}"),
            42..=46 if !any.is_empty() => format!("C {}", self.random.pick(&any)),
            47..=49 => self.refusal(&[]),
            _ if any.is_empty() => self.submission(),
            _ => {
                let id = *self.random.pick(&any);
                if self.running[&id].flying.is_some() {
                    self.report(id)
                } else {
                    format!("N {id}")
                }
            }
        };
        for line in self.say(&[line])? {
            let answer = Answer::read(&line).ok_or(format!("an answer of no known form: `{line}`"))?;
            self.tell(&answer, 0)?;
        }
        Ok(())
    }

    /// One call for each of these ids, and refused calls in between. Each is answered for its id.
    fn half(&mut self, asked: Vec<(u64, String)>, flying: &[u64], round: u64) -> Result<(), String> {
        let mut lines: Vec<(Option<u64>, String)> = Vec::new();
        for (id, line) in asked {
            while self.random.chance(self.rates.refusals) {
                lines.push((None, self.refusal(flying)));
            }
            lines.push((Some(id), line));
        }
        let texts: Vec<String> = lines.iter().map(|(_, line)| line.clone()).collect();
        for ((id, line), answer) in lines.iter().zip(self.ask(&texts)?) {
            let turn = line.starts_with('N');
            match (&answer, id) {
                (Answer::Refused, None) => self.seen(Seen::Refusals),
                (Answer::Wait { id: same, .. } | Answer::Send { id: same, .. }, Some(id)) if turn && id == same => {}
                (Answer::Held { id: same } | Answer::NotHeld { id: same }, Some(id)) if turn && id == same => {}
                (Answer::Committed { id: same }, Some(id)) if turn && id == same => {}
                (Answer::Done { id: same }, Some(id)) if !turn && id == same => {}
                (Answer::Skipped { id: same, .. }, Some(id)) if id == same => {
                    if turn {
                        self.seen(Seen::Skipped);
                    }
                }
                (Answer::Aborted { id: same, .. }, Some(id)) if id == same => {
                    self.seen(if turn { Seen::AbortedAsDown } else { Seen::AbortedByReport });
                }
                _ => return Err(format!("in round {round} `{line}` is answered with {answer:?}")),
            }
            self.tell(&answer, round)?;
        }
        Ok(())
    }

    fn round(&mut self, round: u64) -> Result<(), String> {
        let (idle, flying) = (self.those(false), self.those(true));
        let turns = self.shuffled(idle).into_iter().map(|id| (id, format!("N {id}"))).collect();
        self.half(turns, &flying, round)?;
        let flying = self.those(true);
        let reports = self.shuffled(flying).into_iter().map(|id| (id, self.report(id))).collect();
        self.half(reports, &[], round)?;
        self.rounds = Some(round);
        self.seen(Seen::Rounds);
        let late = self.running.iter().find(|(_, routine)| routine.placed.is_some_and(|placed| round - placed >= self.enough()));
        late.map_or(Ok(()), |(id, _)| Err(format!("routine {id} still runs after {} rounds", self.enough())))
    }

    fn submissions(&mut self, count: usize) -> Result<(), String> {
        let lines: Vec<String> = (0..count).map(|_| self.submission()).collect();
        for answer in self.ask(&lines)? {
            if matches!(answer, Answer::Refused) {
                self.seen(Seen::FullSequence);
            }
            self.tell(&answer, 0)?;
        }
        Ok(())
    }

    /// The whole: any calls, then rounds with submissions between them, then rounds until nothing runs.
    fn run(&mut self) -> Result<(), String> {
        self.open()?;
        for _ in 0..self.rates.before {
            self.any_call()?;
        }
        if !self.those(true).is_empty() {
            self.seen(Seen::FlyingAtStart);
        }
        if self.down.contains(&true) {
            self.seen(Seen::DownAtStart);
        }
        self.rounds = Some(0);
        self.submissions(if self.rates.before == 0 { MOST_HELD as usize } else { 1 })?;
        let mut old = 2 * self.enough();
        for round in 1.. {
            if round <= self.rates.rounds_with_submissions {
                if self.random.chance(self.rates.submissions) {
                    self.submissions(1)?;
                }
            } else if self.running.is_empty() {
                return Ok(());
            } else {
                old -= 1;
                if old == 0 {
                    return Err("routines from before the rounds never end".to_string());
                }
            }
            self.round(round)?;
        }
        Ok(())
    }
}

// ---- the program

fn run(seed: u64, index: u64, shown: bool) -> Result<Told, (String, Vec<u8>)> {
    let mut schedule = Schedule::new(seed, index, shown);
    match schedule.run() {
        Ok(()) => Ok(schedule.told),
        Err(how) => Err((how, schedule.input)),
    }
}

fn main() -> ExitCode {
    let words: Vec<String> = std::env::args().skip(1).collect();
    if words.first().map(|word| word.as_str()) == Some("one") {
        return match run(number(words.get(1), "SEED"), number(words.get(2), "INDEX"), true) {
            Ok(told) => {
                println!("rounds: holds; the longest took {} of {}", told.most.rounds, told.most.of);
                ExitCode::SUCCESS
            }
            Err((how, _)) => {
                println!("rounds: FAILED: {how}");
                ExitCode::FAILURE
            }
        };
    }
    let (count, seed) = (number(words.first(), "COUNT"), number(words.get(1), "SEED"));
    println!("rounds: {count} schedules, seed {seed}");
    let mut total = Told { counts: [0; SEEN.len()], most: Need { rounds: 0, of: 1, index: 0 } };
    let add = |told: Told| {
        total.counts.iter_mut().zip(told.counts).for_each(|(sum, more)| *sum += more);
        if told.most.exceeds(&total.most) {
            total.most = told.most;
        }
    };
    run_all("rounds", count, seed, |seed, index| run(seed, index, false), add);
    let Told { counts, most } = total;
    for (what, words) in SEEN {
        println!("rounds: {:>9} {words}", counts[what as usize]);
    }
    let share = most.rounds as f64 / most.of as f64;
    println!("rounds: the longest took {} of {} rounds, {share:.3} of what is promised (index {})", most.rounds, most.of, most.index);
    // Schedules that never come to one of these, or never near the bound, would show little.
    if count >= 100 && (counts.contains(&0) || share <= 0.5) {
        println!("rounds: FAILED: something above never happened");
        return ExitCode::FAILURE;
    }
    println!("rounds: every routine ended in time in {count} schedules");
    ExitCode::SUCCESS
}
