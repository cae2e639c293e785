//! Inputs for comparisons, from a seed and an index: the same two numbers always give the same bytes.
//!
//! A history is made with the line program running alongside, so that most of its lines meet a routine that runs, a
//! command in flight, a device that is up or down. `random` gives lines of the right shape, refused ones among them;
//! `damaged` gives such histories with faults of all kinds in the bytes.

use crate::hub::{Command, Glance, BEST_EFFORT, CONDITION, LAST_ID, MOST_ROUTINES, MUST};
use crate::line::Program;

// ---- numbers

/// A small generator of pseudo-random numbers (splitmix).
pub struct Random {
    state: u64,
}

impl Random {
    pub fn new(seed: u64, index: u64) -> Random {
        // Mixed twice, so that neighbouring seeds and indexes have nothing in common.
        let mut first = Random { state: seed };
        let mixed = first.draw();
        let mut second = Random { state: mixed ^ index.wrapping_mul(0xD1B5_4A32_D192_ED03) };
        Random { state: second.draw() }
    }

    pub fn draw(&mut self) -> u64 {
        self.state = self.state.wrapping_add(0x9E37_79B9_7F4A_7C15);
        let mut mixed = self.state;
        mixed = (mixed ^ (mixed >> 30)).wrapping_mul(0xBF58_476D_1CE4_E5B9);
        mixed = (mixed ^ (mixed >> 27)).wrapping_mul(0x94D0_49BB_1331_11EB);
        mixed ^ (mixed >> 31)
    }

    /// From 0 up to, not including, a number.
    pub fn below(&mut self, end: usize) -> usize {
        (self.draw() % end as u64) as usize
    }

    /// From one number to another, both included.
    pub fn between(&mut self, from: i64, to: i64) -> i64 {
        from + (self.draw() % (to - from + 1) as u64) as i64
    }

    /// True so many times in a hundred.
    pub fn percent(&mut self, times: usize) -> bool {
        self.below(100) < times
    }

    pub fn pick<'a, T>(&mut self, list: &'a [T]) -> &'a T {
        &list[self.below(list.len())]
    }

    /// The place of one of the weights, each as likely as it is heavy.
    fn weighed(&mut self, weights: &[usize]) -> usize {
        let mut left = self.below(weights.iter().sum());
        for (place, &weight) in weights.iter().enumerate() {
            if left < weight {
                return place;
            }
            left -= weight;
        }
        0
    }
}

// ---- how a sitting goes

/// The actions that the weights of a habit stand for, in this order.
#[derive(Clone, Copy, PartialEq, Eq)]
enum Action {
    Submit,
    Advance,
    Cancel,
    Scene,
    Failure,
    Restart,
    Refused,
    Reopen,
}

const ACTIONS: [Action; 8] = [
    Action::Submit,
    Action::Advance,
    Action::Cancel,
    Action::Scene,
    Action::Failure,
    Action::Restart,
    Action::Refused,
    Action::Reopen,
];

struct Habit {
    weights: [usize; 8],
    /// So many submissions come first.
    first: (i64, i64),
    /// With so many running, most submissions give way to the routines that are there.
    enough: usize,
    most_commands: i64,
    most_devices: i64,
    /// In a hundred: conditions where one may stand, best-effort commands, failed reports, turns of routines that must wait.
    conditions: usize,
    best_effort: usize,
    failed: usize,
    waits: usize,
    late_ids: usize,
}

const HABITS: [Habit; 7] = [
    // An ordinary sitting.
    Habit {
        weights: [20, 57, 3, 13, 4, 4, 3, 1],
        first: (1, 4),
        enough: 5,
        most_commands: 8,
        most_devices: 6,
        conditions: 15,
        best_effort: 40,
        failed: 15,
        waits: 25,
        late_ids: 10,
    },
    // Short routines on few devices, many cancelled: settings go back.
    Habit {
        weights: [20, 53, 9, 15, 2, 3, 2, 1],
        first: (2, 5),
        enough: 4,
        most_commands: 3,
        most_devices: 3,
        conditions: 20,
        best_effort: 60,
        failed: 35,
        waits: 10,
        late_ids: 5,
    },
    // Devices go down and come back all the time.
    Habit {
        weights: [18, 44, 3, 17, 10, 10, 2, 1],
        first: (2, 5),
        enough: 4,
        most_commands: 5,
        most_devices: 5,
        conditions: 25,
        best_effort: 60,
        failed: 15,
        waits: 15,
        late_ids: 5,
    },
    // A full sequence.
    Habit {
        weights: [25, 58, 3, 4, 3, 3, 3, 1],
        first: (14, 19),
        enough: 17,
        most_commands: 4,
        most_devices: 8,
        conditions: 15,
        best_effort: 30,
        failed: 15,
        waits: 25,
        late_ids: 10,
    },
    // Much is refused.
    Habit {
        weights: [15, 40, 3, 2, 5, 5, 30, 1],
        first: (1, 3),
        enough: 5,
        most_commands: 4,
        most_devices: 4,
        conditions: 20,
        best_effort: 40,
        failed: 20,
        waits: 20,
        late_ids: 30,
    },
    // The ids run out.
    Habit {
        weights: [25, 55, 5, 4, 4, 4, 3, 2],
        first: (1, 4),
        enough: 4,
        most_commands: 2,
        most_devices: 4,
        conditions: 30,
        best_effort: 40,
        failed: 20,
        waits: 15,
        late_ids: 90,
    },
    // Long routines over many devices.
    Habit {
        weights: [15, 66, 3, 11, 3, 3, 2, 1],
        first: (2, 6),
        enough: 6,
        most_commands: 8,
        most_devices: 32,
        conditions: 20,
        best_effort: 40,
        failed: 12,
        waits: 15,
        late_ids: 5,
    },
];

/// A sitting in the making: its text, and the program that has read it so far.
struct Sitting {
    random: Random,
    habit: &'static Habit,
    text: Vec<u8>,
    line_count: i64,
    program: Program,
    /// What the program printed is not looked at.
    printed: Vec<u8>,
    /// So many lines in a hundred are damaged before they are said.
    damage: usize,
    /// Routines whose command in flight was skipped by a failure: a report on it may still come, late.
    lost: Vec<u32>,
}

impl Sitting {
    fn new(random: Random, damage: usize) -> Sitting {
        let mut random = random;
        let habit = random.pick(&HABITS);
        Sitting { random, habit, text: Vec::new(), line_count: 0, program: Program::new(), printed: Vec::new(), damage, lost: Vec::new() }
    }

    fn say(&mut self, line: String) {
        let mut line = line.into_bytes();
        if self.random.percent(self.damage) {
            damage_line(&mut self.random, &mut line);
        }
        let flying = if line.first() == Some(&b'F') { self.running() } else { Vec::new() };
        line.push(b'\n');
        self.printed.clear();
        self.program.lines(&line, &mut self.printed);
        self.text.extend_from_slice(&line);
        self.line_count += 1;
        let now = self.running();
        let lost = |r: &&Glance| r.in_flight && now.iter().any(|later| later.id == r.id && !later.in_flight);
        self.lost.extend(flying.iter().filter(lost).flat_map(|r| [r.id; 2]));
    }

    fn whole(mut self) -> Vec<u8> {
        let lines = self.random.between(10, 120);
        // Now and then something stands before the opening.
        if self.random.percent(10) {
            for _ in 0..self.random.between(1, 3) {
                self.refused_or_early();
            }
        }
        self.open();
        for _ in 0..self.random.between(self.habit.first.0, self.habit.first.1) {
            self.submit();
        }
        while self.line_count < lines {
            self.act();
        }
        if self.random.percent(15) {
            self.text.pop();
        }
        self.text
    }

    // ---- what the choices rest on

    fn routines(&self) -> Vec<Glance> {
        self.program.hub().map_or_else(Vec::new, |hub| hub.routines().collect())
    }

    fn running(&self) -> Vec<Glance> {
        self.routines().into_iter().filter(|r| r.running).collect()
    }

    fn device_count(&self) -> i64 {
        self.program.hub().map_or(1, |hub| hub.device_count().into())
    }

    fn devices(&self, up: bool) -> Vec<u8> {
        self.program.hub().map_or_else(Vec::new, |hub| (0..hub.device_count()).filter(|&d| hub.is_up(d) == up).collect())
    }

    // ---- lines

    fn act(&mut self) {
        if self.program.hub().is_none() {
            return self.open();
        }
        if !self.lost.is_empty() && self.random.percent(20) {
            return self.late_report();
        }
        let action = ACTIONS[self.random.weighed(&self.habit.weights)];
        match action {
            Action::Submit if self.running().len() >= self.habit.enough && self.random.percent(75) => self.advance(),
            Action::Submit => self.submit(),
            Action::Advance => self.advance(),
            Action::Cancel => self.cancel(),
            Action::Scene => match self.random.below(100) {
                0..=22 => self.undercut(),
                23..=44 => self.event_amid(),
                45..=66 => self.lamp(),
                _ => self.condition(),
            },
            Action::Failure => self.failure(),
            Action::Restart => self.restart(),
            Action::Refused => self.refused_or_early(),
            Action::Reopen => self.open(),
        }
    }

    fn open(&mut self) {
        let n = match self.random.below(10) {
            0 => 32,
            1 => 1,
            2 => self.random.between(1, 32),
            _ => self.random.between(1, self.habit.most_devices),
        };
        let k = if self.random.percent(30) { 0 } else { self.random.between(0, 8) };
        let first = if self.random.percent(self.habit.late_ids) {
            i64::from(LAST_ID) - self.random.between(0, 12)
        } else if self.random.percent(80) {
            self.random.between(1, 12)
        } else {
            self.random.between(1, LAST_ID.into())
        };
        self.say(format!("O {n} {k} {first}"));
        self.lost.clear();
    }

    fn setting(&mut self) -> i64 {
        match self.random.below(12) {
            0 => *self.random.pick(&[1000, -1000, 999, -999]),
            1 => self.random.between(-1000, 1000),
            // Few different ones, so that equal settings meet.
            2 => 0,
            _ => *self.random.pick(&[10, 20, 50, 70, -5]),
        }
    }

    fn commands(&mut self, count: i64) -> Vec<Command> {
        let n = self.device_count();
        // Few devices, so that routines meet on them; a base apart for some routines, so that all are used.
        let spread = self.random.between(1, self.habit.most_devices.min(n));
        let base = if self.random.percent(70) { 0 } else { self.random.below(n as usize) as i64 };
        let mut commands: Vec<Command> = (0..count)
            .map(|_| Command {
                device: ((base + self.random.between(0, spread - 1)) % n) as u8,
                tag: if self.random.percent(self.habit.best_effort) { BEST_EFFORT } else { MUST },
                setting: self.setting() as i16,
            })
            .collect();
        // In half of the routines conditions: not last, and none before another.
        if self.random.percent(50) {
            for at in 1..commands.len() {
                if (at < 2 || commands[at - 2].tag != CONDITION) && self.random.percent(2 * self.habit.conditions) {
                    commands[at - 1].tag = CONDITION;
                    commands[at - 1].setting = self.number() as i16;
                }
            }
        }
        commands
    }

    /// Of a condition: near the settings.
    fn number(&mut self) -> i64 {
        (self.setting() + self.random.pick(&[0, 0, 1, -1])).clamp(-1000, 1000)
    }

    fn submit(&mut self) {
        // Out of ids, a few more are asked for; then a new hub is opened.
        let spent = self.program.hub().is_some_and(|hub| !hub.has_ids_left());
        if spent && self.random.percent(70) {
            return if self.running().is_empty() { self.open() } else { self.advance() };
        }
        let count = self.random.between(1, self.habit.most_commands);
        let commands = self.commands(count);
        self.say(submission(&commands));
    }

    fn advance(&mut self) {
        let running = self.running();
        if running.is_empty() {
            return self.submit();
        }
        let free: Vec<Glance> = running.iter().filter(|r| r.in_flight || !self.waits(r)).copied().collect();
        let moved: Vec<Glance> = running.iter().filter(|r| self.due_moved(r)).copied().collect();
        let from = if !moved.is_empty() && self.random.percent(40) {
            &moved
        } else if free.is_empty() || self.random.percent(self.habit.waits) {
            &running
        } else {
            &free
        };
        let routine = *self.random.pick(from);
        if !routine.in_flight {
            return self.say(format!("N {}", routine.id));
        }
        // A failed must ends its routine: rarer, so that routines get on.
        let must = routine.next.is_some_and(|c| c.tag == MUST);
        let mut failed = if must { self.habit.failed / 2 } else { self.habit.failed };
        if self.due_moved(&routine) {
            // A failed report now sends a setting back.
            failed = failed.max(60);
        }
        let letter = if self.random.percent(failed) { 'B' } else { 'D' };
        self.say(format!("{letter} {}", routine.id));
    }

    /// Would a turn of the routine be answered with a wait? Asked of a copy of the hub.
    fn waits(&self, routine: &Glance) -> bool {
        let Some(hub) = self.program.hub() else {
            return false;
        };
        matches!(hub.clone().turn(routine.id), Ok(crate::hub::Answer::Wait { .. }))
    }

    fn due_moved(&self, routine: &Glance) -> bool {
        let (Some(hub), Some(command)) = (self.program.hub(), routine.next) else {
            return false;
        };
        routine.in_flight && hub.due_setting(command.device) != routine.due_at_send
    }

    fn cancel(&mut self) {
        let running = self.running();
        if running.is_empty() {
            return self.submit();
        }
        // Those that have done something are the interesting ones.
        let begun: Vec<Glance> = running.iter().filter(|r| r.answered > 0).copied().collect();
        let from = if begun.is_empty() || self.random.percent(30) { &running } else { &begun };
        let id = self.random.pick(from).id;
        self.say(format!("C {id}"));
    }

    /// Cancels a routine that did a device on which a later one has a command in flight; first, if there is no such
    /// pair, two submissions and turns that mostly bring it about.
    fn undercut(&mut self) {
        if self.cancel_below_flight() {
            return;
        }
        let n = self.device_count() as usize;
        let up = self.devices(true);
        if n == 1 || up.is_empty() {
            return self.cancel();
        }
        let device = *self.random.pick(&up) as usize;
        let other = (device + 1 + self.random.below(n - 1)) % n;
        let tag = if self.random.percent(80) { BEST_EFFORT } else { MUST };
        let settings = [self.setting(), self.setting(), self.setting()];
        self.say(format!("S {device} 0 {} {other} 1 {}", settings[0], settings[1]));
        self.say_of_newest("ND");
        self.say(format!("S {device} {tag} {}", settings[2]));
        self.say_of_newest("N");
        if self.random.percent(70) {
            self.cancel_below_flight();
        }
    }

    fn cancel_below_flight(&mut self) -> bool {
        let running = self.running();
        for (at, later) in running.iter().enumerate().filter(|(_, r)| r.in_flight) {
            let device = later.next.map_or(0, |c| c.device);
            if let Some(earlier) = running[..at].iter().rev().find(|r| r.done_devices >> device & 1 == 1) {
                self.say(format!("C {}", earlier.id));
                return true;
            }
        }
        false
    }

    /// A routine that did one device and is amid another, which then goes down or comes back.
    fn event_amid(&mut self) {
        let (up, down) = (self.devices(true), self.devices(false));
        let lame = !down.is_empty() && self.random.percent(65);
        let device = *self.random.pick(if lame || up.is_empty() { &down } else { &up });
        let others: Vec<u8> = up.into_iter().filter(|&d| d != device).collect();
        if others.is_empty() {
            return self.restart();
        }
        let other = *self.random.pick(&others);
        let settings = [self.setting(), self.setting(), self.setting()];
        let tag = if self.random.percent(85) { MUST } else { BEST_EFFORT };
        self.say(format!("S {other} 0 {} {device} 1 {} {device} {tag} {}", settings[0], settings[1], settings[2]));
        self.say_of_newest("NDN");
        if self.random.percent(80) {
            let setting = self.setting();
            let line = if lame { format!("R {device} {setting}") } else { format!("F {device}") };
            self.say(line);
        }
    }

    /// A routine that comes back to a device, mostly best-effort, and is somewhere amid when that goes down or comes back (document 02,
    /// item 3).
    fn lamp(&mut self) {
        let n = self.device_count() as usize;
        let down = self.devices(false);
        let is_down = !down.is_empty() && self.random.percent(60);
        let device = if is_down { *self.random.pick(&down) as usize } else { self.random.below(n) };
        let other = (device + 1) % n;
        let count = self.random.between(2, 6);
        let mut line = format!("S {device} 1 {}", self.setting());
        for _ in 1..count {
            let at = if self.random.percent(60) { device } else { other };
            let tag = if self.random.percent(if at == device { 90 } else { 50 }) { BEST_EFFORT } else { MUST };
            line += &format!(" {at} {tag} {}", self.setting());
        }
        self.say(line);
        let steps = self.random.between(1, 2 * count - 1) as usize;
        self.say_of_newest(if is_down { "N" } else { &"NDNDNDNDNDND"[..steps] });
        if self.random.percent(80) {
            let setting = self.setting();
            let up = self.devices(true).contains(&(device as u8));
            self.say(if up { format!("F {device}") } else { format!("R {device} {setting}") });
        }
    }

    /// A condition on a device that a running routine ahead has set, or a committed one; one that an event skips; one on a device that is
    /// down; one before a command whose device goes down in between (document 02, item 4).
    fn condition(&mut self) {
        let n = self.device_count() as usize;
        let (up, down) = (self.devices(true), self.devices(false));
        if n == 1 || up.is_empty() {
            return self.restart();
        }
        let device = *self.random.pick(&up) as usize;
        let other = (device + 1 + self.random.below(n - 1)) % n;
        let settings = [self.setting(), self.setting(), self.setting()];
        let (number, tag) = (self.number(), self.random.below(2) as u8);
        let asks = format!("S {device} 2 {number} {other} {tag} {}", settings[2]);
        match self.random.below(10) {
            0..=1 => {
                self.say(format!("S {device} 0 {} {other} 1 {}", settings[0], settings[1]));
                self.say_of_newest("ND");
                let ahead = self.running().iter().map(|r| r.id).max();
                self.say(asks);
                self.say_of_newest("N");
                if let (Some(id), true) = (ahead, self.random.percent(40)) {
                    self.say(format!("C {id}"));
                    self.say_of_newest("NN");
                }
            }
            2 => {
                self.say(format!("S {other} 0 {}", settings[0]));
                self.say_of_newest("ND");
                self.say(format!("S {other} 1 {} {device} 0 {}", settings[1], settings[2]));
                self.say_of_newest("NDNDN");
                self.say(asks);
                self.say_of_newest("NN");
            }
            3..=4 => {
                self.say(format!("S {device} 1 {} {device} 2 {number} {other} {tag} {}", settings[0], settings[1]));
                let done = self.random.percent(50);
                self.say_of_newest(if done { "ND" } else { "N" });
                self.say(format!("F {device}"));
                self.say_of_newest("NN");
            }
            5..=6 => {
                let failed = if down.is_empty() { device } else { *self.random.pick(&down) as usize };
                if down.is_empty() {
                    self.say(format!("F {failed}"));
                }
                let (first, tag) = match self.random.below(10) {
                    0..=2 => (String::new(), tag),
                    3 => (format!(" {failed} 1 {}", settings[0]), MUST),
                    _ => (format!(" {failed} 1 {}", settings[0]), BEST_EFFORT),
                };
                self.say(format!("S{first} {failed} 2 {number} {other} {tag} {}", settings[2]));
                self.say_of_newest("N");
                if self.random.percent(90) {
                    self.say(format!("R {failed} {}", settings[1]));
                }
                self.say_of_newest("N");
            }
            _ => {
                let due = self.program.hub().map_or(0, |hub| hub.due_setting(device as u8));
                let tag = if self.random.percent(80) { MUST } else { BEST_EFFORT };
                let number = i64::from(due) + self.random.between(0, 1);
                self.say(format!("S {device} 2 {number} {other} {tag} {}", settings[0]));
                self.say_of_newest("N");
                self.say(format!("F {other}"));
                self.say_of_newest("N");
            }
        }
    }

    fn late_report(&mut self) {
        let at = self.random.below(self.lost.len());
        let id = self.lost.swap_remove(at);
        let letter = *self.random.pick(&['D', 'B']);
        self.say(format!("{letter} {id}"));
    }

    fn say_of_newest(&mut self, letters: &str) {
        for letter in letters.chars() {
            if let Some(id) = self.running().iter().map(|r| r.id).max() {
                self.say(format!("{letter} {id}"));
            }
        }
    }

    fn failure(&mut self) {
        let up = self.devices(true);
        if up.is_empty() {
            return self.restart();
        }
        // Mostly a device that a running routine is amid.
        let running = self.running();
        let near: Vec<u8> = up.iter().copied().filter(|&d| running.iter().any(|r| r.amid >> d & 1 == 1)).collect();
        let device = if near.is_empty() || self.random.percent(40) { *self.random.pick(&up) } else { *self.random.pick(&near) };
        self.say(format!("F {device}"));
    }

    fn restart(&mut self) {
        let down = self.devices(false);
        if down.is_empty() {
            return self.advance();
        }
        let running = self.running();
        let near: Vec<u8> = down.iter().copied().filter(|&d| running.iter().any(|r| r.amid >> d & 1 == 1)).collect();
        let device = if near.is_empty() || self.random.percent(50) { *self.random.pick(&down) } else { *self.random.pick(&near) };
        let setting = self.setting();
        self.say(format!("R {device} {setting}"));
    }

    fn strange_id(&mut self) -> i64 {
        let routines = self.routines();
        let committed: Vec<u32> = routines.iter().filter(|r| !r.running).map(|r| r.id).collect();
        match self.random.below(5) {
            0 => 0,
            1 => LAST_ID.into(),
            2 => self.random.between(0, LAST_ID.into()),
            3 if !committed.is_empty() => (*self.random.pick(&committed)).into(),
            _ => self.random.between(0, 20),
        }
    }

    /// A line for one of the refusals. Whether it is refused depends on the hub; before an opening it is not read.
    fn refused_or_early(&mut self) {
        let n = self.device_count();
        let running = self.running();
        match self.random.below(16) {
            0 => {
                let bad = *self.random.pick(&[0, 33, 34, 255]);
                let k = self.random.between(0, 10);
                self.say(format!("O {bad} {k} 1"));
            }
            1 => {
                let k = *self.random.pick(&[9, 10, 255]);
                let first = self.random.between(0, 1);
                self.say(format!("O {n} {k} {first}"));
            }
            2 => self.say(format!("O {n} 2 0")),
            3 => self.say("S".to_string()),
            4 => {
                let count = *self.random.pick(&[9, 9, 10, 13]);
                let mut commands = self.commands(count);
                if self.random.percent(50) {
                    self.spoil(&mut commands);
                }
                self.say(submission(&commands));
            }
            5..=6 => {
                let count = self.random.between(1, 8);
                let mut commands = self.commands(count);
                for _ in 0..self.random.between(1, 2) {
                    self.spoil(&mut commands);
                }
                self.say(submission(&commands));
            }
            8 => {
                // Up to the full sequence, and one more.
                if running.len() + 4 >= MOST_ROUTINES {
                    while self.routines().len() < MOST_ROUTINES && self.random.percent(95) {
                        self.submit();
                    }
                }
                self.submit();
            }
            9 => {
                let letter = *self.random.pick(&['N', 'D', 'B', 'C']);
                let id = self.strange_id();
                self.say(format!("{letter} {id}"));
            }
            10 => {
                let flying: Vec<u32> = running.iter().filter(|r| r.in_flight).map(|r| r.id).collect();
                if !flying.is_empty() {
                    let id = *self.random.pick(&flying);
                    self.say(format!("N {id}"));
                }
            }
            11 => {
                let still: Vec<u32> = running.iter().filter(|r| !r.in_flight).map(|r| r.id).collect();
                if !still.is_empty() {
                    let id = *self.random.pick(&still);
                    let letter = *self.random.pick(&['D', 'B']);
                    self.say(format!("{letter} {id}"));
                }
            }
            12 => {
                let device = *self.random.pick(&[n, n + 1, 32, 33, 255]);
                let setting = *self.random.pick(&[0, 5, 1001, -32768]);
                let line = if self.random.percent(50) { format!("F {device}") } else { format!("R {device} {setting}") };
                self.say(line);
            }
            13 => {
                let down = self.devices(false);
                match down.first() {
                    Some(_) => {
                        let device = *self.random.pick(&down);
                        self.say(format!("F {device}"));
                    }
                    None => self.failure(),
                }
            }
            14 => {
                let up = self.devices(true);
                if !up.is_empty() {
                    let device = *self.random.pick(&up);
                    let setting = *self.random.pick(&[0, 5, 1000, 1001, -1001]);
                    self.say(format!("R {device} {setting}"));
                }
            }
            _ => {
                let down = self.devices(false);
                match down.first() {
                    Some(_) => {
                        let device = *self.random.pick(&down);
                        let setting = self.bad_setting();
                        self.say(format!("R {device} {setting}"));
                    }
                    None => self.failure(),
                }
            }
        }
    }

    fn bad_setting(&mut self) -> i16 {
        *self.random.pick(&[1001, -1001, 1002, 32767, -32768, 10000, -2000])
    }

    fn spoil(&mut self, commands: &mut [Command]) {
        let n = self.device_count();
        let at = self.random.below(commands.len());
        match self.random.below(4) {
            0 => commands[at].device = *self.random.pick(&[n as u8, n as u8 + 1, 32, 255]),
            1 => commands[at].setting = self.bad_setting(),
            2 => commands[at].tag = *self.random.pick(&[3, 4, 255]),
            // Last, or before another condition.
            _ => {
                commands[at].tag = CONDITION;
                if let Some(after) = commands.get_mut(at + 1) {
                    after.tag = CONDITION;
                }
            }
        }
    }
}

/// The line of a submission.
pub fn submission(commands: &[Command]) -> String {
    let mut line = "S".to_string();
    for c in commands {
        line += &format!(" {} {} {}", c.device, c.tag, c.setting);
    }
    line
}

// ---- damage

const BOUNDS: [&str; 33] = [
    "255", "256", "254", "257", "32", "33", "31", "8", "9", "2", "3", "1000", "1001", "-1000", "-1001", "32767", "32768", "-32768",
    "-32769", "32766", "-32767", "65535", "65536", "4294967295", "4294967296", "4294967294", "4294967297", "18446744073709551615",
    "18446744073709551616", "18446744073709551617", "99999999999999999999999999999999999999", "340282366920938463463374607431768211456",
    "79228162514264337593543950336",
];

const ODD_BYTES: [u8; 24] = [
    0, 1, 9, 10, 11, 12, 13, 31, b' ', b'+', b'-', b',', b'.', b'/', b'0', b'9', b':', b'a', b'x', b'_', 127, 128, 160, 255,
];

const LETTERS: [u8; 8] = *b"OSNDBCFR";

/// Where the numbers of a text are, each from its first digit to behind its last; a minus before it is not in it.
fn numbers(text: &[u8]) -> Vec<(usize, usize)> {
    let mut found = Vec::new();
    let mut at = 0;
    while at < text.len() {
        let from = at;
        while at < text.len() && text[at].is_ascii_digit() {
            at += 1;
        }
        if from < at {
            found.push((from, at));
        } else {
            at += 1;
        }
    }
    found
}

fn replace(text: &mut Vec<u8>, from: usize, to: usize, with: &[u8]) {
    text.splice(from..to, with.iter().copied());
}

/// A place of a byte in the text, if there is one.
fn place_of(random: &mut Random, text: &[u8], wanted: impl Fn(u8) -> bool) -> Option<usize> {
    let places: Vec<usize> = (0..text.len()).filter(|&i| wanted(text[i])).collect();
    if places.is_empty() {
        None
    } else {
        Some(*random.pick(&places))
    }
}

/// One fault in a line, given without its byte 10.
fn damage_line(random: &mut Random, line: &mut Vec<u8>) {
    let spans = numbers(line);
    let span = if spans.is_empty() { None } else { Some(*random.pick(&spans)) };
    match (random.below(28), span) {
        (0..=1, _) => damage_byte(random, line),
        (2, _) => {
            if let Some(at) = place_of(random, line, |b| b == b' ') {
                line.insert(at, b' ');
            }
        }
        (3, _) => {
            if let Some(at) = place_of(random, line, |b| b == b' ') {
                line[at] = *random.pick(&[9, 0, 11, 160, b'_', b',']);
            }
        }
        (4, _) => line.push(*random.pick(&[b'\r', b'\r', b' ', 0, b'\t', b'0'])),
        (5, _) => line.insert(0, *random.pick(b" \t\r-+0O")),
        (6, Some((from, _))) => line.insert(from, b'+'),
        (7..=8, Some((from, _))) => line.insert(from, b'-'),
        (9, Some((from, to))) => replace(line, from, to, b"-0"),
        (10, Some((from, to))) => replace(line, from, to, b"-"),
        (11..=14, Some((from, to))) => {
            let number = *random.pick(&BOUNDS);
            replace(line, from, to, number.as_bytes());
        }
        (15..=16, Some((from, _))) => {
            // Long digit strings that are small numbers.
            let zeros = *random.pick(&[1, 2, 5, 19, 20, 21, 40, 90, 110, 120, 130, 200]);
            replace(line, from, from, &vec![b'0'; zeros]);
        }
        (17..=20, Some((from, _))) => {
            // To an exact length around the longest.
            let length = *random.pick(&[126, 127, 128, 128, 128, 129, 129, 130]);
            let zeros = length - line.len().min(length);
            replace(line, from, from, &vec![b'0'; zeros]);
        }
        (21, _) => {
            // A long submission, more commands than a routine takes.
            line.clear();
            line.push(b'S');
            let length = *random.pick(&[100, 120, 127, 128, 129, 140]);
            while line.len() + 6 <= length {
                line.extend_from_slice(b" 0 0 5");
            }
            if random.percent(50) {
                let at = line.len() - 5;
                let device = *random.pick(&["00", "255", "256", "10", "-1"]);
                replace(line, at, at + 1, device.as_bytes());
            }
        }
        (22, _) => {
            let length = random.between(129, 1500) as usize;
            let filler = *random.pick(b"0 9x-\0");
            while line.len() < length {
                line.push(filler);
            }
        }
        (23, _) => line.clear(),
        (24, _) => {
            if let Some(letter) = line.first_mut() {
                *letter = letter.to_ascii_lowercase();
            }
        }
        (25, _) => {
            if let Some(letter) = line.first_mut() {
                *letter = *random.pick(&LETTERS);
            }
        }
        (26, _) => {
            let length = random.below(line.len() + 1);
            line.truncate(length);
        }
        _ => {
            let more = *random.pick(&[" 0", " 1 1", " 5 0 10", " -1", " x"]);
            line.extend_from_slice(more.as_bytes());
        }
    }
}

/// One byte changed, deleted or inserted, anywhere.
fn damage_byte(random: &mut Random, text: &mut Vec<u8>) {
    let byte = if random.percent(50) { *random.pick(&ODD_BYTES) } else { random.below(256) as u8 };
    let at = random.below(text.len() + 1);
    match random.below(3) {
        0 if at < text.len() => text[at] = byte,
        1 if at < text.len() => {
            text.remove(at);
        }
        _ => text.insert(at, byte),
    }
}

/// One fault in a whole text.
fn damage_text(random: &mut Random, text: &mut Vec<u8>) {
    let mut lines: Vec<Vec<u8>> = text.split(|&b| b == b'\n').map(<[u8]>::to_vec).collect();
    let at = random.below(lines.len());
    match random.below(12) {
        0..=3 => return damage_byte(random, text),
        4..=6 => damage_line(random, &mut lines[at]),
        7 => {
            let copy = lines[at].clone();
            lines.insert(at, copy);
        }
        8 => {
            lines.remove(at);
        }
        9 => {
            let other = random.below(lines.len());
            lines.swap(at, other);
        }
        10 => lines.insert(at, Vec::new()),
        _ => {
            let at = random.below(text.len() + 1);
            if random.percent(70) {
                text.truncate(at);
            } else {
                text.drain(..at);
            }
            return;
        }
    }
    *text = lines.join(&b'\n');
}

/// Lines of words put together at random: some have a shape, few are accepted.
fn word_soup(random: &mut Random) -> Vec<u8> {
    let mut text = Vec::new();
    if random.percent(70) {
        text.extend_from_slice(b"O 4 2 1\n");
    }
    for _ in 0..random.between(1, 60) {
        text.push(*random.pick(&LETTERS));
        for _ in 0..random.below(8) {
            text.push(b' ');
            let small = random.below(6).to_string();
            let number = if random.percent(75) { small.as_str() } else { *random.pick(&BOUNDS) };
            text.extend_from_slice(number.as_bytes());
        }
        text.push(b'\n');
    }
    text
}

fn byte_soup(random: &mut Random) -> Vec<u8> {
    let length = random.below(1500);
    let likely = b"ONSDBCFR  0123456789-\n\n";
    let every = random.percent(40);
    (0..length).map(|_| if every { random.draw() as u8 } else { *random.pick(likely) }).collect()
}

// ---- the two kinds

/// A history of lines of the right shape.
pub fn random(seed: u64, index: u64) -> Vec<u8> {
    Sitting::new(Random::new(seed, index), 0).whole()
}

/// A history with faults in its bytes, or bytes that never were one.
pub fn damaged(seed: u64, index: u64) -> Vec<u8> {
    let mut random = Random::new(seed ^ 0xDA3A_6ED0, index);
    match random.below(100) {
        0 => Vec::new(),
        1..=4 => byte_soup(&mut random),
        5..=9 => word_soup(&mut random),
        10..=69 => {
            // Damaged line by line, the hub following what is left of each.
            let damage = *random.pick(&[5, 15, 30, 60]);
            let again = Random { state: random.draw() };
            let mut text = Sitting::new(again, damage).whole();
            if random.percent(20) {
                damage_text(&mut random, &mut text);
            }
            text
        }
        _ => {
            // Damaged when it was finished: the lines behind may have lost their sense.
            let again = Random { state: random.draw() };
            let mut text = Sitting::new(again, 0).whole();
            for _ in 0..random.between(1, 8) {
                damage_text(&mut random, &mut text);
            }
            text
        }
    }
}
