//! The hub's order, built from the lines and what they print alone, and run: it must give every due setting. And devices
//! that take what is sent to them: whenever nothing is in flight on one that is up, it stands at its due setting. So it is
//! with new pass limits anywhere between the calls (document 02, item 13): they tell nothing about the order. What an event
//! skips (item 3) no line tells: it is worked out, and behind its routine and before the next one stands that event. Every condition that
//! was not skipped (item 4) finds its device up and has the outcome that it had live, in the whole order and in that of the committed
//! routines and the events alone. Each wait is on the first routine ahead that gives a cause, and there is one in no other turn.

use reference::histories::{self, Random};
use reference::line::Program;
use std::collections::{HashMap, HashSet};

const MUST: i64 = 0;
const CONDITION: i64 = 2;

#[derive(Clone, Copy)]
struct Command {
    place: usize,
    device: usize,
    tag: i64,
    setting: i64,
}

/// How a command was answered.
#[derive(Clone, Copy, PartialEq)]
enum How {
    Done,
    Held,
    NotHeld,
    ReportedFailed,
    /// Skipped in its turn, its device being down.
    AsDown,
    /// Skipped in its turn, after a condition that did not hold or was skipped.
    Dropped,
    /// Skipped by an event of its device.
    ByEvent,
}

enum Item {
    Routine { id: u64, answered: Vec<(Command, How)>, committed: bool },
    Failure { device: usize },
    Restart { device: usize, setting: i64 },
}

/// All that can be known from the accepted calls and their answers.
struct Watch {
    list: Vec<Item>,
    bar: usize,
    /// Of each routine its commands, those left, in turn, and the devices that it has begun. If one is in flight it is the first left.
    commands: HashMap<u64, Vec<Command>>,
    left: HashMap<u64, Vec<Command>>,
    begun: HashMap<u64, HashSet<usize>>,
    in_flight: HashSet<u64>,
    down: Vec<bool>,
    /// Where the devices stand, those that are up.
    stand: Vec<i64>,
    random: Random,
}

/// How often something happened that histories must reach for the checks to say anything.
#[derive(Default)]
struct Reached {
    by_event: usize,
    held: usize,
    not_held: usize,
    dropped: usize,
    conditions_as_down: usize,
    conditions_by_event: usize,
    waits_for_a_done_setting: usize,
}

impl Watch {
    fn new(devices: usize, seed: u64) -> Watch {
        Watch {
            list: Vec::new(),
            bar: 0,
            commands: HashMap::new(),
            left: HashMap::new(),
            begun: HashMap::new(),
            in_flight: HashSet::new(),
            down: vec![false; devices],
            stand: vec![0; devices],
            random: Random::new(seed, 0),
        }
    }

    fn routine(&self, id: u64) -> usize {
        self.list.iter().position(|i| matches!(i, Item::Routine { id: other, .. } if *other == id)).unwrap()
    }

    /// Before the next routine behind the one named, or last; for 0, before the first behind the bar, or last.
    fn put(&mut self, after: u64, item: Item) {
        let from = if after == 0 { self.bar } else { self.routine(after) + 1 };
        let next = self.list[from..].iter().position(|i| matches!(i, Item::Routine { .. }));
        let at = next.map_or(self.list.len(), |n| from + n);
        self.list.insert(at, item);
    }

    fn current(&self, id: u64) -> Command {
        self.left[&id][0]
    }

    fn answered(&mut self, id: u64) -> &mut Vec<(Command, How)> {
        let at = self.routine(id);
        let Item::Routine { answered, .. } = &mut self.list[at] else { unreachable!() };
        answered
    }

    /// The command left first is answered.
    fn answer_current(&mut self, id: u64, how: How) {
        let command = self.current(id);
        self.begun.get_mut(&id).unwrap().insert(command.device);
        self.in_flight.remove(&id);
        self.left.get_mut(&id).unwrap().remove(0);
        self.answered(id).push((command, how));
    }

    /// The tag that counts where the device is down or has an event.
    fn deciding_tag(&self, id: u64, command: Command) -> i64 {
        let with_its_tag = if command.tag == CONDITION { command.place + 1 } else { command.place };
        self.commands[&id][with_its_tag].tag
    }

    /// The command follows a condition that did not hold or was skipped.
    fn is_dropped(&mut self, id: u64, command: Command) -> bool {
        let before = |(c, how): &(Command, How)| c.tag == CONDITION && c.place + 1 == command.place && *how != How::Held;
        self.answered(id).iter().any(before)
    }

    /// The first routine ahead that gives the command of this routine a cause to wait, and whether only by what it has done.
    fn awaited(&self, id: u64, command: Command) -> Option<(u64, bool)> {
        self.list[..self.routine(id)].iter().find_map(|item| {
            let Item::Routine { id, answered, committed: false } = item else { return None };
            let unfinished = self.left[id].iter().any(|c| c.device == command.device);
            let done = command.tag == CONDITION && answered.iter().any(|(c, how)| *how == How::Done && c.device == command.device);
            (unfinished || done).then_some((*id, !unfinished))
        })
    }

    /// Each routine that runs, has begun the device and has commands left on it loses them.
    fn skip(&mut self, lost: usize) {
        let running: Vec<u64> = self.left.keys().copied().filter(|&id| self.runs(id)).collect();
        for id in running {
            if !self.begun[&id].contains(&lost) {
                continue;
            }
            if self.left[&id].first().is_some_and(|c| c.device == lost) {
                self.in_flight.remove(&id);
            }
            let gone: Vec<Command> = self.left[&id].iter().copied().filter(|c| c.device == lost).collect();
            assert!(gone.iter().all(|&c| self.deciding_tag(id, c) != MUST), "a must is skipped");
            self.left.get_mut(&id).unwrap().retain(|c| c.device != lost);
            self.answered(id).extend(gone.into_iter().map(|c| (c, How::ByEvent)));
        }
    }

    fn runs(&self, id: u64) -> bool {
        self.list.iter().any(|i| matches!(i, Item::Routine { id: other, committed: false, .. } if *other == id))
    }

    /// A turn was answered with this.
    fn turn(&mut self, id: u64, words: &[&str], reached: &mut Reached) {
        assert!(!self.in_flight.contains(&id));
        if words[0] == "committed" {
            assert!(self.left[&id].is_empty());
            return;
        }
        let command = self.current(id);
        let awaited = self.awaited(id, command);
        if words[0] == "wait" {
            assert_eq!(awaited.map(|(on, _)| on), words[3].parse().ok());
            reached.waits_for_a_done_setting += usize::from(awaited.is_some_and(|(_, done)| done));
            return;
        }
        assert!(awaited.is_none());
        let (down, dropped) = (self.down[command.device], self.is_dropped(id, command));
        match words[0] {
            "send" => {
                assert_eq!([command.device.to_string(), command.setting.to_string()], words[2..]);
                assert!(command.tag != CONDITION && !down && !dropped);
                self.in_flight.insert(id);
                self.begun.get_mut(&id).unwrap().insert(command.device);
            }
            "held" | "not" => {
                assert!(command.tag == CONDITION && !down);
                self.answer_current(id, if words[0] == "held" { How::Held } else { How::NotHeld });
            }
            "skipped" if dropped => self.answer_current(id, How::Dropped),
            "skipped" => {
                assert!(down && self.deciding_tag(id, command) != MUST);
                self.answer_current(id, How::AsDown);
            }
            "aborted" => assert!(down && !dropped && self.deciding_tag(id, command) == MUST),
            other => panic!("a turn is answered with {other}"),
        }
    }

    fn answer(&mut self, line: &[&str], said: &str, reached: &mut Reached) {
        let words: Vec<&str> = said.split(' ').collect();
        let n = |i: usize| words[i].parse::<i64>().unwrap();
        if matches!(words[0], "refused" | "unread" | "opened") {
            return;
        }
        if line[0] == "N" {
            self.turn(line[1].parse().unwrap(), &words, reached);
        }
        match words[0] {
            "placed" => {
                let numbers: Vec<i64> = line[1..].iter().map(|w| w.parse().unwrap()).collect();
                let id = n(1) as u64;
                let command = |(place, c): (usize, &[i64])| Command { place, device: c[0] as usize, tag: c[1], setting: c[2] };
                let commands: Vec<Command> = numbers.chunks(3).enumerate().map(command).collect();
                self.commands.insert(id, commands.clone());
                self.left.insert(id, commands);
                self.begun.insert(id, HashSet::new());
                self.put(n(3) as u64, Item::Routine { id, answered: Vec::new(), committed: false });
            }
            "done" => {
                let id = n(1) as u64;
                assert!(self.in_flight.contains(&id));
                let command = self.current(id);
                self.stand[command.device] = command.setting;
                self.answer_current(id, How::Done);
            }
            "skipped" => {
                if line[0] == "B" {
                    assert!(self.in_flight.contains(&(n(1) as u64)));
                    self.answer_current(n(1) as u64, How::ReportedFailed);
                }
                if words.len() > 2 {
                    self.backs(&words[3..]);
                }
            }
            "committed" => {
                let at = self.routine(n(1) as u64);
                let Item::Routine { committed, .. } = &mut self.list[at] else { unreachable!() };
                *committed = true;
            }
            "aborted" => {
                let id = n(1) as u64;
                let command = self.in_flight.remove(&id).then(|| self.current(id));
                if let Some(c) = command {
                    // Unless it was reported failed, its device may have taken it or not.
                    if line[0] != "B" && self.random.percent(50) {
                        self.stand[c.device] = c.setting;
                    }
                }
                if matches!(line[0], "F" | "R") {
                    let device: usize = line[1].parse().unwrap();
                    let must = |c: &Command| c.device == device && self.deciding_tag(id, *c) == MUST;
                    assert!(self.begun[&id].contains(&device) && self.left[&id].iter().any(must));
                }
                let at = self.routine(id);
                self.list.remove(at);
                self.backs(&words[3..]);
            }
            "down" => {
                self.down[n(1) as usize] = true;
                self.skip(n(1) as usize);
                self.put(n(3) as u64, Item::Failure { device: n(1) as usize });
            }
            "up" => {
                let (device, setting) = (n(1) as usize, line[2].parse().unwrap());
                self.down[device] = false;
                self.stand[device] = setting;
                self.skip(device);
                self.put(n(3) as u64, Item::Restart { device, setting });
            }
            _ => {}
        }
    }

    /// `count device setting ...`, the count first.
    fn backs(&mut self, words: &[&str]) {
        let numbers: Vec<i64> = words.iter().map(|w| w.parse().unwrap()).collect();
        assert_eq!(numbers[0] as usize * 2 + 1, numbers.len());
        let pairs: Vec<&[i64]> = numbers[1..].chunks(2).collect();
        assert!(pairs.windows(2).all(|p| p[0][0] < p[1][0]));
        for pair in pairs {
            self.stand[pair[0] as usize] = pair[1];
        }
    }

    fn end_of_call(&mut self) {
        let first = self.list.iter().position(|i| matches!(i, Item::Routine { committed: false, .. }));
        self.bar = first.unwrap_or(self.list.len());
    }

    /// Runs the order, or only its committed routines and its events: down devices and settings. Commands stand where they may.
    fn run(&self, only_committed: bool) -> (Vec<bool>, Vec<i64>) {
        let mut down = vec![false; self.down.len()];
        let mut settings = vec![0; self.down.len()];
        for (at, item) in self.list.iter().enumerate() {
            match item {
                Item::Routine { committed: false, .. } if only_committed => {}
                Item::Routine { answered, .. } => {
                    let events = self.list[at + 1..].iter().map_while(|item| match item {
                        Item::Failure { device } | Item::Restart { device, .. } => Some(*device),
                        Item::Routine { .. } => None,
                    });
                    for (c, how) in answered {
                        let before = answered.iter().find(|(other, _)| other.place + 1 == c.place);
                        match how {
                            How::Done => {
                                assert!(!down[c.device] && c.tag != CONDITION);
                                settings[c.device] = c.setting;
                            }
                            How::Held | How::NotHeld => {
                                assert!(!down[c.device] && c.tag == CONDITION);
                                assert_eq!(settings[c.device] >= c.setting, *how == How::Held, "a condition on device {}", c.device);
                            }
                            How::AsDown => assert!(down[c.device]),
                            How::ByEvent => assert!(events.clone().any(|device| device == c.device)),
                            How::Dropped => assert!(before.is_some_and(|(other, how)| other.tag == CONDITION && *how != How::Held)),
                            How::ReportedFailed => assert!(c.tag != CONDITION),
                        }
                    }
                }
                Item::Failure { device } => down[*device] = true,
                Item::Restart { device, setting } => {
                    down[*device] = false;
                    settings[*device] = *setting;
                }
            }
        }
        (down, settings)
    }

    /// Runs the order and checks it against the hub.
    fn check(&self, program: &Program) {
        let hub = program.hub().unwrap();
        self.run(true);
        let (down, settings) = self.run(false);
        assert_eq!(down, self.down);
        let flown: HashSet<usize> = self.in_flight.iter().map(|&id| self.current(id).device).collect();
        for device in 0..down.len() {
            assert_eq!(hub.is_up(device as u8), !down[device]);
            assert_eq!(i64::from(hub.due_setting(device as u8)), settings[device]);
            if !down[device] && !flown.contains(&device) {
                assert_eq!(self.stand[device], settings[device], "device {device}");
            }
        }
    }

    /// The order so far, which a new opening or the end of the history leaves behind, is counted.
    fn count(&self, reached: &mut Reached) {
        for item in &self.list {
            let Item::Routine { answered, .. } = item else { continue };
            for (c, how) in answered {
                let condition = usize::from(c.tag == CONDITION);
                match how {
                    How::Held => reached.held += 1,
                    How::NotHeld => reached.not_held += 1,
                    How::Dropped => reached.dropped += 1,
                    How::AsDown => reached.conditions_as_down += condition,
                    How::ByEvent => {
                        reached.by_event += 1;
                        reached.conditions_by_event += condition;
                    }
                    How::Done | How::ReportedFailed => {}
                }
            }
        }
    }
}

#[test]
fn the_order_gives_the_due_settings() {
    check_histories(false);
}

#[test]
fn the_order_gives_the_due_settings_whatever_the_pass_limit() {
    check_histories(true);
}

fn check_histories(limits: bool) {
    let mut reached = Reached::default();
    for index in 0..600 {
        let mut random = Random::new(index, 1);
        let input = String::from_utf8(histories::random(3, index)).unwrap();
        let mut program = Program::new();
        let mut watch: Option<Watch> = None;
        for line in input.lines() {
            let words: Vec<&str> = line.split(' ').collect();
            let mut out = Vec::new();
            program.line(line.as_bytes(), &mut out);
            let said = String::from_utf8(out).unwrap();
            if said == "opened\n" {
                if let Some(watch) = &watch {
                    watch.count(&mut reached);
                }
                watch = Some(Watch::new(words[1].parse().unwrap(), index));
            }
            let Some(watch) = &mut watch else { continue };
            for answer in said.lines() {
                // A failure ends what was sent before: the device is down before its abort goes out.
                if answer.starts_with("aborted") && words[0] == "F" {
                    watch.down[words[1].parse::<usize>().unwrap()] = true;
                }
                watch.answer(&words, answer, &mut reached);
            }
            watch.end_of_call();
            watch.check(&program);
            if limits && random.percent(20) {
                let _ = program.hub_mut().unwrap().limit(random.below(10) as u8);
                watch.check(&program);
            }
        }
        if let Some(watch) = &watch {
            watch.count(&mut reached);
        }
    }
    let Reached { by_event, held, not_held, dropped, conditions_as_down, conditions_by_event, waits_for_a_done_setting } = reached;
    assert!(by_event > 500, "events skip {by_event} commands");
    assert!(held > 100 && not_held > 100, "{held} conditions held, {not_held} did not");
    assert!(dropped > 100, "{dropped} commands are skipped after a condition");
    assert!(conditions_as_down > 20 && conditions_by_event > 20, "{conditions_as_down} skipped as down, {conditions_by_event} by an event");
    assert!(waits_for_a_done_setting > 50, "{waits_for_a_done_setting} waits are for a done setting alone");
}
