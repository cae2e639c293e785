//! The hub: devices, the sequence of routines, and the calls on them. Each call changes the hub in place; a refused one
//! changes nothing.

pub const MOST_DEVICES: usize = 32;
pub const MOST_COMMANDS: usize = 8;
pub const MOST_ROUTINES: usize = 16;
pub const MOST_PASSES: u8 = 8;
pub const LAST_ID: u32 = u32::MAX;

/// Settings go from the negative of this to this.
pub const MOST_SETTING: i16 = 1000;

/// The settled part, where an id is expected.
pub const SETTLED: u32 = 0;

pub const MUST: u8 = 0;
pub const BEST_EFFORT: u8 = 1;
/// Document 02, item 4.
pub const CONDITION: u8 = 2;

pub const DONE: u8 = 0;
pub const FAILED: u8 = 1;

#[derive(Clone, Copy, Debug, Default, PartialEq, Eq)]
pub struct Command {
    pub device: u8,
    pub tag: u8,
    pub setting: i16,
}

/// Why a call was turned down: the number in document 01's table, and the command's index where the table has one.
#[derive(Clone, Copy, Debug, PartialEq, Eq)]
pub struct Refusal {
    pub number: u8,
    pub index: Option<u8>,
}

fn refused<T>(number: u8) -> Result<T, Refusal> {
    Err(Refusal { number, index: None })
}

/// Settings sent back to devices, by rising device. A routine has at most eight devices, so it leaves no more behind.
#[derive(Clone, Copy, Debug, Default, PartialEq, Eq)]
pub struct Backs {
    count: usize,
    list: [(u8, i16); MOST_COMMANDS],
}

impl Backs {
    fn push(&mut self, device: u8, setting: i16) {
        self.list[self.count] = (device, setting);
        self.count += 1;
    }

    pub fn as_slice(&self) -> &[(u8, i16)] {
        &self.list[..self.count]
    }
}

#[derive(Clone, Copy, Debug, PartialEq, Eq)]
pub struct Aborted {
    pub id: u32,
    pub backs: Backs,
}

#[derive(Clone, Copy, Debug, PartialEq, Eq)]
pub enum Answer {
    Opened,
    Placed { id: u32, after: u32 },
    Committed { id: u32 },
    Wait { id: u32, on: u32 },
    Send { id: u32, device: u8, setting: i16 },
    Held { id: u32 },
    NotHeld { id: u32 },
    Done { id: u32 },
    Skipped { id: u32, backs: Backs },
    Aborted(Aborted),
    Down { device: u8, after: u32, aborted: Option<Aborted> },
    Up { device: u8, after: u32, aborted: Option<Aborted> },
    Limited { pass_limit: u8 },
}

/// The restarts attached to a routine. Only the last one of a device can ever count, so only that is kept; failures
/// never count for a due setting, so they are not kept at all.
#[derive(Clone, Debug)]
struct Restarts {
    devices: u32,
    settings: [i16; MOST_DEVICES],
}

impl Restarts {
    fn none() -> Restarts {
        Restarts { devices: 0, settings: [0; MOST_DEVICES] }
    }

    fn get(&self, device: u8) -> Option<i16> {
        (self.devices >> device & 1 == 1).then(|| self.settings[device as usize])
    }

    fn attach(&mut self, device: u8, setting: i16) {
        self.devices |= 1 << device;
        self.settings[device as usize] = setting;
    }
}

/// A bit for each command of a routine.
type Places = u16;

/// The numbers of the bits that are set, rising.
fn bits(mut set: u32) -> impl Iterator<Item = u8> {
    std::iter::from_fn(move || {
        if set == 0 {
            return None;
        }
        let lowest = set.trailing_zeros() as u8;
        set &= set - 1;
        Some(lowest)
    })
}

/// A routine of the sequence.
#[derive(Clone, Debug)]
struct Routine {
    id: u32,
    commands: [Command; MOST_COMMANDS],
    count: u8,
    /// The commands that are not answered.
    left: Places,
    /// Those that were done.
    done: Places,
    /// The conditions that held. A command that is neither left nor done was skipped, a condition neither left nor here did not hold or
    /// was skipped, which comes to the same.
    held: Places,
    /// The first command left is in flight.
    in_flight: bool,
    /// The due setting of the device of the command in flight, when that was sent.
    due_at_send: i16,
    passed: u8,
    committed: bool,
    restarts: Restarts,
}

impl Routine {
    fn commands(&self) -> &[Command] {
        &self.commands[..self.count as usize]
    }

    fn next_place(&self) -> Option<usize> {
        (self.left != 0).then(|| self.left.trailing_zeros() as usize)
    }

    fn next(&self) -> Option<Command> {
        self.next_place().map(|place| self.commands[place])
    }

    /// The tag that counts where the device is down or has an event: of a condition, that of the command after it.
    fn deciding_tag(&self, place: usize) -> u8 {
        let tag = self.commands[place].tag;
        if tag == CONDITION {
            self.commands[place + 1].tag
        } else {
            tag
        }
    }

    /// The command follows a condition.
    fn is_asked(&self, place: usize) -> bool {
        place > 0 && self.commands[place - 1].tag == CONDITION
    }

    /// The command, all before it answered, follows a condition that did not hold or was skipped.
    fn is_dropped(&self, place: usize) -> bool {
        self.is_asked(place) && self.held >> (place - 1) & 1 == 0
    }

    fn command_in_flight(&self) -> Option<Command> {
        if self.in_flight {
            self.next()
        } else {
            None
        }
    }

    fn has_begun(&self, device: u8) -> bool {
        // The first of them on a device is the first to be sent or skipped.
        let first = self.commands().iter().position(|c| c.device == device);
        first.is_some_and(|i| self.left >> i & 1 == 0) || self.is_in_flight_on(device)
    }

    fn has_left(&self, device: u8) -> bool {
        bits(self.left.into()).any(|i| self.commands[i as usize].device == device)
    }

    fn left_on(&self, device: u8) -> Places {
        bits(self.left.into()).filter(|&i| self.commands[i as usize].device == device).fold(0, |found, i| found | 1 << i)
    }

    fn is_in_flight_on(&self, device: u8) -> bool {
        self.command_in_flight().is_some_and(|c| c.device == device)
    }

    fn is_done(&self, index: usize) -> bool {
        self.done >> index & 1 == 1
    }

    fn has_done(&self, device: u8) -> bool {
        bits(self.done.into()).any(|i| self.commands[i as usize].device == device)
    }

    /// A bit for each device on which a command was done.
    fn done_devices(&self) -> u32 {
        bits(self.done.into()).fold(0, |set, i| set | 1 << self.commands[i as usize].device)
    }

    /// The setting that stands last for a device after the routine's done commands and then its restarts.
    fn last_setting(&self, device: u8) -> Option<i16> {
        self.restarts.get(device).or_else(|| {
            let behind = (Places::BITS - self.done.leading_zeros()) as usize;
            let commands = self.commands[..behind].iter().enumerate().rev();
            commands.filter(|(i, c)| c.device == device && self.is_done(*i)).map(|(_, c)| c.setting).next()
        })
    }

    /// The first command left is so no longer; its bit is given back.
    fn answer_next(&mut self) -> Places {
        let place = self.left & self.left.wrapping_neg();
        self.left ^= place;
        self.in_flight = false;
        place
    }

    /// These commands, all of them left, are skipped: document 02, item 3. One in flight is so no longer.
    fn skip(&mut self, places: Places) {
        let first = self.left & self.left.wrapping_neg();
        self.in_flight &= first & places == 0;
        self.left &= !places;
    }
}

/// What a caller may see of a routine of the sequence.
#[derive(Clone, Copy, Debug)]
pub struct Glance {
    pub id: u32,
    pub running: bool,
    pub in_flight: bool,
    /// The command in flight, or the next to have a turn.
    pub next: Option<Command>,
    /// If the next command follows a condition: did that hold?
    pub condition_held: Option<bool>,
    /// The due setting of its device when the command in flight was sent.
    pub due_at_send: i16,
    pub answered: usize,
    pub conditions_left: usize,
    /// A bit for each device on which a command was done.
    pub done_devices: u32,
    /// A bit for each device on which a command is left.
    pub left_devices: u32,
    /// A bit for each device that it has begun and not finished.
    pub amid: u32,
}

#[derive(Clone, Debug)]
pub struct Hub {
    device_count: u8,
    pass_limit: u8,
    /// None once the last id was given.
    next_id: Option<u32>,
    /// A bit for each device that is down.
    down: u32,
    marks: [u32; MOST_DEVICES],
    /// What the settled part leaves behind: for each device the setting that stands last in it.
    settled: [i16; MOST_DEVICES],
    sequence: Vec<Routine>,
}

impl Hub {
    pub fn open(device_count: u8, pass_limit: u8, first_id: u32) -> Result<Hub, Refusal> {
        if device_count == 0 || device_count as usize > MOST_DEVICES {
            return refused(1);
        }
        if pass_limit > MOST_PASSES {
            return refused(2);
        }
        if first_id == 0 {
            return refused(3);
        }
        Ok(Hub {
            device_count,
            pass_limit,
            next_id: Some(first_id),
            down: 0,
            marks: [SETTLED; MOST_DEVICES],
            settled: [0; MOST_DEVICES],
            sequence: Vec::with_capacity(MOST_ROUTINES),
        })
    }

    // ---- the calls

    pub fn submit(&mut self, commands: &[Command]) -> Result<Answer, Refusal> {
        if commands.is_empty() || commands.len() > MOST_COMMANDS {
            return refused(4);
        }
        for (i, command) in commands.iter().enumerate() {
            if let Some(number) = self.fault(command, commands.get(i + 1)) {
                return Err(Refusal { number, index: Some(i as u8) });
            }
        }
        if self.sequence.len() == MOST_ROUTINES {
            return refused(8);
        }
        let Some(id) = self.next_id else {
            return refused(9);
        };
        self.next_id = id.checked_add(1);

        let at = self.place_for(commands);
        for behind in &mut self.sequence[at..] {
            if !behind.committed {
                behind.passed += 1;
            }
        }
        let mut routine = Routine {
            id,
            commands: [Command::default(); MOST_COMMANDS],
            count: commands.len() as u8,
            left: Places::MAX >> (Places::BITS as usize - commands.len()),
            done: 0,
            held: 0,
            in_flight: false,
            due_at_send: 0,
            passed: 0,
            committed: false,
            restarts: Restarts::none(),
        };
        routine.commands[..commands.len()].copy_from_slice(commands);
        self.sequence.insert(at, routine);
        let after = self.id_before(at);
        self.settle();
        Ok(Answer::Placed { id, after })
    }

    pub fn turn(&mut self, id: u32) -> Result<Answer, Refusal> {
        let at = self.running(id)?;
        if self.sequence[at].in_flight {
            return refused(11);
        }
        let Some(place) = self.sequence[at].next_place() else {
            self.sequence[at].committed = true;
            self.settle();
            return Ok(Answer::Committed { id });
        };
        let command = self.sequence[at].commands[place];
        let device = command.device;
        let asks = command.tag == CONDITION;
        // The wait comes before the look at the device: a must on a down device may first wait.
        let delays = |r: &&Routine| !r.committed && (r.has_left(device) || asks && r.has_done(device));
        if let Some(ahead) = self.sequence[..at].iter().find(delays) {
            return Ok(Answer::Wait { id, on: ahead.id });
        }
        let dropped = self.sequence[at].is_dropped(place);
        if !dropped && !self.is_up(device) && self.sequence[at].deciding_tag(place) == MUST {
            let aborted = self.abort(at);
            self.settle();
            return Ok(Answer::Aborted(aborted));
        }
        if !self.sequence[at].has_begun(device) {
            self.marks[device as usize] = id;
        }
        if dropped || !self.is_up(device) {
            self.sequence[at].answer_next();
            self.settle();
            return Ok(Answer::Skipped { id, backs: Backs::default() });
        }
        let due = self.due_setting(device);
        let routine = &mut self.sequence[at];
        if asks {
            let holds = due >= command.setting;
            let asked = routine.answer_next();
            routine.held |= if holds { asked } else { 0 };
            self.settle();
            return Ok(if holds { Answer::Held { id } } else { Answer::NotHeld { id } });
        }
        routine.in_flight = true;
        routine.due_at_send = due;
        self.settle();
        Ok(Answer::Send { id, device, setting: command.setting })
    }

    pub fn report(&mut self, id: u32, code: u8) -> Result<Answer, Refusal> {
        let at = self.running(id)?;
        let Some(command) = self.sequence[at].command_in_flight() else {
            return refused(12);
        };
        let answer = match code {
            DONE => {
                let routine = &mut self.sequence[at];
                routine.done |= routine.answer_next();
                Answer::Done { id }
            }
            // The command is still in flight for the abort: its device is to be sent its due setting.
            FAILED if command.tag == MUST => Answer::Aborted(self.abort(at)),
            FAILED => {
                self.sequence[at].answer_next();
                let mut backs = Backs::default();
                let due = self.due_setting(command.device);
                if due != self.sequence[at].due_at_send {
                    backs.push(command.device, due);
                }
                Answer::Skipped { id, backs }
            }
            _ => return refused(13),
        };
        self.settle();
        Ok(answer)
    }

    pub fn cancel(&mut self, id: u32) -> Result<Answer, Refusal> {
        let at = self.running(id)?;
        let aborted = self.abort(at);
        self.settle();
        Ok(Answer::Aborted(aborted))
    }

    pub fn fail(&mut self, device: u8) -> Result<Answer, Refusal> {
        if device >= self.device_count {
            return refused(14);
        }
        if !self.is_up(device) {
            return refused(15);
        }
        self.down |= 1 << device;
        let aborted = self.disturb(device);
        // An abort may have moved the mark. The event itself leaves no setting, so there is nothing to attach.
        let after = self.marks[device as usize];
        self.settle();
        Ok(Answer::Down { device, after, aborted })
    }

    pub fn restart(&mut self, device: u8, setting: i16) -> Result<Answer, Refusal> {
        if device >= self.device_count {
            return refused(14);
        }
        if self.is_up(device) {
            return refused(16);
        }
        if !in_range(setting) {
            return refused(17);
        }
        // The device is still down while the abort goes out.
        let aborted = self.disturb(device);
        let after = self.marks[device as usize];
        match self.position(after) {
            Some(at) => self.sequence[at].restarts.attach(device, setting),
            None => self.settled[device as usize] = setting,
        }
        self.down &= !(1 << device);
        self.settle();
        Ok(Answer::Up { device, after, aborted })
    }

    /// A new pass limit: document 02, item 13. Every routine keeps its count.
    pub fn limit(&mut self, pass_limit: u8) -> Result<Answer, Refusal> {
        if pass_limit > MOST_PASSES {
            return refused(2);
        }
        self.pass_limit = pass_limit;
        self.settle();
        Ok(Answer::Limited { pass_limit })
    }

    // ---- what can be seen

    pub fn device_count(&self) -> u8 {
        self.device_count
    }

    pub fn is_up(&self, device: u8) -> bool {
        self.down >> device & 1 == 0
    }

    /// The setting of the last, in the hub's order, of the done commands on the device and its restarts.
    pub fn due_setting(&self, device: u8) -> i16 {
        let last = self.sequence.iter().rev().find_map(|r| r.last_setting(device));
        last.unwrap_or(self.settled[device as usize])
    }

    /// All due settings, into the first entries of a list: document 02, item 14. A refused call leaves the list as it was.
    pub fn due_settings(&self, list: &mut [i16]) -> Result<(), Refusal> {
        let Some(first) = list.get_mut(..self.device_count as usize) else {
            return refused(21);
        };
        for (device, entry) in first.iter_mut().enumerate() {
            *entry = self.due_setting(device as u8);
        }
        Ok(())
    }

    /// The routines of the sequence, in its order.
    pub fn routines(&self) -> impl Iterator<Item = Glance> + '_ {
        self.sequence.iter().map(|r| Glance {
            id: r.id,
            running: !r.committed,
            in_flight: r.in_flight,
            next: r.next(),
            condition_held: r.next_place().filter(|&place| r.is_asked(place)).map(|place| !r.is_dropped(place)),
            due_at_send: r.due_at_send,
            answered: usize::from(r.count) - r.left.count_ones() as usize,
            conditions_left: bits(r.left.into()).filter(|&i| r.commands[i as usize].tag == CONDITION).count(),
            done_devices: r.done_devices(),
            left_devices: bits(r.left.into()).fold(0, |set, i| set | 1 << r.commands[i as usize].device),
            amid: r.commands().iter().map(|c| c.device).filter(|&d| r.has_begun(d) && r.has_left(d)).fold(0, |set, d| set | 1 << d),
        })
    }

    pub fn routine_count(&self) -> usize {
        self.sequence.len()
    }

    pub fn has_ids_left(&self) -> bool {
        self.next_id.is_some()
    }

    // ---- parts of the calls

    /// `after`: the command after it in its routine.
    fn fault(&self, command: &Command, after: Option<&Command>) -> Option<u8> {
        if command.device >= self.device_count {
            Some(5)
        } else if !in_range(command.setting) {
            Some(6)
        } else if command.tag > CONDITION {
            Some(7)
        } else if command.tag == CONDITION && after.is_none_or(|c| c.tag == CONDITION) {
            Some(22)
        } else {
            None
        }
    }

    fn position(&self, id: u32) -> Option<usize> {
        self.sequence.iter().position(|r| r.id == id)
    }

    fn running(&self, id: u32) -> Result<usize, Refusal> {
        match self.position(id) {
            Some(at) if !self.sequence[at].committed => Ok(at),
            _ => refused(10),
        }
    }

    fn id_before(&self, at: usize) -> u32 {
        if at == 0 {
            SETTLED
        } else {
            self.sequence[at - 1].id
        }
    }

    /// Directly behind the last routine that a newcomer may not pass.
    fn place_for(&self, commands: &[Command]) -> usize {
        let bars = |r: &Routine| {
            let passed_enough = !r.committed && r.passed >= self.pass_limit;
            passed_enough || commands.iter().any(|c| self.marks[c.device as usize] == r.id)
        };
        self.sequence.iter().rposition(bars).map_or(0, |at| at + 1)
    }

    /// What an event of the device does to the running routine that has begun it and not finished it, if there is one: a must left on
    /// the device aborts it; otherwise what is left there is skipped (document 02, item 3). There is never more than one: a routine
    /// behind it waits before it begins the device, and newcomers go behind the device's mark.
    fn disturb(&mut self, device: u8) -> Option<Aborted> {
        let at = self.sequence.iter().position(|r| !r.committed && r.has_begun(device) && r.has_left(device))?;
        let routine = &mut self.sequence[at];
        let left = routine.left_on(device);
        if bits(left.into()).any(|i| routine.deciding_tag(i as usize) == MUST) {
            return Some(self.abort(at));
        }
        routine.skip(left);
        None
    }

    fn abort(&mut self, at: usize) -> Aborted {
        // Only the routine's done commands leave the order, so no other device's due setting can change.
        let routine = &self.sequence[at];
        let in_flight = routine.command_in_flight().map_or(0, |c| 1u32 << c.device);
        let touched = in_flight | routine.done_devices();
        let mut due_before = [0; MOST_DEVICES];
        for device in bits(touched) {
            due_before[device as usize] = self.due_setting(device);
        }
        #[cfg(debug_assertions)]
        let all_before: Vec<i16> = (0..self.device_count).map(|d| self.due_setting(d)).collect();

        let before = self.id_before(at);
        let gone = self.sequence.remove(at);
        for mark in &mut self.marks[..self.device_count as usize] {
            if *mark == gone.id {
                *mark = before;
            }
        }
        for device in bits(gone.restarts.devices) {
            let setting = gone.restarts.settings[device as usize];
            if at == 0 {
                self.settled[device as usize] = setting;
            } else {
                self.sequence[at - 1].restarts.attach(device, setting);
            }
        }

        #[cfg(debug_assertions)]
        for device in 0..self.device_count {
            let unchanged = all_before[device as usize] == self.due_setting(device);
            assert!(unchanged || touched >> device & 1 == 1);
        }
        let mut backs = Backs::default();
        for device in bits(touched) {
            let due = self.due_setting(device);
            let disturbed = due != due_before[device as usize] || in_flight >> device & 1 == 1;
            let taken = self.sequence.iter().any(|r| r.is_in_flight_on(device));
            if disturbed && self.is_up(device) && !taken {
                backs.push(device, due);
            }
        }
        Aborted { id: gone.id, backs }
    }

    /// The committed routines at the front join the settled part, each with its restarts behind it.
    fn settle(&mut self) {
        let count = self.sequence.iter().take_while(|r| r.committed).count();
        for routine in self.sequence.drain(..count) {
            for (i, command) in routine.commands().iter().enumerate() {
                if routine.is_done(i) {
                    self.settled[command.device as usize] = command.setting;
                }
            }
            for device in bits(routine.restarts.devices) {
                self.settled[device as usize] = routine.restarts.settings[device as usize];
            }
            for mark in &mut self.marks[..self.device_count as usize] {
                if *mark == routine.id {
                    *mark = SETTLED;
                }
            }
        }
    }
}

fn in_range(setting: i16) -> bool {
    (-MOST_SETTING..=MOST_SETTING).contains(&setting)
}
