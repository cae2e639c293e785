//! Writes an input for timing: `bench_inputs busy|waits|refused LINES` or `bench_inputs devices`. The same words always give the
//! same bytes.

use reference::histories::{submission, Random};
use reference::hub::{Answer, Command, Hub, BEST_EFFORT, MOST_COMMANDS, MOST_ROUTINES, MUST};
use reference::line::Program;
use std::io::{self, Write};
use std::process::exit;

const SEED: u64 = 20;

fn main() -> io::Result<()> {
    let words: Vec<String> = std::env::args().skip(1).collect();
    let mut bench = Bench { random: Random::new(SEED, 0), text: Vec::new(), program: Program::new(), printed: Vec::new() };
    if words == ["devices"] {
        bench.devices();
        return io::stdout().lock().write_all(&bench.text);
    }
    let [kind, lines] = words.as_slice() else { usage() };
    let Ok(lines) = lines.parse::<usize>() else { usage() };
    let (open, step): (&str, fn(&mut Bench)) = match kind.as_str() {
        "busy" => ("O 32 4 1", Bench::busy),
        "waits" => ("O 32 0 1", Bench::waits),
        "refused" => ("O 8 2 1", Bench::refused),
        _ => usage(),
    };
    if lines > 0 {
        bench.say(open.as_bytes());
    }
    for _ in 1..lines {
        step(&mut bench);
    }
    io::stdout().lock().write_all(&bench.text)
}

fn usage() -> ! {
    eprintln!("bench_inputs busy|waits|refused LINES, or bench_inputs devices");
    exit(2)
}

struct Bench {
    random: Random,
    text: Vec<u8>,
    program: Program,
    printed: Vec<u8>,
}

impl Bench {
    fn say(&mut self, line: &[u8]) {
        self.printed.clear();
        self.program.line(line, &mut self.printed);
        self.text.extend_from_slice(line);
        self.text.push(b'\n');
    }

    fn hub(&self) -> &Hub {
        self.program.hub().expect("the first line opens a hub")
    }

    fn is_full(&self) -> bool {
        self.hub().routine_count() == MOST_ROUTINES
    }

    fn submit(&mut self, most_commands: i64, devices: usize) {
        let count = self.random.between(1, most_commands);
        self.submit_all(count, devices, (-1000, 1000));
    }

    fn submit_all(&mut self, count: i64, devices: usize, settings: (i64, i64)) {
        let commands: Vec<Command> = (0..count)
            .map(|_| Command {
                device: self.random.below(devices) as u8,
                tag: if self.random.percent(30) { BEST_EFFORT } else { MUST },
                setting: self.random.between(settings.0, settings.1) as i16,
            })
            .collect();
        self.say(submission(&commands).as_bytes());
    }

    /// The running routines, each with: is its command in flight?
    fn running(&self) -> Vec<(u32, bool)> {
        self.hub().routines().filter(|r| r.running).map(|r| (r.id, r.in_flight)).collect()
    }

    fn would_wait(&self, id: u32) -> bool {
        matches!(self.hub().clone().turn(id), Ok(Answer::Wait { .. }))
    }

    /// A step of a running routine that need not wait. The first one never must.
    fn advance(&mut self) {
        let running = self.running();
        let mut chosen = running[0];
        for _ in 0..8 {
            let (id, in_flight) = *self.random.pick(&running);
            if in_flight || !self.would_wait(id) {
                chosen = (id, in_flight);
                break;
            }
        }
        let (id, in_flight) = chosen;
        let letter = match in_flight {
            false => 'N',
            true if self.random.percent(2) => 'B',
            true => 'D',
        };
        self.say(format!("{letter} {id}").as_bytes());
    }

    /// A full sequence on 32 devices: what ends is replaced at once.
    fn busy(&mut self) {
        if !self.is_full() {
            return self.submit(8, 32);
        }
        let down = (0..32).find(|&d| !self.hub().is_up(d));
        match (self.random.below(200), down) {
            (0..=1, None) => {
                let device = self.random.below(32);
                self.say(format!("F {device}").as_bytes());
            }
            // Down for a few lines only.
            (0..=39, Some(device)) => self.say(format!("R {device} 5").as_bytes()),
            _ => self.advance(),
        }
    }

    /// A short sitting that ends with 32 device lines: a full sequence of full routines, all of whose commands were done, and none of
    /// which commits. (Settings of one digit: sixteen commands have to fit a line.)
    fn devices(&mut self) {
        self.say(b"O 32 8 1");
        for id in 1..=MOST_ROUTINES {
            self.submit_all(MOST_COMMANDS as i64, 32, (0, 9));
            for _ in 0..MOST_COMMANDS {
                self.say(format!("N {id}").as_bytes());
                self.say(format!("D {id}").as_bytes());
            }
        }
        assert!(self.is_full() && self.hub().routines().all(|r| r.running && r.answered == MOST_COMMANDS));
    }

    /// Routines that all want the same few devices: fifteen turns in sixteen wait.
    fn waits(&mut self) {
        if !self.is_full() {
            return self.submit(8, 12);
        }
        let running = self.running();
        let (id, in_flight) = *self.random.pick(&running);
        if !in_flight && self.would_wait(id) && self.random.below(16) != 0 {
            return self.say(format!("N {id}").as_bytes());
        }
        if self.random.below(4) != 0 {
            // Another that waits, if this one does not.
            if let Some(&(id, _)) = running.iter().rev().find(|(id, in_flight)| !in_flight && self.would_wait(*id)) {
                return self.say(format!("N {id}").as_bytes());
            }
        }
        self.advance();
    }

    /// A full sequence at rest, device 7 down; what is said is wrong in one way or another, but for one line in twenty.
    fn refused(&mut self) {
        if !self.is_full() {
            return self.submit(4, 7);
        }
        if self.hub().is_up(7) {
            return self.say(b"F 7");
        }
        if self.running().iter().all(|(_, in_flight)| !in_flight) {
            return self.advance();
        }
        if self.random.below(20) == 0 {
            let still: Vec<u32> = self.running().iter().filter(|(_, in_flight)| !in_flight).map(|(id, _)| *id).collect();
            if let Some(&id) = still.iter().find(|&&id| self.would_wait(id)) {
                return self.say(format!("N {id}").as_bytes());
            }
        }
        let line = if self.random.percent(60) { *self.random.pick(&REFUSED) } else { *self.random.pick(&UNREAD) };
        let line = match line {
            // These two need an id of the hub.
            "turn" | "report" => {
                let wanted = line == "turn";
                let found = self.running().into_iter().find(|(_, in_flight)| *in_flight == wanted);
                found.map_or("N 0".to_string(), |(id, _)| format!("{} {id}", if wanted { "N" } else { "D" }))
            }
            "long" => format!("N {:0>1$}", 1, 127),
            "longer" => format!("S {}", "0 ".repeat(100)),
            _ => line.to_string(),
        };
        self.say(line.as_bytes());
    }
}

const REFUSED: [&str; 24] = [
    "O 0 2 1", "O 33 2 1", "O 8 9 1", "O 8 2 0", "S", "S 0 0 1 0 0 2 0 0 3 0 0 4 0 0 5 0 0 6 0 0 7 0 0 8 0 0 9", "S 8 0 5",
    "S 0 0 1 1 1 1001", "S 0 0 5 1 0 5 2 3 5", "S 0 0 5 1 0 5", "S 3 1 -1001", "S 1 0 5", "N 0", "D 4294967295", "B 3000000000",
    "C 0", "turn", "report", "F 8", "F 7", "R 0 5", "R 7 1001", "R 200 -5", "R 7 -32768",
];

const UNREAD: [&str; 20] = [
    "", "n 1", "N  1", " N 1", "N 1 ", "N +1", "N -1", "N 4294967296", "D", "D 1 2", "S 0 0", "S 256 0 5", "S 0 0 40000",
    "S 0 0 5 1 0 -32769",
    "F -1", "R 0", "O 8 2", "Q 5", "long", "longer",
];
