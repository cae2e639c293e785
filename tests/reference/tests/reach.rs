//! The histories reach every answer and every refusal that lines can cause, often.

use reference::histories;
use reference::hub::{Command, Glance, CONDITION, MUST};
use reference::line::Program;
use std::collections::{BTreeMap, HashMap, HashSet};

const HISTORIES: u64 = 2000;

/// Number 13 is not among them: no line has a report code but 0 and 1. Nor is an abort by `B` with nothing back: the
/// device of the command that failed is up and is sent its due setting.
const WANTED: [&str; 76] = [
    "opened", "placed", "send", "held", "not held", "done", "committed", "wait", "down", "up", "unread", "device up", "device down",
    "skipped by N", "skipped by B", "skipped by B, back",
    "aborted by N", "aborted by N, back", "aborted by B, back", "aborted by C", "aborted by C, back",
    "aborted by F", "aborted by F, back", "aborted by R", "aborted by R, back",
    "event after 0", "event after a routine", "placed after 0", "placed after a routine",
    "refused 1", "refused 2", "refused 3", "refused 4", "refused 5", "refused 6", "refused 7", "refused 8", "refused 9",
    "refused 10", "refused 11", "refused 12", "refused 14", "refused 15", "refused 16", "refused 17", "refused 22",
    "F skips", "F skips several", "F skips one in flight", "F skips the last left", "R skips", "R skips several", "R skips the last left",
    "late D: refused 10", "late B: refused 10", "late D: refused 12", "late B: refused 12",
    "condition: held", "condition: held at the number", "condition: not held", "condition: answered behind a committed done setting",
    "condition: wait", "condition: wait for a done setting alone", "condition: wait, device down",
    "condition: skipped", "condition: aborted", "F skips a condition", "R skips a condition",
    "after a condition: wait", "after a condition: skipped, a must, device up", "after a condition: skipped, a must, device down",
    "after a condition: skipped, a best-effort, device up", "after a condition: skipped, a best-effort, device down",
    "after a skipped condition: skipped, device up", "after a condition that held: sent", "after a condition that held: aborted",
];

/// What a line of output, caused by a line of input, is counted as.
fn kinds(answer: &str, letter: char) -> Vec<String> {
    let words: Vec<&str> = answer.split(' ').collect();
    let after = if answer.ends_with(" after 0") { "0" } else { "a routine" };
    match words[0] {
        "refused" => vec![format!("refused {}", words[1])],
        "not" => vec!["not held".to_string()],
        "device" => vec![format!("device {}", words[2])],
        "skipped" if words.len() > 2 => vec![format!("skipped by {letter}, back")],
        "aborted" if words.len() > 4 => vec![format!("aborted by {letter}, back")],
        "aborted" | "skipped" => vec![format!("{} by {letter}", words[0])],
        "down" | "up" => vec![words[0].to_string(), format!("event after {after}")],
        "placed" => vec![words[0].to_string(), format!("placed after {after}")],
        word => vec![word.to_string()],
    }
}

/// The routine that a turn is about to be of, and what is known of the hub then.
struct Turn {
    routine: Glance,
    command: Command,
    device_up: bool,
    due: i16,
    /// Of the routines ahead: one that runs has not finished the device; a committed one has set it.
    unfinished: bool,
    set_by_committed: bool,
}

impl Turn {
    fn of(program: &Program, line: &[u8]) -> Option<Turn> {
        let id: u32 = std::str::from_utf8(line).ok()?.trim_end().strip_prefix("N ")?.parse().ok()?;
        let hub = program.hub()?;
        let routines: Vec<Glance> = hub.routines().collect();
        let at = routines.iter().position(|r| r.id == id && r.running && !r.in_flight)?;
        let command = routines[at].next?;
        let on_it = |set: u32| set >> command.device & 1 == 1;
        Some(Turn {
            routine: routines[at],
            command,
            device_up: hub.is_up(command.device),
            due: hub.due_setting(command.device),
            unfinished: routines[..at].iter().any(|r| r.running && on_it(r.left_devices)),
            set_by_committed: routines[..at].iter().any(|r| !r.running && on_it(r.done_devices)),
        })
    }

    /// What conditions bring (document 02, item 4). `last`: how the last condition of each routine was answered.
    fn kinds(&self, said: &str, last: &mut HashMap<u32, String>) -> Vec<String> {
        let id = self.routine.id;
        let answer = ["held", "not held", "wait", "skipped", "aborted", "send"].into_iter().find(|word| said.starts_with(word));
        let Some(answer) = answer else { return Vec::new() };
        let up = if self.device_up { "device up" } else { "device down" };
        let must = if self.command.tag == MUST { "a must" } else { "a best-effort" };
        let mut found = Vec::new();
        if self.command.tag == CONDITION {
            found.push(format!("condition: {answer}"));
            if answer == "held" && self.due == self.command.setting {
                found.push("condition: held at the number".to_string());
            }
            if answer.ends_with("held") && self.set_by_committed {
                found.push("condition: answered behind a committed done setting".to_string());
            }
            if answer == "wait" && !self.unfinished {
                found.push("condition: wait for a done setting alone".to_string());
            }
            if answer == "wait" && !self.device_up {
                found.push("condition: wait, device down".to_string());
            }
            last.insert(id, answer.to_string());
            return found;
        }
        match self.routine.condition_held {
            Some(false) if answer == "skipped" => {
                found.push(format!("after a condition: skipped, {must}, {up}"));
                if self.device_up && last.get(&id).is_some_and(|answer| answer == "skipped") {
                    found.push("after a skipped condition: skipped, device up".to_string());
                }
            }
            Some(false) => found.push(format!("after a condition: {answer}")),
            Some(true) if answer == "send" => found.push("after a condition that held: sent".to_string()),
            Some(true) if answer == "aborted" => found.push("after a condition that held: aborted".to_string()),
            _ => {}
        }
        found
    }
}

fn running(program: &Program) -> Vec<Glance> {
    program.hub().map_or_else(Vec::new, |hub| hub.routines().filter(|r| r.running).collect())
}

/// What an event did to the routines that go on (document 02, item 3). Those whose command in flight it skipped are noted, and those that
/// lost a condition.
fn skips(before: &[Glance], after: &[Glance], letter: char, lost: &mut HashSet<u32>, last: &mut HashMap<u32, String>) -> Vec<String> {
    let mut found = Vec::new();
    for now in after {
        let Some(then) = before.iter().find(|r| r.id == now.id && r.answered < now.answered) else { continue };
        found.push(format!("{letter} skips"));
        if now.answered > then.answered + 1 {
            found.push(format!("{letter} skips several"));
        }
        if now.next.is_none() {
            found.push(format!("{letter} skips the last left"));
        }
        if then.in_flight && !now.in_flight {
            found.push(format!("{letter} skips one in flight"));
            lost.insert(now.id);
        }
        if now.conditions_left < then.conditions_left {
            found.push(format!("{letter} skips a condition"));
            last.insert(now.id, "skipped".to_string());
        }
    }
    found
}

fn check(title: &str, input: fn(u64, u64) -> Vec<u8>, least: usize) {
    let mut counts: BTreeMap<String, usize> = BTreeMap::new();
    let mut lines = 0;
    for index in 0..HISTORIES {
        let input = input(1, index);
        let mut program = Program::new();
        let (mut lost, mut last) = (HashSet::new(), HashMap::new());
        let mut count = |kinds: Vec<String>| {
            for kind in kinds {
                *counts.entry(kind).or_insert(0) += 1;
            }
        };
        for line in input.split_inclusive(|&b| b == b'\n') {
            let letter = line[0] as char;
            let before = running(&program);
            let turn = Turn::of(&program, line);
            let mut answers = Vec::new();
            program.lines(line, &mut answers);
            let said = String::from_utf8(answers).unwrap();
            said.lines().for_each(|answer| count(kinds(answer, letter)));
            if let Some(turn) = turn {
                count(turn.kinds(&said, &mut last));
            }
            match letter {
                'F' | 'R' => count(skips(&before, &running(&program), letter, &mut lost, &mut last)),
                'D' | 'B' => {
                    let id = std::str::from_utf8(&line[1..]).ok().and_then(|text| text.trim().parse().ok());
                    if matches!(said.trim_end(), "refused 10" | "refused 12") && id.is_some_and(|id| lost.contains(&id)) {
                        count(vec![format!("late {letter}: {}", said.trim_end())]);
                    }
                }
                'O' if said == "opened\n" => {
                    lost.clear();
                    last.clear();
                }
                _ => {}
            }
            lines += 1;
        }
        let mut answers = Vec::new();
        program.end(&mut answers);
        String::from_utf8(answers).unwrap().lines().for_each(|answer| count(kinds(answer, ' ')));
    }
    println!("{title}: {HISTORIES} histories, {lines} lines");
    let mut rare = Vec::new();
    for kind in WANTED {
        let count = counts.remove(kind).unwrap_or(0);
        println!("{count:8} {kind}");
        if count < least {
            rare.push(kind);
        }
    }
    assert!(rare.is_empty(), "{title}: less than {least} times: {rare:?}");
    assert!(counts.is_empty(), "{title}: not expected {counts:?}");
}

#[test]
fn random_histories_reach_everything() {
    check("random", histories::random, 100);
}

#[test]
fn damaged_histories_reach_everything() {
    check("damaged", histories::damaged, 40);
}
