//! A new pass limit without a stop: document 02, item 13; and the waiting promise with such limits and with conditions (item 4).

use reference::histories::Random;
use reference::hub::{Answer, Command, Hub, Refusal};
use reference::hub::{BEST_EFFORT, CONDITION, DONE, FAILED, MOST_COMMANDS, MOST_PASSES, MOST_ROUTINES, MUST};
use std::collections::HashMap;

fn one() -> Vec<Command> {
    vec![Command { device: 0, tag: MUST, setting: 5 }]
}

/// The id that a newcomer follows.
fn follows(hub: &mut Hub) -> u32 {
    match hub.submit(&one()) {
        Ok(Answer::Placed { after, .. }) => after,
        other => panic!("{other:?}"),
    }
}

/// Routines 3, 2 and 1 in this order; 1 has been passed twice, 2 once.
fn passed() -> Hub {
    let mut hub = Hub::open(1, MOST_PASSES, 1).unwrap();
    for _ in 0..3 {
        assert_eq!(follows(&mut hub), 0);
    }
    hub
}

#[test]
fn above_8_is_refused_with_2_and_changes_nothing() {
    for new in [MOST_PASSES + 1, 100, u8::MAX] {
        let mut hub = passed();
        let before = format!("{hub:?}");
        assert_eq!(hub.limit(new), Err(Refusal { number: 2, index: None }));
        assert_eq!(format!("{hub:?}"), before);
    }
}

#[test]
fn nothing_else_changes() {
    for new in 0..=MOST_PASSES {
        let mut hub = passed();
        hub.turn(3).unwrap();
        hub.report(3, DONE).unwrap();
        let before = format!("{hub:?}").replace("pass_limit: 8", &format!("pass_limit: {new}"));
        assert_eq!(hub.limit(new), Ok(Answer::Limited { pass_limit: new }));
        assert_eq!(format!("{hub:?}"), before);
    }
}

#[test]
fn passed_as_often_or_oftener_it_may_not_be_passed() {
    for (new, after) in [(0, 1), (1, 1), (2, 1), (3, 0), (8, 0)] {
        let mut hub = passed();
        hub.limit(new).unwrap();
        assert_eq!(follows(&mut hub), after, "K = {new}");
    }
}

#[test]
fn counts_are_kept_through_several_limits() {
    let mut hub = passed();
    for new in [0, 1, 8, 0, 2] {
        hub.limit(new).unwrap();
    }
    assert_eq!(follows(&mut hub), 1);
    hub.limit(3).unwrap();
    assert_eq!(follows(&mut hub), 0);
    assert_eq!(follows(&mut hub), 1, "routine 1 has been passed three times");
}

/// Rounds with submissions and new limits between them: once (8 + 1) x (16 + K) rounds count, since the submission or, if later, the
/// last new limit, by the K in force, the routine has ended. Every other schedule has full routines on one device alone; two of three have
/// conditions.
#[test]
fn the_waiting_promise_counts_from_the_last_change() {
    let mut most = 0.0f64;
    let mut counted_again = 0;
    let mut conditions = 0;
    for index in 0..60 {
        let mut random = Random::new(13, index);
        let full = index % 2 == 0;
        let mut limit = random.below(4) as u8;
        let mut hub = Hub::open(3, limit, 1).unwrap();
        let mut counts: HashMap<u32, u32> = HashMap::new();
        for _ in 0..500 {
            for _ in 0..1 + random.below(2) {
                let devices = if full { 1 } else { 3 };
                let count = if full { MOST_COMMANDS } else { 1 + random.below(MOST_COMMANDS) };
                let mut commands: Vec<Command> = (0..count)
                    .map(|_| Command { device: random.below(devices) as u8, tag: *random.pick(&[MUST, BEST_EFFORT]), setting: 5 })
                    .collect();
                if index % 3 != 0 {
                    put_conditions(&mut commands, &mut random);
                }
                if let Ok(Answer::Placed { id, .. }) = hub.submit(&commands) {
                    counts.insert(id, 0);
                }
            }
            if random.percent(if full { 1 } else { 4 }) {
                let new = random.below(usize::from(MOST_PASSES) + 2) as u8;
                if hub.limit(new).is_ok() {
                    limit = new;
                    counted_again += counts.len();
                    counts.values_mut().for_each(|count| *count = 0);
                }
            }
            let failed = if full { 0 } else { 10 };
            conditions += round(&mut hub, &mut random, failed);
            let enough = (MOST_COMMANDS as u32 + 1) * (MOST_ROUTINES as u32 + u32::from(limit));
            counts.retain(|id, _| hub.routines().any(|r| r.id == *id && r.running));
            for count in counts.values_mut() {
                *count += 1;
                assert!(*count < enough, "schedule {index}: {count} rounds, K = {limit}");
                most = most.max(f64::from(*count) / f64::from(enough));
            }
        }
    }
    assert!(counted_again > 1000, "{counted_again} routines are counted again");
    assert!(conditions > 1000, "{conditions} conditions are answered");
    assert!(most > 0.5, "a schedule comes near the promise: {most}");
}

/// Some of the commands become conditions, none of them last or before another.
fn put_conditions(commands: &mut [Command], random: &mut Random) {
    for at in 1..commands.len() {
        if (at < 2 || commands[at - 2].tag != CONDITION) && random.percent(40) {
            commands[at - 1].tag = CONDITION;
            commands[at - 1].setting = *random.pick(&[0, 5, 6]);
        }
    }
}

/// One turn for each routine that runs and has nothing in flight, in any order; then a report for each command in flight. How many
/// conditions were answered: each has then had its turn, with nothing in flight behind it.
fn round(hub: &mut Hub, random: &mut Random, failed: usize) -> usize {
    let mut conditions = 0;
    let mut ids: Vec<u32> = hub.routines().filter(|r| r.running && !r.in_flight).map(|r| r.id).collect();
    while !ids.is_empty() {
        let id = ids.swap_remove(random.below(ids.len()));
        if let Ok(Answer::Held { .. } | Answer::NotHeld { .. }) = hub.turn(id) {
            assert!(hub.routines().all(|r| r.id != id || !r.in_flight));
            conditions += 1;
        }
    }
    let mut ids: Vec<u32> = hub.routines().filter(|r| r.in_flight).map(|r| r.id).collect();
    while !ids.is_empty() {
        let code = if random.percent(failed) { FAILED } else { DONE };
        hub.report(ids.swap_remove(random.below(ids.len())), code).unwrap();
    }
    conditions
}

/// Routines of eight commands, every other of them a condition, all on one device, and turns from behind: each waits until the one ahead
/// has committed. The last of a full sequence, passed as often as may be, needs every round that is promised.
#[test]
fn with_conditions_the_last_round_of_the_promise_is_needed() {
    let tags = [CONDITION, MUST].into_iter().cycle().take(MOST_COMMANDS);
    let full: Vec<Command> = tags.map(|tag| Command { device: 0, tag, setting: 0 }).collect();
    for limit in [0, 1, 3, MOST_PASSES] {
        // In the order of the submissions; the limit is then the new one, from which the rounds count.
        let mut hub = Hub::open(1, 0, 1).unwrap();
        for _ in 0..MOST_ROUTINES {
            hub.submit(&full).unwrap();
        }
        hub.limit(limit).unwrap();
        let last = MOST_ROUTINES as u32;
        let mut rounds = 0;
        while hub.routines().any(|r| r.id == last && r.running) {
            let turns: Vec<u32> = hub.routines().filter(|r| r.running && !r.in_flight).map(|r| r.id).collect();
            for id in turns.into_iter().rev() {
                hub.turn(id).unwrap();
            }
            let reports: Vec<u32> = hub.routines().filter(|r| r.in_flight).map(|r| r.id).collect();
            for id in reports {
                hub.report(id, DONE).unwrap();
            }
            let _ = hub.submit(&full); // refused while the sequence is full
            rounds += 1;
        }
        assert_eq!(rounds, (MOST_COMMANDS + 1) * (MOST_ROUTINES + usize::from(limit)), "K = {limit}");
    }
}
