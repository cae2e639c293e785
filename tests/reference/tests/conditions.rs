//! Conditions: document 02, item 4, sentence by sentence. That they have the same outcome along the order is in order.rs, that routines
//! with conditions end in time in limits.rs.

mod common;
use common::lines;
use reference::hub::{Answer, Backs, Command, Hub, Refusal, BEST_EFFORT, CONDITION, DONE, FAILED, MUST};

fn command(device: u8, tag: u8, setting: i16) -> Command {
    Command { device, tag, setting }
}

/// A hub with device 0 at this due setting, by a routine that has settled; the next id is 2.
fn due(setting: i16) -> Hub {
    let mut hub = Hub::open(3, 2, 1).unwrap();
    hub.submit(&[command(0, MUST, setting)]).unwrap();
    hub.turn(1).unwrap();
    hub.report(1, DONE).unwrap();
    hub.turn(1).unwrap();
    assert_eq!(hub.routine_count(), 0);
    hub
}

fn skipped(id: u32) -> Result<Answer, Refusal> {
    Ok(Answer::Skipped { id, backs: Backs::default() })
}

// ---- "if its device's due setting is below the given number, it doesn't hold"

#[test]
fn it_holds_unless_the_due_setting_is_below_the_number() {
    for setting in [-1000, -999, -1, 0, 1, 30, 999, 1000] {
        for number in [-1000, -999, -2, -1, 0, 1, 2, 29, 30, 31, 999, 1000] {
            let mut hub = due(setting);
            hub.submit(&[command(0, CONDITION, number), command(1, MUST, 5)]).unwrap();
            let expected = if setting < number { Answer::NotHeld { id: 2 } } else { Answer::Held { id: 2 } };
            assert_eq!(hub.turn(2), Ok(expected), "{setting}, {number}");
        }
    }
}

#[test]
fn settings_of_running_routines_count_its_own_too() {
    lines(&[
        ("O 2 0 1", "opened"),
        ("S 0 0 40 0 2 40 0 0 -3 0 2 -2 1 0 9", "placed 1 after 0"),
        ("N 1", "send 1 0 40"),
        ("D 1", "done 1"),
        ("N 1", "held 1"),
        ("N 1", "send 1 0 -3"),
        ("D 1", "done 1"),
        ("N 1", "not held 1"),
        ("N 1", "skipped 1"),
        ("N 1", "committed 1"),
    ]);
}

#[test]
fn a_restart_counts() {
    lines(&[
        ("O 2 0 1", "opened"),
        ("S 0 0 40", "placed 1 after 0"),
        ("N 1", "send 1 0 40"),
        ("D 1", "done 1"),
        ("N 1", "committed 1"),
        ("F 0", "down 0 after 0"),
        ("R 0 -8", "up 0 after 0"),
        ("S 0 2 -8 1 0 1 0 2 -7 1 0 2", "placed 2 after 0"),
        ("N 2", "held 2"),
        ("N 2", "send 2 1 1"),
        ("D 2", "done 2"),
        ("N 2", "not held 2"),
    ]);
}

// ---- "and the following command is skipped at its own turn, its device up or down, after the wait rule"

#[test]
fn the_following_command_is_skipped_at_its_own_turn() {
    lines(&[
        ("O 2 8 1", "opened"),
        ("S 0 2 1 1 0 50 1 0 60", "placed 1 after 0"),
        ("S 1 0 7", "placed 2 after 0"),
        ("C 2", "aborted 2 back 0"),
        ("N 1", "not held 1"),
        // It is not skipped yet: device 1 is not begun, so one that uses it may still go ahead.
        ("S 1 0 7", "placed 3 after 0"),
        ("N 1", "wait 1 on 3"),
        ("N 3", "send 3 1 7"),
        ("D 3", "done 3"),
        ("N 1", "skipped 1"),
        // Now it has begun it.
        ("S 1 0 7", "placed 4 after 1"),
        // The one behind it goes as any other.
        ("N 1", "send 1 1 60"),
    ]);
}

#[test]
fn a_must_and_a_best_effort_up_and_down() {
    for tag in [MUST, BEST_EFFORT] {
        for down in [false, true] {
            let mut hub = due(4);
            hub.submit(&[command(0, CONDITION, 5), command(1, tag, 50), command(2, MUST, 6)]).unwrap();
            assert_eq!(hub.turn(2), Ok(Answer::NotHeld { id: 2 }));
            if down {
                hub.fail(1).unwrap();
            }
            assert_eq!(hub.turn(2), skipped(2));
            assert_eq!(hub.turn(2), Ok(Answer::Send { id: 2, device: 2, setting: 6 }));
            assert_eq!(hub.due_setting(1), 0);
        }
    }
}

#[test]
fn it_is_skipped_on_the_condition_s_own_device() {
    lines(&[
        ("O 1 0 1", "opened"),
        ("S 0 2 1 0 0 50", "placed 1 after 0"),
        ("S 0 0 7", "placed 2 after 1"),
        ("N 1", "not held 1"),
        ("N 2", "wait 2 on 1"),
        ("N 1", "skipped 1"),
        ("N 2", "send 2 0 7"),
    ]);
}

#[test]
fn each_condition_is_for_the_command_after_it_alone() {
    lines(&[
        ("O 2 0 1", "opened"),
        ("S 0 2 1 1 0 10 1 0 20 0 2 0 1 0 30 0 2 1 1 0 40", "placed 1 after 0"),
        ("N 1", "not held 1"),
        ("N 1", "skipped 1"),
        ("N 1", "send 1 1 20"),
        ("D 1", "done 1"),
        ("N 1", "held 1"),
        ("N 1", "send 1 1 30"),
        ("D 1", "done 1"),
        ("N 1", "not held 1"),
        ("N 1", "skipped 1"),
        ("N 1", "committed 1"),
    ]);
}

#[test]
fn after_one_that_held_a_command_goes_as_any_other() {
    lines(&[
        ("O 2 0 1", "opened"),
        ("S 0 2 0 1 1 10 0 2 0 1 1 20 0 2 0 1 0 30", "placed 1 after 0"),
        ("N 1", "held 1"),
        ("N 1", "send 1 1 10"),
        ("B 1", "skipped 1"),
        ("N 1", "held 1"),
        ("N 1", "send 1 1 20"),
        ("D 1", "done 1"),
        ("N 1", "held 1"),
        ("N 1", "send 1 1 30"),
        ("B 1", "aborted 1 back 1 1 0"),
        ("S 0 2 0 1 0 30", "placed 2 after 0"),
        ("N 2", "held 2"),
        ("F 1", "down 1 after 0"),
        ("N 2", "aborted 2 back 0"),
    ]);
}

// ---- "The condition uses its device like a command (an answered one begins it and sets the mark)"

#[test]
fn one_that_waits_or_aborts_begins_nothing_an_answered_one_does() {
    lines(&[
        ("O 3 8 1", "opened"),
        ("S 0 2 0 2 1 5", "placed 1 after 0"),
        // Nothing is begun: a newcomer goes ahead.
        ("S 0 0 1", "placed 2 after 0"),
        ("N 1", "wait 1 on 2"),
        ("C 2", "aborted 2 back 0"),
        ("S 0 0 1", "placed 3 after 0"),
        ("C 3", "aborted 3 back 0"),
        ("N 1", "held 1"),
        ("S 0 0 1", "placed 4 after 1"),
        ("F 1", "down 1 after 0"),
        ("S 1 2 0 2 0 5", "placed 5 after 0"),
        ("N 5", "aborted 5 back 0"),
        ("R 1 4", "up 1 after 0"),
        ("S 1 2 5 2 0 5", "placed 6 after 0"),
        ("N 6", "not held 6"),
        ("F 1", "down 1 after 6"),
        ("S 1 2 0 2 1 5", "placed 7 after 6"),
        ("N 7", "skipped 7"),
        ("R 1 4", "up 1 after 7"),
    ]);
}

#[test]
fn its_mark_goes_the_way_of_every_mark() {
    lines(&[
        ("O 2 0 1", "opened"),
        ("S 1 0 5", "placed 1 after 0"),
        ("S 0 2 0 1 0 5", "placed 2 after 1"),
        ("N 2", "held 2"),
        ("F 0", "down 0 after 2"),
        ("C 2", "aborted 2 back 0"),
        ("R 0 7", "up 0 after 1"),
        ("C 1", "aborted 1 back 0"),
        ("F 0", "down 0 after 0"),
    ]);
}

#[test]
fn it_goes_behind_the_mark_of_its_device() {
    lines(&[
        ("O 3 8 1", "opened"),
        ("S 0 0 5 2 0 5", "placed 1 after 0"),
        ("N 1", "send 1 0 5"),
        ("S 0 2 0 1 0 5", "placed 2 after 1"),
        ("S 1 2 0 2 0 5", "placed 3 after 0"),
    ]);
}

#[test]
fn others_wait_for_it_until_it_is_answered() {
    lines(&[
        ("O 3 0 1", "opened"),
        ("S 2 0 5 0 2 0 1 0 5", "placed 1 after 0"),
        ("S 0 0 9", "placed 2 after 1"),
        ("S 0 2 0 1 0 9", "placed 3 after 2"),
        ("N 2", "wait 2 on 1"),
        ("N 3", "wait 3 on 1"),
        ("N 1", "send 1 2 5"),
        ("D 1", "done 1"),
        ("N 2", "wait 2 on 1"),
        ("N 1", "held 1"),
        ("N 3", "wait 3 on 2"),
        ("N 2", "send 2 0 9"),
    ]);
}

// ---- "takes one turn, sends nothing and answers `held` or `not held` with the id"

#[test]
fn nothing_is_in_flight_after_it() {
    for number in [0, 1] {
        let mut hub = Hub::open(1, 0, 77).unwrap();
        hub.submit(&[command(0, CONDITION, number), command(0, MUST, 5)]).unwrap();
        let answer = hub.turn(77);
        assert_eq!(answer, Ok(if number == 0 { Answer::Held { id: 77 } } else { Answer::NotHeld { id: 77 } }));
        assert!(hub.routines().all(|r| !r.in_flight && r.answered == 1));
        let before = format!("{hub:?}");
        for code in [DONE, FAILED, 2] {
            assert_eq!(hub.report(77, code), Err(Refusal { number: 12, index: None }));
        }
        assert_eq!(format!("{hub:?}"), before);
        let next = hub.turn(77);
        assert_eq!(next, if number == 0 { Ok(Answer::Send { id: 77, device: 0, setting: 5 }) } else { skipped(77) });
    }
    lines(&[
        ("O 1 0 4294967295", "opened"),
        ("S 0 2 1 0 0 5 0 2 0 0 0 5", "placed 4294967295 after 0"),
        ("N 4294967295", "not held 4294967295"),
        ("N 4294967295", "skipped 4294967295"),
        ("N 4294967295", "held 4294967295"),
    ]);
}

#[test]
fn it_sets_nothing() {
    let mut hub = due(4);
    hub.submit(&[command(0, CONDITION, -900), command(1, MUST, 5), command(0, CONDITION, 900), command(1, MUST, 6)]).unwrap();
    hub.turn(2).unwrap();
    assert_eq!(hub.due_setting(0), 4);
    hub.turn(2).unwrap();
    hub.report(2, DONE).unwrap();
    hub.turn(2).unwrap();
    assert_eq!(hub.due_setting(0), 4);
    let Ok(Answer::Aborted(aborted)) = hub.cancel(2) else { panic!() };
    assert_eq!(aborted.backs.as_slice(), [(1, 0)]);
}

// ---- "It also waits while another running routine ahead has a done setting on that device"

/// Routine 1 has done device 0 = 50 and finished it, and has device 1 left.
const FIRST: [(&str, &str); 4] =
    [("O 3 8 1", "opened"), ("S 0 0 50 1 1 5", "placed 1 after 0"), ("N 1", "send 1 0 50"), ("D 1", "done 1")];

fn behind_first(rest: &[(&str, &str)]) {
    lines(&FIRST.iter().chain(rest).copied().collect::<Vec<_>>());
}

#[test]
fn it_waits_until_that_one_commits() {
    behind_first(&[
        ("S 0 2 50 2 0 7", "placed 2 after 1"),
        ("N 2", "wait 2 on 1"),
        ("N 1", "send 1 1 5"),
        ("N 2", "wait 2 on 1"),
        ("B 1", "skipped 1"),
        ("N 2", "wait 2 on 1"),
        ("N 1", "committed 1"),
        ("N 2", "held 2"),
    ]);
}

#[test]
fn it_waits_until_that_one_aborts_and_then_sees_what_is_left() {
    behind_first(&[
        ("S 0 2 1 2 0 7", "placed 2 after 1"),
        ("N 2", "wait 2 on 1"),
        ("C 1", "aborted 1 back 1 0 0"),
        ("N 2", "not held 2"),
    ]);
}

#[test]
fn the_outcome_does_not_matter_for_the_wait() {
    // It would not hold whether 1 aborts or not, and yet it waits.
    behind_first(&[("S 0 2 60 2 0 7", "placed 2 after 1"), ("N 2", "wait 2 on 1"), ("N 2", "wait 2 on 1")]);
}

#[test]
fn it_waits_although_another_setting_stands_since() {
    // Another routine has set the device and committed.
    behind_first(&[
        ("S 0 0 70", "placed 2 after 1"),
        ("N 2", "send 2 0 70"),
        ("D 2", "done 2"),
        ("N 2", "committed 2"),
        ("S 0 2 70 2 0 7", "placed 3 after 2"),
        ("N 3", "wait 3 on 1"),
        ("C 1", "aborted 1 back 0"),
        ("N 3", "held 3"),
    ]);
    // The device has restarted.
    behind_first(&[
        ("F 0", "down 0 after 1"),
        ("R 0 40", "up 0 after 1"),
        ("S 0 2 41 2 0 7", "placed 2 after 1"),
        ("N 2", "wait 2 on 1"),
        ("C 1", "aborted 1 back 0"),
        ("N 2", "not held 2"),
    ]);
}

#[test]
fn a_plain_command_does_not_wait_for_a_done_setting() {
    behind_first(&[
        ("S 0 0 60 0 2 60 2 0 7", "placed 2 after 1"),
        ("N 2", "send 2 0 60"),
        ("D 2", "done 2"),
        ("N 2", "wait 2 on 1"),
    ]);
    // Nor does the command after a condition, whether it is skipped or sent.
    behind_first(&[("S 2 2 1 0 0 70", "placed 2 after 1"), ("N 2", "not held 2"), ("N 2", "skipped 2"), ("N 2", "committed 2")]);
    behind_first(&[("S 2 2 0 0 0 70", "placed 2 after 1"), ("N 2", "held 2"), ("N 2", "send 2 0 70")]);
}

#[test]
fn its_own_done_setting_and_those_on_other_devices_are_no_cause() {
    behind_first(&[
        ("S 2 0 9 2 2 9 1 0 1", "placed 2 after 0"),
        ("N 2", "send 2 2 9"),
        ("D 2", "done 2"),
        ("N 2", "held 2"),
    ]);
    behind_first(&[("S 0 0 9 2 2 0 1 0 1", "placed 2 after 1"), ("N 2", "send 2 0 9"), ("D 2", "done 2"), ("N 2", "held 2")]);
}

#[test]
fn committed_routines_ahead_are_no_cause() {
    lines(&[
        ("O 2 0 1", "opened"),
        ("S 1 0 5", "placed 1 after 0"),
        ("S 0 0 50", "placed 2 after 1"),
        ("S 0 2 50 0 0 60", "placed 3 after 2"),
        ("N 1", "send 1 1 5"),
        ("N 2", "send 2 0 50"),
        ("D 2", "done 2"),
        ("N 3", "wait 3 on 2"),
        ("N 2", "committed 2"),
        // 1 runs still, so 2 is not settled.
        ("N 3", "held 3"),
    ]);
}

#[test]
fn restarts_behind_running_routines_are_no_cause() {
    lines(&[
        ("O 2 0 1", "opened"),
        ("S 0 1 50 1 0 5", "placed 1 after 0"),
        ("N 1", "send 1 0 50"),
        ("F 0", "down 0 after 1"),
        ("R 0 33", "up 0 after 1"),
        ("S 0 2 33 1 0 5", "placed 2 after 1"),
        ("S 0 2 34 1 0 5", "placed 3 after 2"),
        ("N 2", "held 2"),
        ("N 3", "not held 3"),
        // The restart outlives its routine, and so their outcomes are right still.
        ("C 1", "aborted 1 back 0"),
        ("N 2", "send 2 1 5"),
    ]);
}

#[test]
fn skipped_commands_and_conditions_ahead_are_no_cause() {
    lines(&[
        ("O 3 0 1", "opened"),
        ("S 0 2 0 1 1 5 2 0 5", "placed 1 after 0"),
        ("S 0 2 0 2 0 6", "placed 2 after 1"),
        ("S 1 2 0 2 0 7", "placed 3 after 2"),
        ("N 1", "held 1"),
        ("N 2", "held 2"),
        ("N 1", "send 1 1 5"),
        ("B 1", "skipped 1"),
        ("N 3", "held 3"),
    ]);
}

// ---- "the id named is the first in the sequence that gives either cause to wait"

#[test]
fn the_first_with_either_cause_is_named() {
    behind_first(&[
        ("S 0 0 60 1 0 6", "placed 2 after 1"),
        ("S 0 0 70", "placed 3 after 1"),
        ("S 0 2 0 2 0 7", "placed 4 after 1"),
        // The sequence is 1, 4, 3, 2.
        ("N 4", "wait 4 on 1"),
        ("N 3", "wait 3 on 4"),
        ("C 4", "aborted 4 back 0"),
        ("N 3", "send 3 0 70"),
        ("D 3", "done 3"),
        ("N 2", "send 2 0 60"),
        ("S 0 2 0 2 0 7", "placed 5 after 2"),
        // 1 and 3 have done settings, 2 has not finished.
        ("N 5", "wait 5 on 1"),
        ("C 1", "aborted 1 back 0"),
        ("N 5", "wait 5 on 3"),
        ("N 3", "committed 3"),
        ("N 5", "wait 5 on 2"),
        ("D 2", "done 2"),
        ("N 5", "wait 5 on 2"),
        ("C 2", "aborted 2 back 1 0 70"),
        ("N 5", "held 5"),
    ]);
}

// ---- "If the device is down, the following command decides: must aborts, best-effort skips the condition"

#[test]
fn on_a_down_device_the_tag_of_the_command_after_it_decides() {
    for on in [0, 1] {
        let mut hub = due(4);
        hub.fail(0).unwrap();
        hub.submit(&[command(2, MUST, 9), command(0, CONDITION, 0), command(on, MUST, 5)]).unwrap();
        hub.turn(2).unwrap();
        hub.report(2, DONE).unwrap();
        let Ok(Answer::Aborted(aborted)) = hub.turn(2) else { panic!() };
        assert_eq!((aborted.id, aborted.backs.as_slice()), (2, &[(2, 0)][..]));
        assert_eq!(hub.restart(0, 6), Ok(Answer::Up { device: 0, after: 0, aborted: None }));

        let mut hub = due(4);
        hub.fail(0).unwrap();
        // The must behind the best-effort decides nothing.
        hub.submit(&[command(0, CONDITION, 0), command(on, BEST_EFFORT, 5), command(2, MUST, 9)]).unwrap();
        assert_eq!(hub.turn(2), skipped(2));
        assert_eq!(hub.turn(2), skipped(2));
        assert_eq!(hub.turn(2), Ok(Answer::Send { id: 2, device: 2, setting: 9 }));
    }
}

#[test]
fn a_skipped_condition_counts_as_not_held() {
    lines(&[
        ("O 2 0 1", "opened"),
        ("F 0", "down 0 after 0"),
        ("S 0 2 -1000 1 1 5 1 1 6", "placed 1 after 0"),
        ("N 1", "skipped 1"),
        // With its device up again it would hold; it was answered.
        ("R 0 1000", "up 0 after 1"),
        ("N 1", "skipped 1"),
        ("N 1", "send 1 1 6"),
    ]);
}

#[test]
fn it_waits_before_the_look_at_its_device() {
    lines(&[
        ("O 2 0 1", "opened"),
        ("S 0 1 50 1 0 5", "placed 1 after 0"),
        ("S 0 2 0 1 0 6", "placed 2 after 1"),
        ("F 0", "down 0 after 0"),
        ("N 2", "wait 2 on 1"),
        ("R 0 1", "up 0 after 0"),
        ("N 1", "send 1 0 50"),
        ("D 1", "done 1"),
        ("F 0", "down 0 after 1"),
        // 1 has finished device 0; what it has done there holds the condition up, which would abort.
        ("N 2", "wait 2 on 1"),
        ("N 1", "send 1 1 5"),
        ("D 1", "done 1"),
        ("N 1", "committed 1"),
        ("N 2", "aborted 2 back 0"),
    ]);
}

// ---- "On a failure or restart the condition has the tag of the command after it, and a skipped condition counts as not held"

#[test]
fn a_failure_skips_it_before_a_best_effort() {
    for reported in [false, true] {
        let mut steps = vec![
            ("O 3 0 1", "opened"),
            ("S 0 1 50 0 2 -9 1 1 20 0 2 -9 2 1 6 2 0 7", "placed 1 after 0"),
            ("N 1", "send 1 0 50"),
        ];
        steps.extend([("D 1", "done 1")].iter().filter(|_| reported));
        steps.extend([
            ("F 0", "down 0 after 1"),
            ("D 1", "refused 12"),
            // Neither condition is left. The commands after them have their turns, devices 1 and 2 being up.
            ("N 1", "skipped 1"),
            ("R 0 30", "up 0 after 1"),
            ("N 1", "skipped 1"),
            ("N 1", "send 1 2 7"),
            ("D 1", "done 1"),
            ("N 1", "committed 1"),
        ]);
        assert_eq!(lines(&steps), "device 0 up 30\ndevice 1 up 0\ndevice 2 up 7\n");
    }
}

#[test]
fn a_failure_aborts_where_one_of_them_is_before_a_must() {
    for routine in ["S 0 1 50 0 2 30 1 0 20", "S 0 1 50 0 2 30 1 1 20 0 2 30 1 0 20", "S 0 2 -9 1 1 50 0 2 30 1 0 20 1 1 5"] {
        let first = if routine.starts_with("S 0 1") { ("N 1", "send 1 0 50") } else { ("N 1", "held 1") };
        lines(&[
            ("O 2 0 1", "opened"),
            (routine, "placed 1 after 0"),
            first,
            ("F 0", "aborted 1 back 0\ndown 0 after 0"),
            ("N 1", "refused 10"),
        ]);
    }
}

#[test]
fn a_must_after_it_counts_by_the_condition_s_device() {
    // Device 1 fails: the must on it is not begun, and the condition on device 0 is not left on device 1.
    lines(&[
        ("O 2 0 1", "opened"),
        ("S 0 1 50 0 2 50 1 0 20", "placed 1 after 0"),
        ("N 1", "send 1 0 50"),
        ("F 1", "down 1 after 0"),
        ("D 1", "done 1"),
        ("N 1", "held 1"),
        ("N 1", "aborted 1 back 1 0 0"),
    ]);
}

#[test]
fn a_restart_skips_it_or_aborts() {
    lines(&[
        ("O 2 0 1", "opened"),
        ("F 0", "down 0 after 0"),
        ("S 0 2 0 1 1 5 0 2 0 1 1 6", "placed 1 after 0"),
        ("N 1", "skipped 1"),
        ("R 0 9", "up 0 after 1"),
        ("N 1", "skipped 1"),
        ("N 1", "skipped 1"),
        ("N 1", "committed 1"),
        ("F 0", "down 0 after 0"),
        ("S 0 2 0 1 1 5 0 2 0 1 0 6", "placed 2 after 0"),
        ("N 2", "skipped 2"),
        ("R 0 9", "aborted 2 back 0\nup 0 after 0"),
    ]);
}

#[test]
fn an_event_of_a_device_that_is_not_begun_or_finished_leaves_it() {
    lines(&[
        ("O 2 0 1", "opened"),
        ("S 1 0 5 0 2 12 1 0 6", "placed 1 after 0"),
        ("N 1", "send 1 1 5"),
        ("F 0", "down 0 after 0"),
        ("R 0 12", "up 0 after 0"),
        ("D 1", "done 1"),
        ("N 1", "held 1"),
        ("F 0", "down 0 after 1"),
        ("R 0 0", "up 0 after 1"),
        ("N 1", "send 1 1 6"),
    ]);
}

#[test]
fn a_flight_elsewhere_stays() {
    lines(&[
        ("O 2 0 1", "opened"),
        ("S 0 2 0 1 0 5 0 2 0 1 1 6", "placed 1 after 0"),
        ("N 1", "held 1"),
        ("N 1", "send 1 1 5"),
        ("F 0", "down 0 after 1"),
        ("N 1", "refused 11"),
        ("D 1", "done 1"),
        ("N 1", "skipped 1"),
        ("N 1", "committed 1"),
    ]);
}

/// Until its turn the command after a condition that did not hold is left like any other.
#[test]
fn an_event_of_the_following_command_s_device_goes_by_its_tag() {
    lines(&[
        ("O 2 0 1", "opened"),
        ("S 0 2 1 0 0 5", "placed 1 after 0"),
        ("N 1", "not held 1"),
        ("F 0", "aborted 1 back 0\ndown 0 after 0"),
        ("R 0 0", "up 0 after 0"),
        ("S 0 2 1 0 1 5 1 0 6", "placed 2 after 0"),
        ("N 2", "not held 2"),
        ("F 0", "down 0 after 2"),
        ("N 2", "send 2 1 6"),
    ]);
}

#[test]
fn its_turn_comes_although_the_command_after_it_was_skipped() {
    lines(&[
        ("O 2 0 1", "opened"),
        ("S 1 1 5 0 2 0 1 1 6", "placed 1 after 0"),
        ("S 0 0 9", "placed 2 after 1"),
        ("N 1", "send 1 1 5"),
        ("F 1", "down 1 after 1"),
        ("N 2", "wait 2 on 1"),
        ("N 1", "held 1"),
        ("N 2", "send 2 0 9"),
        ("N 1", "committed 1"),
    ]);
}

// ---- "must give every condition that was not skipped the same outcome that it had live": what goes on behind it and ahead of it

#[test]
fn events_of_its_device_go_behind_it() {
    let devices = lines(&[
        ("O 2 8 1", "opened"),
        ("S 0 2 0 1 0 5", "placed 1 after 0"),
        ("N 1", "held 1"),
        ("F 0", "down 0 after 1"),
        ("R 0 -20", "up 0 after 1"),
        ("S 0 2 0 1 0 6", "placed 2 after 1"),
        ("N 2", "not held 2"),
        ("N 1", "send 1 1 5"),
        ("D 1", "done 1"),
        ("N 1", "committed 1"),
    ]);
    assert_eq!(devices, "device 0 up -20\ndevice 1 up 5\n");
}

// ---- "A tag above 2 is now what 7 means"; "22 when a condition is last in its routine or is followed by another condition"

#[test]
fn refusals() {
    lines(&[
        ("O 2 0 1", "opened"),
        ("S 0 3 5", "refused 7 0"),
        ("S 0 255 5 0 2 5", "refused 7 0"),
        ("S 0 2 5", "refused 22 0"),
        ("S 0 0 5 0 1 5 0 2 5", "refused 22 2"),
        ("S 0 2 5 1 2 5 0 0 5", "refused 22 0"),
        ("S 0 2 5 0 1 5 0 2 5 1 2 5", "refused 22 2"),
        // Each command's 5, 6, 7 and 22 before the next one's.
        ("S 0 2 5 2 2 1001", "refused 22 0"),
        ("S 0 2 5 2 1 5", "refused 5 1"),
        ("S 0 2 5 0 0 -1001", "refused 6 1"),
        ("S 0 2 5 0 3 5", "refused 7 1"),
        ("S 2 2 1001", "refused 5 0"),
        ("S 1 2 1001", "refused 6 0"),
        ("S 1 2 -1001 0 0 5", "refused 6 0"),
        ("S 1 0 5 0 2 5 1 3 5", "refused 7 2"),
        ("S 0 0 1 0 0 1 0 0 1 0 0 1 0 0 1 0 0 1 0 0 1 0 2 1", "refused 22 7"),
        ("S 0 0 1 0 0 1 0 0 1 0 0 1 0 0 1 0 0 1 0 2 1 0 2 1 0 0 1", "refused 4"),
        // A refused one changes nothing, and uses up no id.
        ("S 0 2 1000 1 1 5 0 2 -1000 0 0 5", "placed 1 after 0"),
    ]);
}

#[test]
fn it_comes_before_8_and_9() {
    let mut steps = vec![("O 1 0 4294967280", "opened")];
    let placed: Vec<String> = (0..16u32)
        .map(|i| format!("placed {} after {}", 4294967280 + i, if i == 0 { 0 } else { 4294967279 + i }))
        .collect();
    steps.extend(placed.iter().map(|placed| ("S 0 2 0 0 0 5", placed.as_str())));
    steps.extend([
        ("S 0 2 0 0 0 5", "refused 8"),
        ("S 0 2 5", "refused 22 0"),
        ("C 4294967281", "aborted 4294967281 back 0"),
        ("S 0 2 0 0 0 5", "refused 9"),
        ("S 0 2 0 0 2 5", "refused 22 0"),
    ]);
    lines(&steps);
}
