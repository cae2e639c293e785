//! A failure or a restart of a device under a routine that has only best-effort commands left on it: document 02, item 3.

mod common;
use common::lines;
use reference::hub::{Answer, Command, Hub, Refusal, BEST_EFFORT, DONE, FAILED, MUST};

fn command(device: u8, tag: u8) -> Command {
    Command { device, tag, setting: 50 }
}

#[test]
fn a_lamp_in_flight_is_skipped_and_the_routine_goes_on() {
    let devices = lines(&[
        ("O 3 2 1", "opened"),
        ("S 1 0 8 2 1 50 1 0 9", "placed 1 after 0"),
        ("N 1", "send 1 1 8"),
        ("D 1", "done 1"),
        ("N 1", "send 1 2 50"),
        ("F 2", "down 2 after 1"),
        ("N 1", "send 1 1 9"),
        ("D 1", "done 1"),
        ("N 1", "committed 1"),
    ]);
    assert_eq!(devices, "device 0 up 0\ndevice 1 up 9\ndevice 2 down\n");
}

#[test]
fn what_was_done_before_stays() {
    let devices = lines(&[
        ("O 2 2 1", "opened"),
        ("S 0 1 50 0 1 60 0 1 70 1 0 5", "placed 1 after 0"),
        ("N 1", "send 1 0 50"),
        ("D 1", "done 1"),
        ("N 1", "send 1 0 60"),
        ("D 1", "done 1"),
        ("F 0", "down 0 after 1"),
        ("N 1", "send 1 1 5"),
        // The due setting of device 0 is 60 up to here, and then that of the restart.
        ("R 0 61", "up 0 after 1"),
        ("C 1", "aborted 1 back 1 1 0"),
    ]);
    assert_eq!(devices, "device 0 up 61\ndevice 1 up 0\n");
}

#[test]
fn a_must_left_anywhere_aborts() {
    // Behind the one in flight; behind a command on another device; in flight itself.
    for (routine, turns) in [("S 0 1 50 0 0 60", 0), ("S 0 1 50 1 1 5 0 0 60", 1), ("S 0 1 50 0 0 60 0 1 70", 1)] {
        let mut steps = vec![("O 2 2 1", "opened"), (routine, "placed 1 after 0"), ("N 1", "send 1 0 50")];
        steps.extend([("D 1", "done 1")].repeat(turns));
        steps.extend([("F 0", "aborted 1 back 0\ndown 0 after 0"), ("N 1", "refused 10"), ("R 0 3", "up 0 after 0")]);
        assert_eq!(lines(&steps), "device 0 up 3\ndevice 1 up 0\n");
    }
}

#[test]
fn an_answered_must_and_a_must_elsewhere_do_not_count() {
    lines(&[
        ("O 2 2 1", "opened"),
        ("S 0 0 50 0 1 60 1 0 5", "placed 1 after 0"),
        ("N 1", "send 1 0 50"),
        ("D 1", "done 1"),
        ("F 0", "down 0 after 1"),
        ("N 1", "send 1 1 5"),
        // Now the must is in flight.
        ("F 1", "aborted 1 back 0\ndown 1 after 0"),
    ]);
}

#[test]
fn a_restart_skips_what_is_left() {
    let devices = lines(&[
        ("O 2 2 1", "opened"),
        ("F 0", "down 0 after 0"),
        ("S 0 1 50 0 1 60 1 0 5 0 1 70", "placed 1 after 0"),
        ("N 1", "skipped 1"),
        ("R 0 15", "up 0 after 1"),
        ("N 1", "send 1 1 5"),
        ("D 1", "done 1"),
        ("N 1", "committed 1"),
    ]);
    assert_eq!(devices, "device 0 up 15\ndevice 1 up 5\n");
}

#[test]
fn a_restart_leaves_a_flight_elsewhere() {
    lines(&[
        ("O 2 2 1", "opened"),
        ("F 0", "down 0 after 0"),
        ("S 0 1 50 1 1 5 0 1 60", "placed 1 after 0"),
        ("N 1", "skipped 1"),
        ("N 1", "send 1 1 5"),
        ("R 0 15", "up 0 after 1"),
        ("N 1", "refused 11"),
        ("B 1", "skipped 1"),
        ("N 1", "committed 1"),
    ]);
}

/// Device 0 failed with a command of routine 1 in flight on it; one on device 1 is left.
fn lost_its_flight() -> Hub {
    let mut hub = Hub::open(2, 2, 1).unwrap();
    hub.submit(&[command(0, BEST_EFFORT), command(0, BEST_EFFORT), command(1, BEST_EFFORT)]).unwrap();
    hub.turn(1).unwrap();
    assert_eq!(hub.fail(0), Ok(Answer::Down { device: 0, after: 1, aborted: None }));
    hub
}

fn refused_unchanged(hub: &mut Hub, code: u8, number: u8) {
    let before = format!("{hub:?}");
    assert_eq!(hub.report(1, code), Err(Refusal { number, index: None }));
    assert_eq!(format!("{hub:?}"), before);
}

#[test]
fn a_late_report_is_refused_with_12_while_nothing_is_in_flight() {
    for code in [DONE, FAILED, 2] {
        let mut hub = lost_its_flight();
        refused_unchanged(&mut hub, code, 12);
        hub.restart(0, 5).unwrap();
        refused_unchanged(&mut hub, code, 12);
        hub.turn(1).unwrap();
        hub.report(1, DONE).unwrap();
        refused_unchanged(&mut hub, code, 12);
    }
}

#[test]
fn a_late_report_is_refused_with_10_once_the_routine_has_ended() {
    for code in [DONE, FAILED, 2] {
        let mut cancelled = lost_its_flight();
        cancelled.cancel(1).unwrap();
        refused_unchanged(&mut cancelled, code, 10);
        // Committed, and held still behind another that runs.
        let mut hub = Hub::open(2, 0, 7).unwrap();
        hub.submit(&[command(1, MUST)]).unwrap();
        hub.submit(&[command(0, BEST_EFFORT)]).unwrap();
        hub.turn(8).unwrap();
        hub.fail(0).unwrap();
        assert_eq!(hub.turn(8), Ok(Answer::Committed { id: 8 }));
        assert_eq!(hub.routine_count(), 2);
        assert_eq!(hub.report(8, code), Err(Refusal { number: 10, index: None }));
    }
}

/// The hub cannot tell a late report from one on the command now in flight: the server must drop it.
#[test]
fn once_another_is_in_flight_a_report_is_taken_for_that_one() {
    let mut hub = lost_its_flight();
    assert_eq!(hub.turn(1), Ok(Answer::Send { id: 1, device: 1, setting: 50 }));
    assert_eq!(hub.report(1, DONE), Ok(Answer::Done { id: 1 }));
    assert_eq!((hub.due_setting(0), hub.due_setting(1)), (0, 50));
    let mut hub = lost_its_flight();
    hub.turn(1).unwrap();
    assert!(matches!(hub.report(1, FAILED), Ok(Answer::Skipped { id: 1, .. })));
    assert_eq!((hub.due_setting(0), hub.due_setting(1)), (0, 0));
}

#[test]
fn with_its_last_commands_skipped_a_routine_commits() {
    lines(&[
        ("O 2 2 1", "opened"),
        ("S 1 0 5 0 1 50 0 1 60", "placed 1 after 0"),
        ("S 0 1 7", "placed 2 after 0"),
        ("N 1", "send 1 1 5"),
        ("D 1", "done 1"),
        ("N 1", "wait 1 on 2"),
        ("N 2", "send 2 0 7"),
        ("F 0", "down 0 after 2"),
        ("N 2", "committed 2"),
        ("N 1", "skipped 1"),
        ("R 0 4", "up 0 after 1"),
        ("N 1", "committed 1"),
    ]);
}

#[test]
fn a_turn_passes_over_each_skipped_one() {
    // Left on device 0 when it fails: the second, the fourth and the sixth command.
    let devices = lines(&[
        ("O 3 2 1", "opened"),
        ("S 0 1 50 0 1 60 1 0 5 0 1 70 2 1 6 0 1 80 1 1 7", "placed 1 after 0"),
        ("N 1", "send 1 0 50"),
        ("D 1", "done 1"),
        ("F 0", "down 0 after 1"),
        ("N 1", "send 1 1 5"),
        ("R 0 1", "up 0 after 1"),
        ("D 1", "done 1"),
        ("N 1", "send 1 2 6"),
        ("D 1", "done 1"),
        ("N 1", "send 1 1 7"),
        ("D 1", "done 1"),
        ("N 1", "committed 1"),
    ]);
    assert_eq!(devices, "device 0 up 1\ndevice 1 up 7\ndevice 2 up 6\n");
}

#[test]
fn two_devices_one_after_the_other() {
    lines(&[
        ("O 3 2 1", "opened"),
        ("S 0 1 50 1 1 5 0 1 60 1 1 6 2 1 9", "placed 1 after 0"),
        ("N 1", "send 1 0 50"),
        ("D 1", "done 1"),
        ("N 1", "send 1 1 5"),
        ("F 0", "down 0 after 1"),
        ("F 1", "down 1 after 1"),
        ("D 1", "refused 12"),
        ("N 1", "send 1 2 9"),
    ]);
}

#[test]
fn who_has_not_begun_loses_nothing() {
    let devices = lines(&[
        ("O 2 0 1", "opened"),
        ("S 1 0 5 0 1 50", "placed 1 after 0"),
        ("S 0 1 70", "placed 2 after 1"),
        ("N 1", "send 1 1 5"),
        ("F 0", "down 0 after 0"),
        ("R 0 3", "up 0 after 0"),
        ("D 1", "done 1"),
        ("N 1", "send 1 0 50"),
        // 1 loses what it has in flight; 2 has not begun device 0.
        ("F 0", "down 0 after 1"),
        ("R 0 4", "up 0 after 1"),
        ("N 2", "send 2 0 70"),
        ("D 2", "done 2"),
    ]);
    assert_eq!(devices, "device 0 up 70\ndevice 1 up 5\n");
}

#[test]
fn the_event_follows_its_routine() {
    let devices = lines(&[
        ("O 3 0 1", "opened"),
        ("S 2 0 5", "placed 1 after 0"),
        ("S 0 1 50 1 0 5 0 1 60", "placed 2 after 1"),
        ("S 0 0 8", "placed 3 after 2"),
        ("N 2", "send 2 0 50"),
        ("F 0", "down 0 after 2"),
        ("N 3", "aborted 3 back 0"),
        ("R 0 33", "up 0 after 2"),
        ("S 0 0 8", "placed 4 after 2"),
        ("N 4", "send 4 0 8"),
        ("B 4", "aborted 4 back 1 0 33"),
        // The events go to the routine before, and so does the mark.
        ("C 2", "aborted 2 back 0"),
        ("F 0", "down 0 after 1"),
    ]);
    assert_eq!(devices, "device 0 down\ndevice 1 up 0\ndevice 2 up 0\n");
}

#[test]
fn a_skipped_flight_is_put_back_by_no_abort() {
    lines(&[
        ("O 2 0 1", "opened"),
        ("S 0 1 50 1 0 5", "placed 1 after 0"),
        ("N 1", "send 1 0 50"),
        ("F 0", "down 0 after 1"),
        ("R 0 9", "up 0 after 1"),
        ("N 1", "send 1 1 5"),
        ("C 1", "aborted 1 back 1 1 0"),
    ]);
}
