//! The rules where a hasty reader slips.

mod common;
use common::lines;

#[test]
fn a_newcomer_may_stand_before_a_committed_routine() {
    lines(&[
        ("O 3 2 1", "opened"),
        ("S 0 0 1", "placed 1 after 0"),
        ("N 1", "send 1 0 1"),
        ("S 1 0 1 0 0 2", "placed 2 after 1"),
        ("S 2 0 1", "placed 3 after 0"),
        ("N 2", "send 2 1 1"),
        ("D 2", "done 2"),
        ("N 2", "wait 2 on 1"),
        ("D 1", "done 1"),
        ("N 2", "send 2 0 2"),
        ("D 2", "done 2"),
        ("N 2", "committed 2"),
        // Device 0's mark is 2, which is committed and bars the way; device 2 has none.
        ("S 0 0 7", "placed 4 after 2"),
        ("S 2 0 7", "placed 5 after 0"),
    ]);
}

#[test]
fn first_come_first_served_behind_the_last_running() {
    lines(&[
        ("O 3 0 1", "opened"),
        ("S 0 0 1", "placed 1 after 0"),
        ("S 1 0 1", "placed 2 after 1"),
        ("N 2", "send 2 1 1"),
        ("D 2", "done 2"),
        ("N 2", "committed 2"),
        // 2 is committed: it bars by its mark alone.
        ("S 2 0 1", "placed 3 after 1"),
        ("S 1 0 1", "placed 4 after 2"),
    ]);
}

#[test]
fn passes_are_counted() {
    lines(&[
        ("O 4 2 1", "opened"),
        ("S 0 0 1", "placed 1 after 0"),
        ("S 1 0 1", "placed 2 after 0"),
        ("S 2 0 1", "placed 3 after 0"),
        // 1 has been passed twice.
        ("S 3 0 1", "placed 4 after 1"),
        ("C 1", "aborted 1 back 0"),
        // The order is 3, 2, 4; 2 has been passed once.
        ("S 3 0 1", "placed 5 after 0"),
        ("S 3 0 1", "placed 6 after 2"),
    ]);
}

#[test]
fn wait_before_the_look_at_the_device() {
    lines(&[
        ("O 2 0 1", "opened"),
        ("S 0 1 1", "placed 1 after 0"),
        ("S 0 0 2", "placed 2 after 1"),
        ("F 0", "down 0 after 0"),
        ("N 2", "wait 2 on 1"),
        ("N 1", "skipped 1"),
        ("N 2", "aborted 2 back 0"),
    ]);
}

#[test]
fn a_skip_on_a_down_device_sets_the_mark() {
    lines(&[
        ("O 2 8 1", "opened"),
        ("F 0", "down 0 after 0"),
        ("S 0 1 1 1 0 1", "placed 1 after 0"),
        ("N 1", "skipped 1"),
        ("S 0 0 5", "placed 2 after 1"),
        // A must that aborts begins nothing: its mark stays 1's.
        ("N 2", "aborted 2 back 0"),
        ("R 0 9", "up 0 after 1"),
        ("C 1", "aborted 1 back 0"),
    ]);
}

#[test]
fn the_mark_goes_to_the_routine_before() {
    let devices = lines(&[
        ("O 2 0 1", "opened"),
        ("S 1 0 5", "placed 1 after 0"),
        ("S 0 0 50", "placed 2 after 1"),
        ("N 2", "send 2 0 50"),
        ("D 2", "done 2"),
        ("C 2", "aborted 2 back 1 0 0"),
        // 1 does not use device 0, and yet has its mark.
        ("F 0", "down 0 after 1"),
        ("R 0 30", "up 0 after 1"),
        ("C 1", "aborted 1 back 0"),
        ("F 0", "down 0 after 0"),
        ("R 0 40", "up 0 after 0"),
    ]);
    assert_eq!(devices, "device 0 up 40\ndevice 1 up 0\n");
}

#[test]
fn the_abort_comes_before_its_event() {
    let devices = lines(&[
        ("O 3 0 1", "opened"),
        ("S 2 0 8 0 0 50 0 0 60", "placed 1 after 0"),
        ("N 1", "send 1 2 8"),
        ("D 1", "done 1"),
        ("N 1", "send 1 0 50"),
        ("D 1", "done 1"),
        ("F 0", "aborted 1 back 1 2 0\ndown 0 after 0"),
    ]);
    assert_eq!(devices, "device 0 down\ndevice 1 up 0\ndevice 2 up 0\n");
}

#[test]
fn a_restart_aborts_while_the_device_is_still_down() {
    let devices = lines(&[
        ("O 3 0 1", "opened"),
        ("F 0", "down 0 after 0"),
        ("S 2 0 8 1 0 9 0 1 50 0 0 60", "placed 1 after 0"),
        ("N 1", "send 1 2 8"),
        ("D 1", "done 1"),
        ("N 1", "send 1 1 9"),
        ("D 1", "done 1"),
        ("N 1", "skipped 1"),
        ("R 0 15", "aborted 1 back 2 1 0 2 0\nup 0 after 0"),
    ]);
    assert_eq!(devices, "device 0 up 15\ndevice 1 up 0\ndevice 2 up 0\n");
}

#[test]
fn a_finished_device_may_fail() {
    lines(&[
        ("O 2 0 1", "opened"),
        ("S 0 0 50 1 0 5", "placed 1 after 0"),
        ("N 1", "send 1 0 50"),
        ("D 1", "done 1"),
        ("F 0", "down 0 after 1"),
        ("N 1", "send 1 1 5"),
        ("F 1", "aborted 1 back 0\ndown 1 after 0"),
    ]);
}

#[test]
fn a_failed_must_is_sent_back_its_due_setting() {
    lines(&[
        ("O 2 0 1", "opened"),
        ("S 0 0 50 1 0 5", "placed 1 after 0"),
        ("N 1", "send 1 0 50"),
        ("B 1", "aborted 1 back 1 0 0"),
        ("S 1 0 50 0 0 5", "placed 2 after 0"),
        ("N 2", "send 2 1 50"),
        ("D 2", "done 2"),
        ("N 2", "send 2 0 5"),
        ("B 2", "aborted 2 back 2 0 0 1 0"),
    ]);
}

#[test]
fn a_failed_best_effort_is_sent_nothing_if_the_due_setting_stands() {
    lines(&[
        ("O 1 0 1", "opened"),
        ("S 0 0 50 0 1 60 0 0 70", "placed 1 after 0"),
        ("N 1", "send 1 0 50"),
        ("D 1", "done 1"),
        ("N 1", "send 1 0 60"),
        ("B 1", "skipped 1"),
        ("N 1", "send 1 0 70"),
        ("C 1", "aborted 1 back 1 0 0"),
    ]);
}

#[test]
fn equal_settings_change_nothing() {
    lines(&[
        ("O 2 0 1", "opened"),
        ("S 0 0 50", "placed 1 after 0"),
        ("N 1", "send 1 0 50"),
        ("D 1", "done 1"),
        ("N 1", "committed 1"),
        ("S 0 0 50 1 0 5", "placed 2 after 0"),
        ("N 2", "send 2 0 50"),
        ("D 2", "done 2"),
        ("C 2", "aborted 2 back 0"),
    ]);
}

#[test]
fn a_restart_behind_a_routine_outlives_its_abort() {
    let devices = lines(&[
        ("O 2 0 1", "opened"),
        ("S 0 0 50 1 0 5", "placed 1 after 0"),
        ("N 1", "send 1 0 50"),
        ("D 1", "done 1"),
        ("F 0", "down 0 after 1"),
        ("R 0 33", "up 0 after 1"),
        ("C 1", "aborted 1 back 0"),
    ]);
    assert_eq!(devices, "device 0 up 33\ndevice 1 up 0\n");
}

#[test]
fn an_event_settles_with_its_routine() {
    let devices = lines(&[
        ("O 2 0 1", "opened"),
        ("S 1 0 5", "placed 1 after 0"),
        ("S 0 0 50", "placed 2 after 1"),
        ("N 2", "send 2 0 50"),
        ("D 2", "done 2"),
        ("N 2", "committed 2"),
        ("F 0", "down 0 after 2"),
        ("R 0 33", "up 0 after 2"),
        ("S 0 0 1", "placed 3 after 2"),
        ("C 1", "aborted 1 back 0"),
        ("F 0", "down 0 after 0"),
    ]);
    assert_eq!(devices, "device 0 down\ndevice 1 up 0\n");
}

#[test]
fn a_later_opening_starts_anew() {
    let devices = lines(&[
        ("O 1 0 1", "opened"),
        ("S 0 0 50", "placed 1 after 0"),
        ("N 1", "send 1 0 50"),
        ("D 1", "done 1"),
        ("O 0 0 1", "refused 1"),
        ("N 1", "committed 1"),
        ("O 2 0 9", "opened"),
        ("S 0 0 50", "placed 9 after 0"),
    ]);
    assert_eq!(devices, "device 0 up 0\ndevice 1 up 0\n");
}
