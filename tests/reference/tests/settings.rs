//! All due settings into a lent list: document 02, item 14.

use reference::hub::{Command, Hub, Refusal, DONE, MUST};

fn must(device: u8, setting: i16) -> Command {
    Command { device, tag: MUST, setting }
}

/// Three devices. Routine 1 did device 0 = 50 and has device 1 left; then device 0 failed.
fn hub() -> Hub {
    let mut hub = Hub::open(3, 2, 1).unwrap();
    hub.submit(&[must(0, 50), must(1, 20)]).unwrap();
    hub.turn(1).unwrap();
    hub.report(1, DONE).unwrap();
    hub.fail(0).unwrap();
    hub
}

#[test]
fn up_or_down_each_has_its_due_setting() {
    let mut list = [9; 3];
    assert_eq!(hub().due_settings(&mut list), Ok(()));
    assert_eq!(list, [50, 0, 0]);
}

#[test]
fn entries_past_the_last_device_are_untouched() {
    let mut list = [9; 40];
    assert_eq!(hub().due_settings(&mut list), Ok(()));
    assert_eq!(list[..3], [50, 0, 0]);
    assert_eq!(list[3..], [9; 37]);
}

#[test]
fn a_list_that_is_too_short_is_unchanged() {
    for length in 0..3 {
        let mut list = vec![9; length];
        assert_eq!(hub().due_settings(&mut list), Err(Refusal { number: 21, index: None }));
        assert_eq!(list, vec![9; length]);
    }
}

#[test]
fn restarts_and_settled_routines_count() {
    let mut hub = hub();
    hub.restart(0, -7).unwrap();
    hub.turn(1).unwrap();
    hub.report(1, DONE).unwrap();
    let mut list = [9; 4];
    assert_eq!(hub.due_settings(&mut list), Ok(()));
    assert_eq!(list, [-7, 20, 0, 9]);
    hub.turn(1).unwrap(); // commits, and settles
    assert_eq!(hub.routine_count(), 0);
    assert_eq!(hub.due_settings(&mut list), Ok(()));
    assert_eq!(list, [-7, 20, 0, 9]);
}
