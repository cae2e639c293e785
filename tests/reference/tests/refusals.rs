//! Every number of the table that a hub can answer with, under its cause, and the order of the causes.

mod common;
use common::lines;
use reference::hub::{Command, Hub, Refusal};

#[test]
fn openings() {
    lines(&[
        ("O 0 9 0", "refused 1"),
        ("O 33 9 0", "refused 1"),
        ("O 255 0 1", "refused 1"),
        ("O 32 9 0", "refused 2"),
        ("O 1 255 0", "refused 2"),
        ("O 1 8 0", "refused 3"),
        ("S 0 0 5", "unread"),
        ("N 1", "unread"),
        ("O 32 8 1", "opened"),
        ("O 1 0 1", "opened"),
    ]);
}

#[test]
fn submissions() {
    let mut steps = vec![
        ("O 2 0 4294967280", "opened"),
        ("S", "refused 4"),
        ("S 9 9 2000 0 0 1 0 0 1 0 0 1 0 0 1 0 0 1 0 0 1 0 0 1 0 0 1", "refused 4"),
        ("S 2 3 1001", "refused 5 0"),
        ("S 1 3 1001", "refused 6 0"),
        ("S 1 3 -1001", "refused 6 0"),
        ("S 1 3 1000", "refused 7 0"),
        ("S 0 0 5 1 1 5 0 0 1001 2 0 0", "refused 6 2"),
        ("S 0 0 5 1 3 5 0 0 1001 2 0 0", "refused 7 1"),
        ("S 0 0 1 0 0 1 0 0 1 0 0 1 0 0 1 0 0 1 0 0 1 255 0 1", "refused 5 7"),
    ];
    // Sixteen use the ids up: 8 comes before 9, the commands before both.
    let placed: Vec<String> = (0..16u32)
        .map(|i| format!("placed {} after {}", 4294967280 + i, if i == 0 { 0 } else { 4294967279 + i }))
        .collect();
    steps.extend(placed.iter().map(|p| ("S 0 0 5", p.as_str())));
    steps.extend([
        ("S 0 0 5", "refused 8"),
        ("S 0 3 5", "refused 7 0"),
        ("C 4294967280", "aborted 4294967280 back 0"),
        ("S 0 0 5", "refused 9"),
        ("S 0 3 5", "refused 7 0"),
        ("S", "refused 4"),
    ]);
    lines(&steps);
}

#[test]
fn a_refused_submission_uses_up_no_id() {
    lines(&[("O 1 0 7", "opened"), ("S 1 0 0", "refused 5 0"), ("S 0 0 0", "placed 7 after 0")]);
}

#[test]
fn turns_reports_cancels() {
    lines(&[
        ("O 2 0 1", "opened"),
        ("N 0", "refused 10"),
        ("D 0", "refused 10"),
        ("B 1", "refused 10"),
        ("C 4294967295", "refused 10"),
        ("S 0 0 5", "placed 1 after 0"),
        ("S 1 0 5", "placed 2 after 1"),
        ("D 1", "refused 12"),
        ("B 1", "refused 12"),
        ("N 1", "send 1 0 5"),
        ("N 1", "refused 11"),
        ("N 2", "send 2 1 5"),
        ("D 2", "done 2"),
        ("D 2", "refused 12"),
        ("N 2", "committed 2"),
        // Committed, not settled: 1 still runs ahead of it.
        ("N 2", "refused 10"),
        ("D 2", "refused 10"),
        ("C 2", "refused 10"),
        ("D 1", "done 1"),
        ("N 1", "committed 1"),
        ("N 1", "refused 10"),
        ("N 2", "refused 10"),
    ]);
}

#[test]
fn report_codes() {
    let refused = |number| Err(Refusal { number, index: None });
    let mut hub = Hub::open(1, 0, 1).unwrap();
    assert_eq!(hub.report(1, 2), refused(10));
    hub.submit(&[Command { device: 0, tag: 1, setting: 5 }]).unwrap();
    assert_eq!(hub.report(1, 2), refused(12));
    hub.turn(1).unwrap();
    assert_eq!(hub.report(1, 2), refused(13));
    assert_eq!(hub.report(1, 255), refused(13));
    assert!(hub.report(1, 1).is_ok());
}

#[test]
fn failures_and_restarts() {
    let devices = lines(&[
        ("O 2 0 1", "opened"),
        ("F 2", "refused 14"),
        ("F 255", "refused 14"),
        ("R 2 2000", "refused 14"),
        ("R 0 2000", "refused 16"),
        ("R 0 5", "refused 16"),
        ("F 0", "down 0 after 0"),
        ("F 0", "refused 15"),
        ("R 0 1001", "refused 17"),
        ("R 0 -1001", "refused 17"),
        ("R 0 -32768", "refused 17"),
        ("R 0 1000", "up 0 after 0"),
        ("R 0 1000", "refused 16"),
        ("F 1", "down 1 after 0"),
    ]);
    assert_eq!(devices, "device 0 up 1000\ndevice 1 down\n");
}
