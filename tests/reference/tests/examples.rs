//! The listing and the examples of document 01 that the line program can run, with the outputs that it gives.

mod common;
use common::{lines, says};

#[test]
fn the_listing() {
    let input = "O 3 2 1\nS 0 0 50 1 0 20\nS 0 0 70\nN 2\nD 2\nN 2\nN 1\nD 1\nF 0\nC 1\nR 0 15\n";
    let output = "opened\nplaced 1 after 0\nplaced 2 after 0\nsend 2 0 70\ndone 2\ncommitted 2\nsend 1 0 50\ndone 1\n\
                  down 0 after 1\naborted 1 back 0\nup 0 after 0\ndevice 0 up 15\ndevice 1 up 0\ndevice 2 up 0\n";
    assert_eq!(says(input), output);
}

#[test]
fn pass_limit_of_one() {
    lines(&[
        ("O 1 1 1", "opened"),
        ("S 0 0 10", "placed 1 after 0"),
        ("S 0 0 10", "placed 2 after 0"),
        ("S 0 0 10", "placed 3 after 1"),
    ]);
}

#[test]
fn ring_of_three() {
    lines(&[
        ("O 3 0 1", "opened"),
        ("S 0 0 10 1 0 10", "placed 1 after 0"),
        ("S 1 0 10 2 0 10", "placed 2 after 1"),
        ("S 2 0 10 0 0 10", "placed 3 after 2"),
        ("N 3", "wait 3 on 2"),
    ]);
}

const FIRST_DID_50: [(&str, &str); 4] =
    [("O 2 2 1", "opened"), ("S 0 0 50 1 0 20", "placed 1 after 0"), ("N 1", "send 1 0 50"), ("D 1", "done 1")];

fn behind_first(rest: &[(&str, &str)], devices: &str) {
    let all: Vec<(&str, &str)> = FIRST_DID_50.iter().chain(rest).copied().collect();
    let output = lines(&all);
    assert_eq!(output, devices);
}

#[test]
fn a_later_setting_stays() {
    behind_first(
        &[
            ("S 0 0 70", "placed 2 after 1"),
            ("N 2", "send 2 0 70"),
            ("D 2", "done 2"),
            ("N 2", "committed 2"),
            ("C 1", "aborted 1 back 0"),
        ],
        "device 0 up 70\ndevice 1 up 0\n",
    );
}

#[test]
fn cancelled_one_after_the_other() {
    behind_first(
        &[
            ("S 0 0 70", "placed 2 after 1"),
            ("N 2", "send 2 0 70"),
            ("D 2", "done 2"),
            ("C 2", "aborted 2 back 1 0 50"),
            ("C 1", "aborted 1 back 1 0 0"),
        ],
        "device 0 up 0\ndevice 1 up 0\n",
    );
}

#[test]
fn in_flight_at_the_cancel() {
    behind_first(
        &[
            ("S 0 1 70", "placed 2 after 1"),
            ("N 2", "send 2 0 70"),
            ("C 1", "aborted 1 back 0"),
            ("B 2", "skipped 2 back 1 0 0"),
        ],
        "device 0 up 0\ndevice 1 up 0\n",
    );
}

#[test]
fn on_a_down_device() {
    let devices = lines(&[
        ("O 1 0 1", "opened"),
        ("F 0", "down 0 after 0"),
        ("S 0 1 5", "placed 1 after 0"),
        ("N 1", "skipped 1"),
        ("N 1", "committed 1"),
        ("S 0 0 5", "placed 2 after 0"),
        ("N 2", "aborted 2 back 0"),
    ]);
    assert_eq!(devices, "device 0 down\n");
}

#[test]
fn the_bounds_of_settings() {
    lines(&[
        ("O 1 0 1", "opened"),
        ("S 0 0 1000", "placed 1 after 0"),
        ("S 0 0 1001", "refused 6 0"),
        ("S 0 0 -1000", "placed 2 after 1"),
        ("S 0 0 -1001", "refused 6 0"),
    ]);
}

#[test]
fn sixteen_routines() {
    let mut steps = vec![("O 1 0 1".to_string(), "opened".to_string())];
    for id in 1..=16 {
        steps.push(("S 0 0 5".to_string(), format!("placed {id} after {}", id - 1)));
    }
    steps.push(("S 0 0 5".to_string(), "refused 8".to_string()));
    let steps: Vec<(&str, &str)> = steps.iter().map(|(i, o)| (i.as_str(), o.as_str())).collect();
    lines(&steps);
}

#[test]
fn the_last_id() {
    lines(&[("O 1 0 4294967295", "opened"), ("S 0 0 5", "placed 4294967295 after 0"), ("S 0 0 5", "refused 9")]);
}
