//! Shapes, widths and lengths of lines, and the lent buffer.

mod common;
use common::{lines, says};
use reference::{run, run_into};

#[test]
fn no_lines() {
    assert_eq!(says(""), "");
    assert_eq!(says("\n"), "unread\n");
    assert_eq!(says("\n\n"), "unread\nunread\n");
    assert_eq!(says("x"), "unread\n");
    assert_eq!(says("O 1 0 1"), "opened\ndevice 0 up 0\n");
    assert_eq!(says("O 1 0 1\n"), "opened\ndevice 0 up 0\n");
    assert_eq!(says("O 1 0 1\n\n"), "opened\nunread\ndevice 0 up 0\n");
    assert_eq!(says("O 1 9 1\nN 1\n"), "refused 2\nunread\n");
}

#[test]
fn shapes() {
    for line in [
        "", " ", "O", "O ", "O 1", "O 1 0", "O 1 0 1 ", " O 1 0 1", "O  1 0 1", "O 1  0 1", "O 1 0 1 1", "O1 0 1", "OO 1 0 1", "o 1 0 1",
        "O 1 0 +1", "O 1 0 -1", "O -0 0 1", "O 1 -0 1", "O 1 0 -0", "O\t1 0 1", "O 1\t0 1", "O 1 0 1\r", "O 1 0 1\0", "\0O 1 0 1",
        "O 256 0 1", "O 1 256 1", "O 1 0 4294967296", "O 1 0 18446744073709551617", "O 1 0 1x", "O x 0 1", "O 1,0,1", "O 1 0 0x1",
        "Q 1 0 1",
    ] {
        assert_eq!(says(&format!("{line}\n")), "unread\n", "{line:?}");
    }
    for line in [
        "N", "N ", "N  1", "N 1 ", "N 1 2", "N -1", "N +1", "N 1.", "n 1", "N1", "N 4294967296", "N 99999999999999999999999999", "D",
        "D -0", "B", "C", "C 1 1", "F", "F 256", "F -1", "F -0", "F 0 0", "R", "R 0", "R 0 ", "R 0 -", "R 0 --1", "R 0 1-", "R 0 +1",
        "R 0 - 1", "R 0 32768", "R 0 -32769", "R 256 0", "R 0 0 0", "S ", "S 0", "S 0 0", "S 0 0 0 ", "S 0 0 0 0", "S 0 0 0 0 0",
        "S -0 0 0", "S 0 -0 0", "S 256 0 0", "S 0 256 0", "S 0 0 32768", "S 0 0 -32769", "S 0 0 -", "S  0 0 0", "S 0 0  0",
        "S 0 0 0 0 0 65536", "S\r",
    ] {
        assert_eq!(says(&format!("O 2 0 1\n{line}\n")), "opened\nunread\ndevice 0 up 0\ndevice 1 up 0\n", "{line:?}");
    }
}

#[test]
fn widths_before_rules() {
    let nine = |last: &str| format!("S{} {last}", " 0 0 0".repeat(8));
    lines(&[
        ("O 2 0 1", "opened"),
        (&nine("256 0 0"), "unread"),
        (&nine("255 0 0"), "refused 4"),
        (&nine("0 255 32767"), "refused 4"),
        (&nine("0 256 0"), "unread"),
        (&nine("0 0 32768"), "unread"),
        (&nine("0 0 -32768"), "refused 4"),
        ("S 0 0 5 255 0 0", "refused 5 1"),
        ("S 0 0 5 255 0 40000", "unread"),
        ("S 0 0 32767", "refused 6 0"),
        ("S 0 0 -32768", "refused 6 0"),
        ("S 0 255 0", "refused 7 0"),
        ("O 255 255 0", "refused 1"),
        ("N 4294967295", "refused 10"),
        ("F 255", "refused 14"),
    ]);
}

#[test]
fn zeros_and_minus_zero() {
    let devices = lines(&[
        ("O 0002 00 0000000000000000000000000000000000001", "opened"),
        ("S 00 001 -0", "placed 1 after 0"),
        ("N 0000000000000000000000000000001", "send 1 0 0"),
        ("B 01", "skipped 1"),
        ("F 001", "down 1 after 0"),
        ("R 1 -007", "up 1 after 0"),
        ("F 0", "down 0 after 1"),
        ("R 0 -00", "up 0 after 1"),
    ]);
    assert_eq!(devices, "device 0 up 0\ndevice 1 up -7\n");
}

/// A line of some length that is right but for its length.
fn padded(before: &str, after: &str, length: usize) -> String {
    format!("{before}{}{after}", "0".repeat(length - before.len() - after.len()))
}

#[test]
fn the_longest_line() {
    for (before, after, answer) in [
        ("F ", "0", "down 0 after 0"),
        ("N ", "1", "refused 10"),
        ("S 0 0 -", "7", "placed 1 after 0"),
        ("S 0 ", " 5", "placed 1 after 0"),
    ] {
        for (length, expected) in [(126, answer), (127, answer), (128, answer), (129, "unread"), (130, "unread"), (5000, "unread")] {
            lines(&[("O 1 0 1", "opened"), (&padded(before, after, length), expected)]);
        }
    }
    // The bytes behind the last byte 10 are counted the same way.
    assert_eq!(says(&padded("O 1 0 ", "1", 128)), "opened\ndevice 0 up 0\n");
    assert_eq!(says(&padded("O 1 0 ", "1", 129)), "unread\n");
}

#[test]
fn the_most_commands_in_a_line() {
    let twenty_one = format!("S{}", " 0 0 0".repeat(21));
    assert_eq!(twenty_one.len(), 127);
    let twenty_two = format!("S{}", " 0 0 0".repeat(22));
    lines(&[
        ("O 1 0 1", "opened"),
        (&twenty_one, "refused 4"),
        (&(twenty_one.clone() + "0"), "refused 4"),
        (&(twenty_one.clone() + " "), "unread"),
        (&(twenty_one.clone() + "00"), "unread"),
        (&twenty_two, "unread"),
    ]);
}

#[test]
fn a_lent_buffer_of_every_length() {
    let inputs: [&[u8]; 6] = [
        b"",
        b"\n",
        b"O 2 0 1",
        b"x\nO 0 0 0\nO 2 0 1\nS 0 0 5\nS 1 0 -1000\nN 1\n",
        b"O 3 2 1\nS 0 0 50 1 0 20\nS 0 0 70\nN 2\nD 2\nN 2\nN 1\nD 1\nF 0\nC 1\nR 0 15\n",
        b"O 32 8 4294967295\n\0\xff\nS 31 1 -1000\nS 0 0 0",
    ];
    for input in inputs {
        let text = run(input);
        for length in 0..=text.len() + 3 {
            // Two different bytes, so that none can be there by chance.
            for sentinel in [0xA5, 0x5A] {
                let mut buffer = vec![sentinel; length];
                let result = run_into(input, &mut buffer);
                if length < text.len() {
                    assert_eq!(result, -21);
                    assert!(buffer.iter().all(|&b| b == sentinel));
                } else {
                    assert_eq!(result, text.len() as i64);
                    assert_eq!(buffer[..text.len()], text);
                    assert!(buffer[text.len()..].iter().all(|&b| b == sentinel));
                }
            }
        }
    }
}
