//! What the tests share.

/// The whole output of an input.
#[allow(dead_code)]
pub fn says(input: &str) -> String {
    String::from_utf8(reference::run(input.as_bytes())).unwrap()
}

/// Checks the answers to some lines, one after the other; where two lines are printed for one, they stand with a byte 10
/// between. What is printed behind them, the device lines, is given back.
#[allow(dead_code)]
pub fn lines(steps: &[(&str, &str)]) -> String {
    let mut program = reference::line::Program::new();
    let mut whole = String::new();
    for (number, (line, expected)) in steps.iter().enumerate() {
        let mut out = Vec::new();
        program.line(line.as_bytes(), &mut out);
        let said = String::from_utf8(out).unwrap();
        assert_eq!(said, format!("{expected}\n"), "line {number}: {line}");
        whole += &said;
    }
    let input: String = steps.iter().map(|(line, _)| format!("{line}\n")).collect();
    let all = says(&input);
    all.strip_prefix(&whole).expect("the whole program prints what its lines do").to_string()
}
