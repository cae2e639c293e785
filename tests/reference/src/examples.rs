//! The examples of document 01, and of document 02's items 3 and 4, as tests/hub/examples.txt has them.

/// The examples that are inputs of the line program, each with its output. A book, and a report with another code than 0 and 1,
/// are none.
pub fn read(path: &str) -> Vec<(Vec<u8>, Vec<u8>)> {
    let text = std::fs::read_to_string(path).unwrap_or_else(|problem| panic!("{path}: {problem} (run from the root)"));
    let mut found: Vec<(String, String)> = Vec::new();
    let (mut begun, mut in_output) = (false, false);
    for line in text.lines() {
        if line.starts_with('#') {
            begun = false;
            in_output = false;
        } else if line == "--" {
            in_output = true;
        } else if !line.is_empty() {
            if !begun {
                found.push(Default::default());
                begun = true;
            }
            let last = found.last_mut().unwrap();
            let part = if in_output { &mut last.1 } else { &mut last.0 };
            part.push_str(line);
            part.push('\n');
        }
    }
    let own = |input: &str| input.lines().all(|line| !line.starts_with("P ") && !line.starts_with("book"));
    let found: Vec<_> = found.into_iter().filter(|(input, _)| own(input)).collect();
    assert!(found.len() >= 60, "{path}: only {} examples", found.len());
    found.into_iter().map(|(input, output)| (input.into_bytes(), output.into_bytes())).collect()
}
