//! Traces and their answers.

/// The answers to a trace.
pub fn answers(trace: &str) -> String {
    let mut output = Vec::new();
    trace::run(trace.as_bytes(), &mut output).expect("a text is read and written");
    String::from_utf8(output).expect("answers are text")
}

/// Holds each item to its answer line; all are of one trace.
pub fn hold(items: &[(&str, &str)]) {
    let trace: Vec<&str> = items.iter().map(|(item, _)| *item).collect();
    let answers = answers(&trace.join("\n"));
    for ((item, expected), answer) in items.iter().zip(answers.lines()) {
        assert_eq!(answer, *expected, "the answer to {item}");
    }
    assert_eq!(answers.lines().count(), items.len());
}
