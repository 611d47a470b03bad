//! The examples get the answers stored beside them, and the proved program is
//! run on the vectors and the examples.

use std::fs;
use std::path::PathBuf;

const VECTORS: [&str; 9] =
    ["cases", "limits", "history", "commands", "keep", "handler", "bounds", "loads", "mixed"];

fn root() -> PathBuf {
    PathBuf::from(env!("CARGO_MANIFEST_DIR")).join("..")
}

fn text(path: &str) -> String {
    fs::read_to_string(root().join(path)).unwrap_or_else(|error| panic!("{path}: {error}"))
}

fn names() -> Vec<String> {
    let mut names: Vec<String> = fs::read_dir(root().join("examples"))
        .expect("the folder of examples")
        .filter_map(|entry| entry.ok()?.file_name().into_string().ok())
        .filter_map(|file| Some(file.strip_suffix(".calls")?.to_owned()))
        .collect();
    names.sort();
    names
}

/// An example as lines of the protocol: a line that begins with a blank goes
/// on with the call before it, '#' begins a comment.
fn calls(name: &str) -> String {
    let mut calls: Vec<(String, String)> = Vec::new();
    for line in text(&format!("examples/{name}.calls")).lines() {
        let line = line.split('#').next().unwrap_or_default().trim_end();
        match calls.last_mut() {
            Some((_, bytes)) if line.starts_with(' ') => bytes.extend(line.split(' ')),
            _ if line.is_empty() => (),
            _ => calls.push((line.to_owned(), String::new())),
        }
    }
    calls
        .iter()
        .map(|(call, bytes)| format!("{call} {bytes}").trim_end().to_owned() + "\n")
        .collect()
}

#[test]
fn examples_get_their_answers() {
    assert!(names().len() >= 12);
    for name in names() {
        let mut answers = Vec::new();
        compare::protocol::serve(calls(&name).as_bytes(), &mut answers).expect("answers");
        let answers = String::from_utf8(answers).expect("text");
        assert_eq!(answers, text(&format!("examples/{name}.out")), "{name}");
    }
}

#[test]
fn the_gate_runs_vectors_and_examples() {
    let vectors = |end: &str| VECTORS.map(|name| text(&format!("vectors/{name}.{end}"))).concat();
    let examples: String = names().iter().map(|name| calls(name)).collect();
    let answers: String =
        names().iter().map(|name| text(&format!("examples/{name}.out"))).collect();
    assert!(vectors("in") + &examples == text("crates/hostcalls/stdin"));
    assert!(vectors("out") + &answers == text("crates/hostcalls/stdout"));
}

#[test]
fn records_are_what_their_texts_say() {
    for name in ["runpage", "runkinds"] {
        let path = format!("crates/{name}");
        let records = compare::records::encode(&text(&format!("{path}/records.txt")));
        let stdin = fs::read(root().join(path).join("stdin")).expect("records");
        assert!(records.expect("lines of records") == stdin, "{name}");
    }
}
