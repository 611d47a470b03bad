//! `against VECTORS SEED SCRIPTS LEAST`: plays the vectors and random scripts
//! on the proved interpreter and on the second one, and compares every answer
//! line. It fails at the first difference, whose script it cuts down to the
//! calls that matter, and where a number was met fewer than LEAST times.

use std::path::Path;
use std::process::ExitCode;
use std::{env, fs, io};

use compare::counting::Counts;
use compare::protocol::{self, Answers};

fn main() -> ExitCode {
    let words: Vec<String> = env::args().skip(1).collect();
    let numbers: Vec<u64> = words.iter().skip(1).filter_map(|word| word.parse().ok()).collect();
    let ([vectors, ..], &[seed, scripts, least]) = (&words[..], &numbers[..]) else {
        eprintln!("usage: against VECTORS SEED SCRIPTS LEAST");
        return ExitCode::FAILURE;
    };
    match play_vectors(Path::new(vectors)) {
        Ok(true) => (),
        Ok(false) => return ExitCode::FAILURE,
        Err(error) => {
            eprintln!("against: {vectors}: {error}");
            return ExitCode::FAILURE;
        }
    }
    match play_scripts(seed, scripts, least) {
        true => ExitCode::SUCCESS,
        false => ExitCode::FAILURE,
    }
}

/// Each file of host calls, against its answers and against the second interpreter.
fn play_vectors(folder: &Path) -> io::Result<bool> {
    let mut calls = 0;
    let mut files = 0;
    for entry in fs::read_dir(folder)? {
        let path = entry?.path();
        if path.extension().is_none_or(|extension| extension != "in") {
            continue;
        }
        let script = fs::read_to_string(&path)?;
        let expected = fs::read_to_string(path.with_extension("out"))?;
        let (ours, second) = answers(&script);
        if ours != expected || second != expected {
            println!("{}: other answers than those stored", path.display());
            report(&script);
            return Ok(false);
        }
        calls += expected.lines().count();
        files += 1;
    }
    println!("compared {files} files of vectors, {calls} calls, 0 differ");
    Ok(files > 0)
}

fn play_scripts(seed: u64, scripts: u64, least: u64) -> bool {
    let mut counts = Counts::default();
    for number in 0..scripts {
        let mut script = Vec::new();
        compare::generator::write_script(seed, number, &mut script).expect("writing to memory");
        let script = String::from_utf8(script).expect("scripts are ASCII");
        let (ours, second) = answers(&script);
        if ours != second {
            println!("script {number} of seed {seed} differs; the calls that matter:");
            report(&script);
            return false;
        }
        ours.lines().for_each(|answer| counts.add(answer));
    }
    let enough = counts.print(least);
    println!("compared {scripts} scripts, 0 differ");
    if !enough {
        println!("a number was met fewer than {least} times");
    }
    enough
}

/// The answers of both interpreters, each on a new card.
fn answers(script: &str) -> (String, String) {
    (
        answers_by(&mut ours::Host::default(), script),
        answers_by(&mut protocol::Host::default(), script),
    )
}

fn answers_by(host: &mut impl Answers, script: &str) -> String {
    let mut answers = Vec::new();
    for line in script.lines() {
        host.answer_line(line.as_bytes(), &mut answers);
    }
    String::from_utf8(answers).expect("answers are ASCII")
}

fn differs(lines: &[&str]) -> bool {
    let (ours, second) = answers(&lines.join("\n"));
    ours != second
}

/// Prints the script with both answers, without the calls that it can do without.
fn report(script: &str) {
    let mut lines: Vec<&str> = script.lines().collect();
    let mut at = lines.len();
    while at > 0 {
        at -= 1;
        let mut fewer = lines.clone();
        fewer.remove(at);
        if differs(&fewer) {
            lines = fewer;
        }
    }
    let (ours, second) = answers(&lines.join("\n"));
    let calls = lines.iter().filter(|line| !line.is_empty() && !line.starts_with('#'));
    for ((call, ours), second) in calls.zip(ours.lines()).zip(second.lines()) {
        println!("{call}");
        match ours == second {
            true => println!("    both    {ours}"),
            false => println!("    ours    {ours}\n    second  {second}"),
        }
    }
}
