//! `vectors FOLDER`: plays every NAME.in of a folder and compares the answers
//! with NAME.out, line for line.

use std::path::Path;
use std::process::ExitCode;
use std::{env, fs, io};

fn main() -> ExitCode {
    let Some(folder) = env::args_os().nth(1) else {
        eprintln!("usage: vectors FOLDER");
        return ExitCode::FAILURE;
    };
    match play_folder(Path::new(&folder)) {
        Ok(true) => ExitCode::SUCCESS,
        Ok(false) => ExitCode::FAILURE,
        Err(error) => {
            eprintln!("vectors: {error}");
            ExitCode::FAILURE
        }
    }
}

fn play_folder(folder: &Path) -> io::Result<bool> {
    let mut inputs = Vec::new();
    for entry in fs::read_dir(folder)? {
        let path = entry?.path();
        if path.extension().is_some_and(|extension| extension == "in") {
            inputs.push(path);
        }
    }
    inputs.sort();
    let mut equal = !inputs.is_empty();
    for input in inputs {
        let mut answers = Vec::new();
        compare::protocol::serve(fs::File::open(&input)?, &mut answers)?;
        equal &= report(&input, &answers, &fs::read(input.with_extension("out"))?);
    }
    Ok(equal)
}

/// Prints how a file's answers compare, with the first line that differs.
fn report(input: &Path, answers: &[u8], expected: &[u8]) -> bool {
    let name = input.file_stem().unwrap_or_default().to_string_lossy();
    let lines = |bytes: &[u8]| -> Vec<String> {
        String::from_utf8_lossy(bytes).lines().map(str::to_owned).collect()
    };
    let (answers, expected) = (lines(answers), lines(expected));
    let common = answers.iter().zip(&expected).take_while(|(got, want)| got == want).count();
    if common == answers.len() && common == expected.len() {
        println!("{name}: {common} answers equal");
        return true;
    }
    let at = |lines: &[String]| lines.get(common).map_or("nothing".to_owned(), String::clone);
    println!("{name}: answer {} is {}, not {}", common + 1, at(&answers), at(&expected));
    false
}
