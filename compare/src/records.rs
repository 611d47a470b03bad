//! Records as `runpage` reads them, from lines: `page HEX`, `response HEX`, or
//! `bytes HEX` for bytes as they stand. Blanks in HEX do not count, `NN*K` is
//! a byte K times, '#' begins a comment.

/// The records of a text, or the first line that is none.
pub fn encode(text: &str) -> Result<Vec<u8>, String> {
    let mut records = Vec::new();
    for line in text.lines() {
        let record = encode_line(line).ok_or_else(|| format!("no record: {line}"))?;
        records.extend(record);
    }
    Ok(records)
}

fn encode_line(line: &str) -> Option<Vec<u8>> {
    let mut words = line.split('#').next()?.split_whitespace();
    let Some(call) = words.next() else {
        return Some(Vec::new());
    };
    let mut payload = Vec::new();
    for word in words {
        payload.extend(parse_bytes(word)?);
    }
    let kind: u16 = match call {
        "page" => 1,
        "response" => 2,
        "bytes" => return Some(payload),
        _ => return None,
    };
    let length = u16::try_from(payload.len()).ok()?;
    Some([&length.to_le_bytes()[..], &kind.to_le_bytes(), &payload].concat())
}

fn parse_bytes(word: &str) -> Option<Vec<u8>> {
    let (digits, times) = word.split_once('*').unwrap_or((word, "1"));
    if digits.len() % 2 == 1 {
        return None;
    }
    let bytes: Option<Vec<u8>> = (0..digits.len())
        .step_by(2)
        .map(|at| u8::from_str_radix(digits.get(at..at + 2)?, 16).ok())
        .collect();
    Some(bytes?.repeat(times.parse().ok()?))
}
