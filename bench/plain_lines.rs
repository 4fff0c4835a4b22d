// The same file as `crates/bench_lines` has, cut and read by an ordinary body in Rust, without faults told and without
// proof: what it takes is the measure for the other. Words as there.
use std::io::{Error, ErrorKind, Write};

const LINES: u32 = 10_000;

struct Event {
    time: i64,
    key: [u8; 40],
    len: usize,
    values: [i64; 4],
}

fn main() -> Result<(), Error> {
    let words: Vec<String> = std::env::args().skip(1).collect();
    let has = |word: &str| words.iter().any(|w| w == word);
    let mark = if has("quoted") { "\"" } else { "" };
    let mut file = Vec::new();
    for i in 0..LINES {
        let time = 1_700_000_000_000 + 7 * u64::from(i);
        writeln!(file, "{time},{mark}sensor-{}{mark},{}", i % 100, i % 1000)?;
    }
    let mut count = 0;
    if !has("make") {
        for line in file.split(|b| *b == b'\n').filter(|line| !line.is_empty()) {
            let line = line.strip_suffix(b"\r").unwrap_or(line);
            if has("cut") {
                count += 1;
            } else if let Some(event) = std::hint::black_box(event_of(line)) {
                count += u32::from(event.time > 0 && event.len > 0 && event.key[0] > 0 && event.values[1] == 0);
            }
        }
        if count != LINES {
            return Err(Error::from(ErrorKind::InvalidData));
        }
    }
    println!("{LINES} lines");
    Ok(())
}

fn event_of(line: &[u8]) -> Option<Event> {
    let mut fields = line.split(|b| *b == b',');
    let time = number_of(fields.next()?)?;
    let mut text = fields.next()?;
    if let [b'"', inner @ .., b'"'] = text {
        text = inner;
    }
    let mut key = [0; 40];
    key.get_mut(..text.len())?.copy_from_slice(text);
    if !text.iter().all(|b| matches!(b, b'a'..=b'z' | b'A'..=b'Z' | b'0'..=b'9' | b'_' | b'-' | b'.' | b':' | b'/')) {
        return None;
    }
    let mut values = [0; 4];
    for (i, field) in fields.enumerate() {
        *values.get_mut(i)? = number_of(field)?;
    }
    Some(Event { time, key, len: text.len(), values })
}

fn number_of(text: &[u8]) -> Option<i64> {
    let (digits, sign) = match text {
        [b'-', digits @ ..] => (digits, -1),
        _ => (text, 1),
    };
    if digits.is_empty() || digits.len() > 16 {
        return None;
    }
    let mut number = 0;
    for b in digits {
        if !b.is_ascii_digit() {
            return None;
        }
        number = number * 10 + i64::from(b - b'0');
    }
    Some(sign * number)
}
