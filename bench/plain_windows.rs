// What `crates/bench_windows` drives, in ordinary Rust and without proof: frames in a hash table for each end, the frames of each
// key in a list that is joined anew for each row, rows in an ordered map. Words as there.
use std::collections::{BTreeMap, HashMap, VecDeque};
use std::hint::black_box;
use std::io::{Error, ErrorKind};

#[derive(Clone, Copy, PartialEq, Eq, PartialOrd, Ord, Hash)]
struct Key {
    bytes: [u8; 40],
    len: u8,
}

#[derive(Clone, Copy)]
struct Acc {
    count: u64,
    sum: i128,
    min: i64,
    max: i64,
}

impl Acc {
    fn one(value: i64) -> Acc {
        Acc { count: 1, sum: i128::from(value), min: value, max: value }
    }

    fn join(&mut self, other: &Acc) {
        self.count += other.count;
        self.sum += other.sum;
        self.min = self.min.min(other.min);
        self.max = self.max.max(other.max);
    }
}

fn keys_of(count: u32) -> Vec<Key> {
    let key = |number: u32| {
        let name = format!("sensor-{}", u64::from(number) * 7919 % u64::from(count));
        let mut bytes = [0; 40];
        bytes[..name.len()].copy_from_slice(name.as_bytes());
        Key { bytes, len: name.len() as u8 }
    };
    (0..count).map(key).collect()
}

// Frames of 50,000, and a mark with each 256th event. Answers how many events stand in the frames that were given.
fn frames_of(keys: &[Key], events: u32) -> u64 {
    let mut open: BTreeMap<i64, HashMap<Key, Acc>> = BTreeMap::new();
    let mut seen = 0;
    for line in 0..events {
        let (key, time) = (keys[line as usize % keys.len()], i64::from(line));
        let end = time / 50_000 * 50_000 + 50_000;
        let acc = Acc::one(black_box(time));
        open.entry(end).or_default().entry(key).and_modify(|held| held.join(&acc)).or_insert(acc);
        if line % 256 == 255 {
            seen += give(&mut open, time - 5_000);
        }
    }
    seen + give(&mut open, i64::MAX)
}

// Gives the frames that end at a mark or below, in the order of their ends and keys.
fn give(open: &mut BTreeMap<i64, HashMap<Key, Acc>>, mark: i64) -> u64 {
    let mut seen = 0;
    while let Some(first) = open.first_entry().filter(|first| *first.key() <= mark) {
        let mut frames: Vec<(Key, Acc)> = first.remove().into_iter().collect();
        frames.sort_unstable_by_key(|frame| frame.0);
        seen += black_box(frames).iter().map(|frame| frame.1.count).sum::<u64>();
    }
    seen
}

// Frames of 100 keys, each at every so manieth end, and a row of each key at each end over so many slides. Answers how many
// events stand in the rows.
fn windows_of(keys: &[Key], slides: u32, every: u32, ends: u32) -> u64 {
    let mut held: BTreeMap<Key, VecDeque<(u32, Acc)>> = keys.iter().map(|key| (*key, VecDeque::new())).collect();
    let mut seen = 0;
    for number in 0..ends + slides - 1 {
        for (place, key) in keys.iter().enumerate() {
            if number < ends && place as u32 % every == number % every {
                held.entry(*key).or_default().push_back((number, Acc::one(i64::from(number % 7))));
            }
        }
        for frames in held.values_mut() {
            while frames.front().is_some_and(|frame| frame.0 + slides <= number) {
                frames.pop_front();
            }
            seen += row_of(frames).map_or(0, |row| black_box(row).count);
        }
    }
    seen
}

fn row_of(frames: &VecDeque<(u32, Acc)>) -> Option<Acc> {
    let mut all = frames.iter().map(|frame| frame.1);
    let mut row = all.next()?;
    all.for_each(|acc| row.join(&acc));
    Some(row)
}

// Rows of 100 keys, a hundred for each end, of which one is taken for each that is put once so many are held.
fn rows_of(keys: &[Key], held: u32, rows: u32) -> u64 {
    let mut waiting = BTreeMap::new();
    let mut given = 0;
    for line in 0..held + rows {
        let key = keys[line as usize % keys.len()];
        waiting.insert((line / 100 * 10, 1u32, key), Acc::one(1));
        if line >= held {
            given += waiting.pop_first().map_or(0, |row| black_box(row).1.count);
        }
    }
    given
}

fn main() -> Result<(), Error> {
    let words: Vec<String> = std::env::args().skip(1).collect();
    let [what, size, count] = &words[..] else {
        return Err(Error::from(ErrorKind::InvalidInput));
    };
    let number = |word: &String| word.parse::<u32>().map_err(|_| Error::from(ErrorKind::InvalidInput));
    let (size, count) = (number(size)?, number(count)?);
    let seen = match what.as_str() {
        "frames" => frames_of(&keys_of(size), count),
        "each" => windows_of(&keys_of(100), size, 1, count),
        "sixth" => windows_of(&keys_of(100), size, 6, count),
        _ => rows_of(&keys_of(100), size, count),
    };
    println!("{seen} events");
    Ok(())
}
