// What bench_hops drives, in ordinary Rust: queues are VecDeques, the watermark is looked for through all queues, and nothing
// waits for room.
#![allow(dead_code)]
use std::collections::VecDeque;
use std::hint::black_box;

#[derive(Clone, Copy, PartialEq, Eq, PartialOrd, Ord)]
struct Key {
    bytes: [u8; 40],
    len: u8,
}

#[derive(Clone, Copy)]
struct Event {
    part: u32,
    line: u64,
    ts: i64,
    key: Key,
    v: [i64; 4],
}

#[derive(Clone, Copy)]
enum Item {
    Event(Event),
    Mark(i64),
}

fn key(name: &[u8]) -> Key {
    let mut bytes = [0; 40];
    bytes[..name.len()].copy_from_slice(name);
    Key { bytes, len: name.len() as u8 }
}

fn filled(count: u32) -> VecDeque<Item> {
    let event = Event { part: 0, line: 1, ts: 1000, key: key(b"sensor-1"), v: [215, 0, 0, 0] };
    let item = black_box(Item::Event(event));
    let mut queue = VecDeque::with_capacity(65_536);
    for _ in 0..count {
        queue.push_back(item);
    }
    queue
}

fn drain(queue: &mut VecDeque<Item>) -> u32 {
    let mut taken = 0;
    while let Some(item) = queue.pop_front() {
        black_box(&item);
        taken += 1;
    }
    taken
}

fn passes(event: &Event) -> bool {
    black_box(event.part) == 0 && event.line > 0
}

fn through(mut queue: VecDeque<Item>, stamps: bool) -> u32 {
    let mut sink = VecDeque::with_capacity(65_536);
    let mut next = i64::MIN;
    while let Some(item) = queue.pop_front() {
        match &item {
            Item::Event(event) if stamps => {
                sink.push_back(item);
                if event.ts > next {
                    let mark = (event.ts - 1000).div_euclid(250) * 250;
                    next = mark + 1250;
                    sink.push_back(Item::Mark(mark));
                }
            }
            Item::Event(event) if passes(event) => sink.push_back(item),
            Item::Event(_) => {}
            Item::Mark(_) => sink.push_back(item),
        }
    }
    drain(&mut sink)
}

// Tells a mark, and answers whether the watermark rose.
fn tell(marks: &mut [Option<i64>], low: &mut Option<i64>, queue: usize, t: i64) -> bool {
    marks[queue] = marks[queue].max(Some(t));
    let least = marks.iter().copied().min().flatten();
    let rose = least > *low;
    if rose {
        *low = least;
    }
    rose
}

fn main() {
    let words: Vec<String> = std::env::args().skip(1).collect();
    let (what, size, count) = (words[0].as_str(), words[1].parse::<usize>().unwrap(), words[2].parse::<u32>().unwrap());
    let came = match what {
        "ring" => drain(&mut filled(count)),
        "filter" => through(filled(count), false),
        "stamp" => through(filled(count), true),
        "first" | "last" | "turns" => {
            let (mut marks, mut low) = (vec![None; size], None);
            let behind = if what == "last" { size - 1 } else { 0 };
            if what != "turns" {
                marks.fill(Some(1_000_000_000));
                marks[behind] = None;
            }
            let queue = |n: u32| if what == "turns" { n as usize % size } else { behind };
            let mark = |n: u32| if what == "turns" { i64::from(n) / size as i64 } else { i64::from(n) };
            (0..count).filter(|n| tell(&mut marks, &mut low, queue(*n), mark(*n))).count() as u32
        }
        "router" => {
            let mut dests = vec![VecDeque::with_capacity(16_384); size];
            let Some(item) = filled(1).pop_front() else { return };
            for turn in 0..count {
                dests[turn as usize % size].push_back(item);
            }
            dests.iter().map(|dest| dest.len() as u32).sum()
        }
        "keys" => {
            let keys = black_box([key(b"sensor-1"), key(b"sensor-2")]);
            (0..count).filter(|n| keys[*n as usize % 2] < keys[*n as usize / 2 % 2]).count() as u32
        }
        _ => 0,
    };
    println!("{what} {size}: {came}");
}
