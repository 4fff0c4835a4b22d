// Sliding windows over one file by an ordinary body in Rust, without faults told and without proof: what it takes is the
// measure for `jet run` and `jet window`, and its rows are theirs. Words: the size, the slide, the lag, and the file.
use std::collections::{BTreeMap, HashMap};
use std::fs::File;
use std::io::{BufRead, BufReader, BufWriter, Error, ErrorKind, Write};

#[derive(Clone, Copy)]
struct Acc {
    count: u64,
    sum: i64,
    min: i64,
    max: i64,
}

impl Acc {
    fn add(&mut self, other: Acc) {
        self.count += other.count;
        self.sum += other.sum;
        self.min = self.min.min(other.min);
        self.max = self.max.max(other.max);
    }
}

type Frame = HashMap<Vec<u8>, Acc>;

struct Window<W: Write> {
    size: i64,
    slide: i64,
    frames: BTreeMap<i64, Frame>,
    // The end of the last window whose rows were written.
    written: Option<i64>,
    out: W,
}

impl<W: Write> Window<W> {
    fn take(&mut self, time: i64, key: &[u8], value: i64) {
        let one = Acc { count: 1, sum: value, min: value, max: value };
        let end = time.div_euclid(self.slide) * self.slide + self.slide;
        let frame = self.frames.entry(end).or_default();
        match frame.get_mut(key) {
            Some(acc) => acc.add(one),
            None => {
                frame.insert(key.to_vec(), one);
            }
        }
    }

    // Writes the rows of the windows that end at most at a mark.
    fn close(&mut self, mark: i64) -> Result<(), Error> {
        while let Some((&first, _)) = self.frames.first_key_value() {
            let end = self.written.map_or(first, |last| first.max(last + self.slide));
            if end > mark {
                break;
            }
            self.write(end)?;
            self.written = Some(end);
            while let Some(entry) = self.frames.first_entry() {
                if *entry.key() + self.size - self.slide > end {
                    break;
                }
                entry.remove();
            }
        }
        Ok(())
    }

    fn write(&mut self, end: i64) -> Result<(), Error> {
        let start = end - self.size;
        let mut rows: BTreeMap<&[u8], Acc> = BTreeMap::new();
        for (_, frame) in self.frames.range(start + 1..=end) {
            for (key, acc) in frame {
                rows.entry(key).and_modify(|row| row.add(*acc)).or_insert(*acc);
            }
        }
        for (key, row) in rows {
            write!(self.out, "w,{start},{end},")?;
            self.out.write_all(key)?;
            writeln!(self.out, ",{},{},{},{}", row.count, row.sum, row.min, row.max)?;
        }
        Ok(())
    }
}

fn number_of(text: &[u8]) -> Option<i64> {
    std::str::from_utf8(text).ok()?.parse().ok()
}

fn main() -> Result<(), Error> {
    let bad = || Error::from(ErrorKind::InvalidInput);
    let words: Vec<String> = std::env::args().skip(1).collect();
    let [size, slide, lag, name] = words.as_slice() else {
        return Err(bad());
    };
    let number = |word: &String| word.parse::<i64>().map_err(|_| bad());
    let (size, slide, lag) = (number(size)?, number(slide)?, number(lag)?);
    let out = BufWriter::new(std::io::stdout().lock());
    let mut window = Window { size, slide, frames: BTreeMap::new(), written: None, out };
    let mut file = BufReader::new(File::open(name)?);
    let (mut line, mut mark) = (Vec::new(), i64::MIN);
    while file.read_until(b'\n', &mut line)? != 0 {
        let mut fields = line.trim_ascii_end().split(|b| *b == b',');
        let time = fields.next().and_then(number_of).ok_or_else(bad)?;
        let key = fields.next().ok_or_else(bad)?;
        let value = fields.next().map_or(Some(0), number_of).ok_or_else(bad)?;
        if time >= mark {
            window.take(time, key, value);
        }
        let now = (time - lag).div_euclid(slide) * slide;
        if now > mark {
            mark = now;
            window.close(mark)?;
        }
        line.clear();
    }
    window.close(i64::MAX)?;
    window.out.flush()
}
