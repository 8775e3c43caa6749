// The same counts in plain Rust, over std alone: what the benchmark compares the program with.
use std::collections::hash_map::DefaultHasher;
use std::collections::{BTreeMap, HashMap};
use std::env;
use std::fs::File;
use std::hash::{Hash, Hasher};
use std::io::{self, BufRead, BufReader, BufWriter, Write};
use std::sync::mpsc::{Receiver, SyncSender, sync_channel};
use std::thread;

type Counts = HashMap<Vec<u8>, u64>;

const BUFFER: usize = 32_768;
const BUFFERS: usize = 10;

fn count(counts: &mut Counts, record: &[u8]) {
    match counts.get_mut(record) {
        Some(count) => *count += 1,
        None => {
            counts.insert(record.to_vec(), 1);
        }
    }
}

fn open(path: &str) -> io::Result<BufReader<File>> {
    Ok(BufReader::with_capacity(65_536, File::open(path)?))
}

fn each_line(mut reader: impl BufRead, mut done_with: impl FnMut(&[u8])) -> io::Result<()> {
    let mut line = Vec::new();
    while reader.read_until(b'\n', &mut line)? > 0 {
        if line.last() == Some(&b'\n') {
            line.pop();
        }
        done_with(&line);
        line.clear();
    }
    Ok(())
}

fn words(line: &[u8]) -> impl Iterator<Item = &[u8]> {
    line.split(|byte| *byte == b' ').filter(|word| !word.is_empty())
}

// One end of several bounded channels that carry buffers of records, each behind its length.
struct Writer {
    channels: Vec<(SyncSender<Vec<u8>>, Vec<u8>)>,
}

impl Writer {
    fn new(channels: Vec<SyncSender<Vec<u8>>>) -> Self {
        let empty = || Vec::with_capacity(BUFFER);
        Writer { channels: channels.into_iter().map(|channel| (channel, empty())).collect() }
    }

    fn write(&mut self, to: usize, record: &[u8]) {
        let (channel, buffer) = &mut self.channels[to];
        if buffer.len() + 4 + record.len() > BUFFER {
            channel.send(std::mem::replace(buffer, Vec::with_capacity(BUFFER))).unwrap();
        }
        buffer.extend((record.len() as u32).to_be_bytes());
        buffer.extend(record);
    }

    fn finish(self) {
        for (channel, buffer) in self.channels {
            channel.send(buffer).unwrap();
        }
    }
}

fn each_record(channel: &Receiver<Vec<u8>>, mut done_with: impl FnMut(&[u8])) {
    for buffer in channel {
        let mut rest = &buffer[..];
        while let Some((len, behind)) = rest.split_first_chunk::<4>() {
            let (record, next) = behind.split_at(u32::from_be_bytes(*len) as usize);
            done_with(record);
            rest = next;
        }
    }
}

fn task_of(word: &[u8], tasks: usize) -> usize {
    let mut hasher = DefaultHasher::new();
    word.hash(&mut hasher);
    hasher.finish() as usize % tasks
}

// One source, two tasks that cut words, and two that count, each in a thread of its own.
fn count_in_threads(lines: impl BufRead) -> io::Result<Counts> {
    let (line_ends, word_tasks): (Vec<_>, Vec<_>) = (0..2).map(|_| sync_channel(BUFFERS)).unzip();
    let (word_ends, count_tasks): (Vec<_>, Vec<_>) = (0..2).map(|_| sync_channel(BUFFERS)).unzip();
    thread::scope(|scope| {
        for lines in word_tasks {
            let mut writer = Writer::new(word_ends.clone());
            scope.spawn(move || {
                each_record(&lines, |line| words(line).for_each(|word| writer.write(task_of(word, 2), word)));
                writer.finish();
            });
        }
        drop(word_ends);
        let counting: Vec<_> = count_tasks
            .into_iter()
            .map(|words| {
                scope.spawn(move || {
                    let mut counts = Counts::new();
                    each_record(&words, |word| count(&mut counts, word));
                    counts
                })
            })
            .collect();
        let mut writer = Writer::new(line_ends);
        let mut next = 0;
        each_line(lines, |line| {
            writer.write(next % 2, line);
            next += 1;
        })?;
        writer.finish();
        Ok(counting.into_iter().flat_map(|task| task.join().unwrap()).collect())
    })
}

// So many lines of a seed, as the command `gen` makes them.
fn generated(lines: u64, mut seed: u64) -> Vec<u8> {
    let mut text = Vec::new();
    for _ in 0..lines {
        seed = seed.wrapping_mul(6_364_136_223_846_793_005).wrapping_add(1_442_695_040_888_963_407);
        writeln!(text, "w{} w{}", (seed >> 33) % 1_000, (seed >> 48) % 100).unwrap();
    }
    text
}

// `baseline lines FILE` counts lines, `baseline words FILE` the words between their spaces, and
// `baseline exchange FILE` those words by five threads. `baseline gen LINES SEED` prints lines of a seed,
// and `baseline selfrun LINES SEED` counts the words of such lines by five threads and prints how many
// lines, records and keys there were.
fn main() -> io::Result<()> {
    let mut args = env::args().skip(1);
    let mut word = || args.next().ok_or(io::Error::from(io::ErrorKind::InvalidInput));
    let (what, path) = (word()?, word()?);
    let mut counts = Counts::new();
    let mut out = BufWriter::new(io::stdout().lock());
    match what.as_str() {
        "lines" => each_line(open(&path)?, |line| count(&mut counts, line))?,
        "words" => each_line(open(&path)?, |line| words(line).for_each(|word| count(&mut counts, word)))?,
        "exchange" => counts = count_in_threads(open(&path)?)?,
        made => {
            let number = |word: &str| word.parse().map_err(io::Error::other);
            let text = generated(number(&path)?, number(&word()?)?);
            if made == "gen" {
                return out.write_all(&text);
            }
            let counts = count_in_threads(&text[..])?;
            writeln!(out, "lines {path}\nrecords {}\nkeys {}", counts.values().sum::<u64>(), counts.len())?;
            return out.flush();
        }
    }
    for (key, count) in counts.into_iter().collect::<BTreeMap<_, _>>() {
        out.write_all(&key)?;
        writeln!(out, "\t{count}")?;
    }
    out.flush()
}
