//! Replies to a script whose records are sent, delivered and polled one at a time: the events and
//! replies of Mukstorde's scripts that such a one has, with queues of std and no pool.
use std::collections::VecDeque;
use std::env;
use std::fmt::Write as _;
use std::fs;
use std::io::{self, Write as _};

#[derive(Default)]
struct Channel {
    waiting: VecDeque<Vec<u8>>,
    arrived: VecDeque<Vec<u8>>,
    credit: u32,
    sequence: u32,
    to_tell: u32,
}

fn main() {
    let name = env::args().nth(1).expect("a script");
    let text = fs::read_to_string(name).expect("its text");
    let mut lines = text.lines();
    let opening = lines.next().expect("an opening line");
    let count: usize = opening.split(' ').nth(1).expect("channels").parse().expect("a number");
    let mut channels: Vec<Channel> = Vec::new();
    channels.resize_with(count, || Channel { credit: 2, ..Channel::default() });
    let mut able: VecDeque<usize> = VecDeque::new();
    let mut frames: VecDeque<(usize, u32, Vec<u8>)> = VecDeque::new();
    let mut controls: VecDeque<(usize, u32)> = VecDeque::new();
    let mut replies = String::new();
    for line in lines {
        let mut words = line.splitn(3, ' ');
        let event = words.next().expect("an event");
        let number = words.next().map_or(0, |word| word.parse::<usize>().expect("a channel"));
        match event {
            "emit" => {
                let record = words.next().expect("a record").as_bytes();
                let mut buffer = Vec::with_capacity(4 + record.len());
                buffer.extend_from_slice(&(record.len() as u32).to_be_bytes());
                buffer.extend_from_slice(record);
                let channel = &mut channels[number - 1];
                channel.waiting.push_back(buffer);
                if channel.waiting.len() == 1 && channel.credit > 0 {
                    able.push_back(number);
                }
                writeln!(replies, "queued {number} {}", channel.waiting.len()).unwrap();
            }
            "send" => match able.pop_front() {
                Some(number) => {
                    let channel = &mut channels[number - 1];
                    let buffer = channel.waiting.pop_front().expect("a buffer");
                    channel.credit -= 1;
                    let (sequence, length, backlog) = (channel.sequence, buffer.len(), channel.waiting.len());
                    channel.sequence += 1;
                    if channel.credit > 0 && backlog > 0 {
                        able.push_back(number);
                    }
                    writeln!(replies, "frame {number} {sequence} data {length} {backlog}").unwrap();
                    frames.push_back((number, sequence, buffer));
                }
                None => replies.push_str("nothing\n"),
            },
            "deliver" => match frames.pop_front() {
                Some((number, sequence, buffer)) => {
                    channels[number - 1].arrived.push_back(buffer);
                    writeln!(replies, "accepted {number} {sequence}").unwrap();
                }
                None => replies.push_str("nothing\n"),
            },
            "poll" => {
                let channel = &mut channels[number - 1];
                match channel.arrived.pop_front() {
                    Some(buffer) => {
                        channel.to_tell += 1;
                        let record = std::str::from_utf8(&buffer[4..]).expect("text");
                        writeln!(replies, "data {number} {} 1\nrecord {number} {record}", buffer.len()).unwrap();
                    }
                    None => writeln!(replies, "empty {number}").unwrap(),
                }
            }
            "credit" => {
                let told = std::mem::take(&mut channels[number - 1].to_tell);
                if told > 0 {
                    controls.push_back((number, told));
                    writeln!(replies, "credit {number} {told}").unwrap();
                } else {
                    replies.push_str("none\n");
                }
            }
            "control" => match controls.pop_front() {
                Some((number, credit)) => {
                    let channel = &mut channels[number - 1];
                    if channel.credit == 0 && !channel.waiting.is_empty() {
                        able.push_back(number);
                    }
                    channel.credit += credit;
                    writeln!(replies, "granted {number} {credit}").unwrap();
                }
                None => replies.push_str("nothing\n"),
            },
            _ => panic!("no event of this benchmark: {}", line),
        }
    }
    io::stdout().write_all(replies.as_bytes()).expect("an output");
}
