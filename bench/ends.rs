// The same things of pools and a channel's two ends in plain Rust: what bench/ends compares with.
use std::collections::VecDeque;
use std::env;
use std::hint::black_box;
use std::sync::Mutex;

fn pool(segments: usize, size: usize) -> Vec<Box<[u8]>> {
    let mut made = Vec::with_capacity(segments);
    for _ in 0..segments {
        // Written once, as the pool does; memory that is only reserved would cost nothing yet.
        made.push(black_box(vec![1; size]).into_boxed_slice());
    }
    made
}

fn open(segments: u64, size: u64) -> u64 {
    black_box(pool(segments as usize, size as usize)).len() as u64
}

fn claim(segments: u64, times: u64) -> u64 {
    let free = Mutex::new(pool(segments as usize, 64));
    let mut sum = 0;
    for _ in 0..times {
        let segment = black_box(&free).lock().unwrap().pop();
        if let Some(segment) = segment {
            black_box(&free).lock().unwrap().push(segment);
            sum += 1;
        }
    }
    sum
}

enum Item {
    Buffer(Box<[u8]>, u32),
    #[allow(dead_code)]
    End,
}

fn queue(items: u64, times: u64) -> u64 {
    let mut queue: VecDeque<Item> = pool(items as usize, 64).into_iter().map(|segment| Item::Buffer(segment, 64)).collect();
    let mut sum = 0;
    for _ in 0..times {
        if let Some(Item::Buffer(segment, len)) = black_box(&mut queue).pop_front() {
            sum += len as u64;
            queue.push_back(Item::Buffer(segment, len));
        }
    }
    sum
}

#[derive(Clone)]
struct Reader {
    can_send: bool,
    sequence: u32,
}

fn readers(channels: u64, times: u64) -> u64 {
    let mut readers = vec![Reader { can_send: true, sequence: 0 }; channels as usize];
    let mut able: VecDeque<usize> = (0..channels as usize).collect();
    let mut sum = 0;
    for _ in 0..times {
        let place = black_box(&mut able).pop_front().unwrap();
        let reader = &mut readers[place];
        sum += reader.sequence as u64;
        reader.sequence = reader.sequence.wrapping_add(1);
        if reader.can_send {
            able.push_back(place);
        }
    }
    sum
}

fn inbox(times: u64) -> u64 {
    let mut free = pool(2, 64);
    let mut waiting: VecDeque<(Box<[u8]>, usize)> = VecDeque::with_capacity(10);
    let content = black_box([7; 64]);
    let mut told = 0;
    for _ in 0..times {
        let mut segment = free.pop().unwrap();
        segment[..content.len()].copy_from_slice(&content);
        black_box(&mut waiting).push_back((segment, content.len()));
        let (segment, _len) = waiting.pop_front().unwrap();
        free.push(segment);
        told += 1;
    }
    told
}

fn main() {
    let words: Vec<String> = env::args().collect();
    let size = words[2].parse().unwrap();
    let times = words[3].parse().unwrap();
    let sum = match words[1].as_str() {
        "open" => open(size, times),
        "claim" => claim(size, times),
        "queue" => queue(size, times),
        "readers" => readers(size, times),
        _ => inbox(times),
    };
    println!("{sum}");
}
