// Buffers that go from one thread to another in plain Rust: what bench/links compares with. The sender
// copies each buffer's bytes into one that comes back by a second channel, and the receiver copies them
// out, so they are copied twice and nothing is allocated for a buffer.
use std::env;
use std::hint::black_box;
use std::sync::mpsc::sync_channel;
use std::thread;

// How many buffers are on their way at most.
const ROOM: usize = 8;

fn main() {
    let words: Vec<String> = env::args().collect();
    let size: usize = words[3].parse().unwrap();
    let buffers: u64 = words[4].parse().unwrap();
    let (sender, receiver) = sync_channel::<Vec<u8>>(ROOM);
    let (giver, taker) = sync_channel::<Vec<u8>>(ROOM + 2);
    for _ in 0..ROOM + 2 {
        giver.send(vec![1; size]).unwrap();
    }
    let sink = thread::spawn(move || {
        let mut out = vec![1; size];
        let (mut count, mut sum) = (0u64, 0u64);
        for buffer in receiver {
            out.copy_from_slice(&buffer);
            sum += u64::from(black_box(&out)[0]);
            count += 1;
            let _ = giver.send(buffer);
        }
        (count, sum)
    });
    let mut content = vec![1; size];
    let mut put = 0;
    for number in 0..buffers {
        let first = (number % 251) as u8;
        put += u64::from(first);
        black_box(&mut content)[0] = first;
        let mut buffer = taker.recv().unwrap();
        buffer.copy_from_slice(&content);
        sender.send(buffer).unwrap();
    }
    drop(sender);
    let (count, sum) = sink.join().unwrap();
    assert_eq!(sum, put);
    println!("{count} buffers, {} bytes", count * size as u64);
}
