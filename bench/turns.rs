// The same turns at std's Mutex in plain Rust: what bench/turns compares turn cells with.
use std::env;
use std::hint::black_box;
use std::sync::Mutex;
use std::thread;

fn add_one(sum: &Mutex<u64>) {
    let mut sum = black_box(sum).lock().unwrap();
    *sum = sum.wrapping_add(1);
}

fn take_turns(threads: u64, times: u64, own_too: bool) -> u64 {
    let shared = Mutex::new(0);
    thread::scope(|scope| {
        for _ in 0..threads {
            scope.spawn(|| {
                let own = Mutex::new(0);
                for _ in 0..times {
                    if own_too {
                        add_one(&own);
                    }
                    add_one(&shared);
                }
            });
        }
    });
    shared.into_inner().unwrap()
}

fn main() {
    let words: Vec<String> = env::args().collect();
    let times = words[2].parse().unwrap();
    let sum = match words[1].as_str() {
        "one" => take_turns(1, times, false),
        "two" => take_turns(2, times, false),
        _ => take_turns(16, times, true),
    };
    println!("{sum}");
}
