// The same frames in plain Rust, over std alone, and the machine's copy of as many bytes.
use std::env;
use std::hint::black_box;

const DATA: usize = 32_768;
const HEAD: [u8; 39] = [
    0, 0, 0x80, 0x27, 0xBA, 0xDC, 0x0F, 0xFE, 0, 0, 0, 0, 0, 0, 0, 0, 1, 0, 0, 0, 0, 0, 0, 0, 0, 0, 0, 0, 7, 0, 0, 0, 3, 0,
    0, 0, 0, 0x80, 0,
];

fn three_frames(data: &[u8]) -> Vec<u8> {
    let mut out = Vec::with_capacity(100_000);
    for _ in 0..3 {
        out.extend_from_slice(&HEAD);
        out.extend_from_slice(data);
    }
    out
}

fn u32_at(bytes: &[u8], place: usize) -> u32 {
    u32::from_be_bytes(bytes[place..place + 4].try_into().unwrap())
}

// The length of a buffer response with data that `input` begins with.
fn decode(input: &[u8]) -> Option<usize> {
    if input.len() < 39 || u32_at(input, 4) != 0xBADC_0FFE || input[8] != 0 || u32_at(input, 21) != 0 {
        return None;
    }
    let len = u32_at(input, 0) as usize;
    let is_right = (40..=65_575).contains(&len) && len <= input.len() && input[33] == 0 && input[34] == 0;
    (is_right && u32_at(input, 35) as usize == len - 39).then_some(len)
}

fn main() {
    let words: Vec<String> = env::args().collect();
    let rounds: u64 = words[2].parse().unwrap();
    let data = vec![b'a'; DATA];
    let frames = three_frames(&data);
    let mut segment = vec![0u8; DATA];
    let mut sum = 0u64;
    for _ in 0..rounds {
        match words[1].as_str() {
            "encode" => sum += *black_box(three_frames(black_box(&data))).last().unwrap() as u64,
            "decode" => {
                let mut rest = black_box(frames.as_slice());
                while let Some(len) = decode(rest) {
                    segment.copy_from_slice(&rest[39..len]);
                    rest = &rest[len..];
                }
                sum += *black_box(&mut segment).last().unwrap() as u64;
            }
            _ => {
                for _ in 0..3 {
                    segment.copy_from_slice(black_box(&data));
                    black_box(&mut segment);
                }
                sum += *segment.last().unwrap() as u64;
            }
        }
    }
    println!("{sum}");
}
