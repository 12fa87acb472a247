// Compares the calls on the index, at 240 and at 3,000 keys, with the same algorithms in Rust: see docs/DECISIONS.md, "Speed".
use std::hint::black_box;
use std::time::Instant;

extern "C" {
    fn index_many(call: u32, size: u32, at: u32, rounds: u32) -> u64;
}

const LIMIT: usize = 3000;
const FIRST: usize = 135;
const LINE: usize = 21;

#[derive(Clone, Copy)]
struct Index {
    node: [u8; 32],
    cap: [u8; 32],
    count: usize,
    keys: [u8; 9 * LIMIT],
}

fn id(key: &[u8; 9]) -> [u8; 32] {
    let mut id = [0u8; 32];
    id[0] = key[2];
    id[1] = key[1];
    for i in 0..6 {
        id[2 + i] = key[3 + i].reverse_bits();
    }
    id[31] = key[0];
    id
}

fn away(node: &[u8; 32], key: &[u8; 9]) -> [u8; 32] {
    let mut d = id(key);
    for i in 0..32 {
        d[i] ^= node[i];
    }
    d
}

fn key_at(index: &Index, i: usize) -> [u8; 9] {
    index.keys[9 * i..9 * i + 9].try_into().unwrap()
}

fn good(index: &Index) -> bool {
    if index.count > LIMIT {
        return false;
    }
    let mut last = [0u8; 32];
    for i in 0..index.count {
        let key = key_at(index, i);
        let far = away(&index.node, &key);
        if key[0] > 1 || (i > 0 && far <= last) || far > index.cap {
            return false;
        }
        last = far;
    }
    true
}

fn find(index: &Index, key: &[u8; 9]) -> Option<usize> {
    (0..index.count).position(|i| key_at(index, i) == *key)
}

// What a call says, in the door's numbers: a refusal's own number, 256 for accepted or kept, and for an evicting call 512 and the
// second byte of the key that left.
struct Answer {
    word: u64,
    index: Index,
}

// Content is taken for good here, as it is one byte.
#[inline(never)]
fn store(index: Index, key: &[u8; 9], newest: u64) -> Answer {
    if !good(&index) {
        return Answer { word: 0, index };
    }
    if key[0] > 1 {
        return Answer { word: 8, index };
    }
    if u64::from_le_bytes(key[1..].try_into().unwrap()) > newest {
        return Answer { word: 17, index };
    }
    if find(&index, key).is_some() {
        return Answer { word: 11, index };
    }
    let far = away(&index.node, key);
    let full = index.count == LIMIT;
    let radius = if full { away(&index.node, &key_at(&index, LIMIT - 1)) } else { index.cap };
    if far > radius {
        return Answer { word: 10, index };
    }
    let place = (0..index.count).position(|i| away(&index.node, &key_at(&index, i)) >= far).unwrap_or(index.count);
    let mut next = index;
    let mut word = 256;
    if full {
        word = 512 + key_at(&index, LIMIT - 1)[1] as u64;
    } else {
        next.count += 1;
    }
    next.keys.copy_within(9 * place..9 * (next.count - 1), 9 * place + 9);
    next.keys[9 * place..9 * place + 9].copy_from_slice(key);
    Answer { word, index: next }
}

#[inline(never)]
fn remove(index: Index, key: &[u8; 9]) -> Answer {
    if !good(&index) {
        return Answer { word: 0, index };
    }
    if key[0] > 1 {
        return Answer { word: 8, index };
    }
    let Some(place) = find(&index, key) else {
        return Answer { word: 12, index };
    };
    let mut next = index;
    next.keys.copy_within(9 * place + 9..9 * index.count, 9 * place);
    next.count -= 1;
    Answer { word: 256, index: next }
}

fn value(c: u8) -> Option<u8> {
    match c {
        b'0'..=b'9' => Some(c - b'0'),
        b'a'..=b'f' => Some(c - b'a' + 10),
        _ => None,
    }
}

// The bytes of the line at the start of a text, if it has the digits of so many and then a line feed.
fn frame<const N: usize>(text: &[u8]) -> Option<[u8; N]> {
    if text.len() <= 2 * N || text[2 * N] != b'\n' {
        return None;
    }
    let mut bytes = [0u8; N];
    for i in 0..N {
        bytes[i] = value(text[2 * i])? * 16 + value(text[2 * i + 1])?;
    }
    Some(bytes)
}

// The first line: node id, cap, count, and where the keys begin.
fn header(text: &[u8]) -> Option<([u8; 32], [u8; 32], usize, usize)> {
    let node = |bytes: &[u8]| bytes[1..33].try_into().unwrap();
    let cap = |bytes: &[u8]| bytes[33..65].try_into().unwrap();
    if let Some(bytes) = frame::<67>(text) {
        let count = bytes[65] as usize + 256 * bytes[66] as usize;
        return (bytes[0] == 0x11 && count <= LIMIT).then(|| (node(&bytes), cap(&bytes), count, FIRST));
    }
    let bytes = frame::<66>(text)?;
    let count = bytes[65] as usize;
    (bytes[0] == 1 && count <= 240).then(|| (node(&bytes), cap(&bytes), count, FIRST - 2))
}

// The index that a text gives.
fn load(text: &[u8]) -> Option<Index> {
    let (node, cap, count, start) = header(text)?;
    let mut next = Index { node, cap, count, keys: [0; 9 * LIMIT] };
    let mut last = [0u8; 32];
    for i in 0..count {
        let bytes = frame::<10>(text.get(start + LINE * i..)?)?;
        let key: [u8; 9] = bytes[1..].try_into().unwrap();
        let far = away(&node, &key);
        if bytes[0] != 2 || key[0] > 1 || (i > 0 && far <= last) || far > cap {
            return None;
        }
        next.keys[9 * i..9 * i + 9].copy_from_slice(&key);
        last = far;
    }
    (text.len() == start + LINE * count).then_some(next)
}

#[inline(never)]
fn reload(index: Index, text: &[u8]) -> Answer {
    if !good(&index) {
        return Answer { word: 0, index };
    }
    match load(text) {
        Some(next) => Answer { word: 256, index: next },
        None => Answer { word: 14, index },
    }
}

fn put_hex(bytes: &[u8], out: &mut [u8]) {
    let glyph = |n: u8| if n < 10 { b'0' + n } else { b'a' + n - 10 };
    for (i, b) in bytes.iter().enumerate() {
        out[2 * i] = glyph(b / 16);
        out[2 * i + 1] = glyph(b % 16);
    }
}

// How many bytes the text of the index has, if it is good and they have room.
#[inline(never)]
fn save(index: Index, out: &mut [u8]) -> Option<usize> {
    let size = FIRST + LINE * index.count;
    if !good(&index) || out.len() < size {
        return None;
    }
    put_hex(&[0x11], out);
    put_hex(&index.node, &mut out[2..]);
    put_hex(&index.cap, &mut out[66..]);
    put_hex(&[index.count as u8, (index.count >> 8) as u8], &mut out[130..]);
    out[134] = b'\n';
    for i in 0..index.count {
        let line = &mut out[FIRST + LINE * i..FIRST + LINE * i + LINE];
        put_hex(&[2], line);
        put_hex(&key_at(&index, i), &mut line[2..]);
        line[20] = b'\n';
    }
    Some(size)
}

fn key(selector: u8, number: u32) -> [u8; 9] {
    [selector, number as u8, (number >> 8) as u8, 0, 0, 0, 0, 0, 0]
}

fn bodies(size: u32) -> Index {
    let mut index = Index { node: [0; 32], cap: [64; 32], count: size as usize, keys: [0; 9 * LIMIT] };
    for i in 0..size {
        index.keys[9 * i as usize..9 * i as usize + 9].copy_from_slice(&key(0, i));
    }
    index
}

fn added(sum: u64, n: u64) -> u64 {
    sum % 4294967296 * 3 + n % 4294967296
}

// Some bytes of what a call leaves, in three of its places, and its count.
fn left(bytes: &[u8], count: usize, number: u32) -> u64 {
    let at = |i: usize| -> [u8; 9] { bytes.get(9 * i..9 * i + 9).map_or([0; 9], |nine| nine.try_into().unwrap()) };
    let (here, next, middle) = (at(number as usize), at(number as usize + 1), at(count / 2));
    let mixed = here[1] ^ here[2] ^ next[0] ^ next[1] ^ middle[1] ^ middle[5];
    added((count % 65536) as u64, mixed as u64)
}

fn told(answer: &Answer, number: u32) -> u64 {
    added(answer.word, left(&answer.index.keys, answer.index.count, number))
}

// What the door does, on this side.
fn plain_many(call: u32, size: u32, at: u32, rounds: u32) -> u64 {
    let index = bodies(size);
    let mut text = vec![0u8; 65536];
    let len = save(index, &mut text).unwrap_or(0);
    let mut sum = 0u64;
    for i in 0..rounds {
        let number = at % 65536 + i % 64;
        let index = black_box(&index);
        let n = match call {
            0 => told(&black_box(store(*index, &key(1, number), number as u64)), number),
            1 => told(&black_box(store(*index, &key(0, number), number as u64)), number),
            2 => told(&black_box(remove(*index, &key(0, number))), number),
            3 => told(&black_box(reload(*index, &text[..len])), number),
            _ => {
                let len = save(*index, &mut text).unwrap_or(0);
                left(black_box(&text), len, number)
            }
        };
        sum = added(sum, n);
    }
    sum
}

// Microseconds a round, without the set-up, and the sum.
fn timed(many: &dyn Fn(u32) -> u64, rounds: u32) -> (f64, u64) {
    let start = Instant::now();
    many(0);
    let set_up = start.elapsed();
    let start = Instant::now();
    let sum = many(rounds);
    let all = start.elapsed();
    ((all.as_nanos() as f64 - set_up.as_nanos() as f64) / rounds as f64 / 1000.0, sum)
}

// The best of many short turns of both sides, ours first.
fn best(call: u32, size: u32, at: u32) -> (f64, f64) {
    let rounds = if size < 1000 { 1280 } else { 256 };
    let mut found = (f64::MAX, f64::MAX);
    for _ in 0..25 {
        let (proved, ours) = timed(&|n| unsafe { index_many(call, size, at, n) }, rounds);
        let (plain, theirs) = timed(&|n| plain_many(call, size, at, n), rounds);
        assert_eq!(ours, theirs);
        found = (found.0.min(proved), found.1.min(plain));
    }
    found
}

fn main() {
    // the call, and the sizes and block numbers that make it what it says
    let calls: [(&str, u32, &[(u32, u32)]); 11] = [
        ("store, kept near the front", 0, &[(240, 8), (2999, 8)]),
        ("store, kept in the middle", 0, &[(240, 90), (2999, 1470)]),
        ("store, evicting, near the front", 0, &[(3000, 8)]),
        ("store, evicting, in the middle", 0, &[(3000, 1470)]),
        ("store, refused with 10", 0, &[(240, 30000), (3000, 30000)]),
        ("store, refused with 11, near the front", 1, &[(240, 8), (3000, 8)]),
        ("store, refused with 11, in the middle", 1, &[(240, 90), (3000, 1470)]),
        ("remove, near the front", 2, &[(240, 0), (3000, 0)]),
        ("remove, in the middle", 2, &[(240, 90), (3000, 1470)]),
        ("reload", 3, &[(240, 90), (3000, 1470)]),
        ("save", 4, &[(240, 90), (3000, 1470)]),
    ];
    for (name, call, sizes) in calls {
        let times: Vec<(f64, f64)> = sizes.iter().map(|&(size, at)| best(call, size, at)).collect();
        for ((size, _), (ours, theirs)) in sizes.iter().zip(&times) {
            println!("{name}, {size} keys: proved {ours:.2} us, Rust {theirs:.2} us, ratio {:.2}", ours / theirs);
        }
        if let [small, large] = times[..] {
            println!("  growth: proved {:.1}, Rust {:.1}", large.0 / small.0, large.1 / small.1);
        }
    }
}
