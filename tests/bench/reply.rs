// Compares `reply::reply` on a full table of records of 300 bytes with the same work in Rust: see docs/DECISIONS.md, "Speed".
use std::hint::black_box;
use std::time::Instant;

extern "C" {
    fn nodes_many(rounds: u32, kind: u32) -> u64;
    fn content_many(rounds: u32, kind: u32) -> u64;
}

type Id = [u8; 32];

#[derive(Clone, Copy)]
struct Contact {
    id: Id,
    #[allow(dead_code)]
    radius: [u8; 32],
    #[allow(dead_code)]
    address: [u8; 4],
    #[allow(dead_code)]
    port: u16,
    len: usize,
    enr: [u8; 300],
}

impl Contact {
    fn record(&self) -> &[u8] {
        &self.enr[..self.len]
    }

    fn sized(&self) -> bool {
        (1..=300).contains(&self.len)
    }
}

#[derive(Clone, Copy)]
struct Entry {
    contact: Contact,
    failures: u8,
}

struct Table {
    own: Id,
    count: usize,
    entries: [Entry; 128],
    waiting: usize,
    replacements: [Contact; 16],
}

struct Index {
    node: Id,
    cap: Id,
    keys: Vec<[u8; 9]>,
}

#[derive(Debug)]
struct Refused(#[allow(dead_code)] u8);

fn xor(a: &Id, b: &Id) -> Id {
    std::array::from_fn(|i| a[i] ^ b[i])
}

fn log_distance(a: &Id, b: &Id) -> u16 {
    match a.iter().zip(b).position(|(x, y)| x != y) {
        Some(i) => 256 - 8 * i as u16 - (a[i] ^ b[i]).leading_zeros() as u16,
        None => 0,
    }
}

fn count(logs: &[u16], d: u16) -> usize {
    logs.iter().filter(|&&x| x == d).count()
}

fn content_id(key: &[u8; 9]) -> Id {
    let number = u64::from_le_bytes(key[1..].try_into().unwrap());
    let mut id = [0; 32];
    id[..2].copy_from_slice(&((number % 65536) as u16).to_be_bytes());
    id[2..8].copy_from_slice(&(number / 65536).reverse_bits().to_be_bytes()[..6]);
    id[31] = key[0];
    id
}

impl Index {
    fn is_good(&self) -> bool {
        let far: Vec<Id> = self.keys.iter().map(|k| xor(&self.node, &content_id(k))).collect();
        self.keys.len() <= 3000 && self.keys.iter().all(|k| k[0] <= 1) && far.windows(2).all(|w| w[0] < w[1]) && far.iter().all(|d| *d <= self.cap)
    }
}

impl Table {
    fn entries(&self) -> &[Entry] {
        &self.entries[..self.count]
    }

    fn is_good(&self) -> bool {
        let (Some(entries), Some(replacements)) = (self.entries.get(..self.count), self.replacements.get(..self.waiting)) else {
            return false;
        };
        if entries.iter().any(|e| e.failures > 3 || !e.contact.sized()) || replacements.iter().any(|c| !c.sized()) {
            return false;
        }
        let mut ids = [&self.own; 145];
        let all = entries.iter().map(|e| &e.contact.id).chain(replacements.iter().map(|c| &c.id));
        ids[1..].iter_mut().zip(all).for_each(|(place, id)| *place = id);
        let ids = &ids[..1 + self.count + self.waiting];
        if (0..ids.len()).any(|i| ids[i + 1..].contains(&ids[i])) {
            return false;
        }
        let near: Vec<u16> = entries.iter().map(|e| log_distance(&self.own, &e.contact.id)).collect();
        let wait: Vec<u16> = replacements.iter().map(|c| log_distance(&self.own, &c.id)).collect();
        near.iter().all(|&d| count(&near, d) <= 16) && wait.iter().all(|&d| count(&wait, d) <= 4 && count(&near, d) >= 16)
    }
}

// The records of the wanted entries, nearest to a point first, behind those that come first; equal ones once.
fn chosen<'a>(first: Option<&'a [u8]>, table: &'a Table, point: &Id, wanted: impl Fn(&Id) -> bool) -> Vec<&'a [u8]> {
    let mut near: Vec<&Contact> = table.entries().iter().map(|e| &e.contact).filter(|c| wanted(&c.id)).collect();
    near.sort_by_key(|c| xor(point, &c.id));
    let mut kept: Vec<&[u8]> = Vec::with_capacity(129);
    for record in first.into_iter().chain(near.into_iter().map(Contact::record)) {
        if !kept.contains(&record) {
            kept.push(record);
        }
    }
    kept
}

// How many records a message takes that has so many bytes without them.
fn taken(head: usize, records: &[&[u8]]) -> usize {
    let mut size = head;
    records.iter().take(32).take_while(|r| {
        size += 4 + r.len();
        size <= 1280
    }).count()
}

// At most 32 records of 1 to 300 bytes, no two equal: what every writer of a message tests.
fn may_be_written(records: &[&[u8]]) -> bool {
    records.len() <= 32
        && records.iter().all(|r| (1..=300).contains(&r.len()))
        && (0..records.len()).all(|i| !records[i + 1..].contains(&records[i]))
}

// Puts the offsets and the records of a list.
fn put_list(records: &[&[u8]], out: &mut [u8]) -> usize {
    let mut at = 4 * records.len();
    for (i, record) in records.iter().enumerate() {
        out[4 * i..4 * i + 4].copy_from_slice(&(at as u32).to_le_bytes());
        out[at..at + record.len()].copy_from_slice(record);
        at += record.len();
    }
    at
}

fn nodes(table: &Table, own: &[u8], distances: &[u8], out: &mut [u8]) -> Result<Vec<usize>, Refused> {
    if distances.len() > 256 {
        return Err(Refused(5));
    }
    let mut seen = [false; 256];
    if distances.iter().any(|&d| std::mem::replace(&mut seen[d as usize], true)) {
        return Err(Refused(6));
    }
    let first = distances.contains(&0).then_some(own);
    if first.is_some_and(|r| !(1..=300).contains(&r.len())) {
        return Err(Refused(23));
    }
    let records = chosen(first, table, &table.own, |id| distances.iter().any(|&d| d as u16 == log_distance(&table.own, id)));
    let mut groups = vec![];
    let mut left = &records[..];
    while groups.is_empty() || !left.is_empty() {
        let (group, rest) = left.split_at(taken(6, left));
        groups.push(group);
        left = rest;
    }
    let size: usize = groups.iter().map(|g| 6 + g.iter().map(|r| 4 + r.len()).sum::<usize>()).sum();
    if out.len() < size {
        return Err(Refused(13));
    }
    let mut at = 0;
    Ok(groups.iter().map(|group| {
        assert!(may_be_written(group));
        out[at..at + 6].copy_from_slice(&[4, groups.len() as u8, 5, 0, 0, 0]);
        let size = 6 + put_list(group, &mut out[at + 6..]);
        at += size;
        size
    }).collect())
}

fn content(index: &Index, table: &Table, key: &[u8], out: &mut [u8]) -> Result<Vec<usize>, Refused> {
    let key: &[u8; 9] = key.try_into().map_err(|_| Refused(7))?;
    if key[0] > 1 {
        return Err(Refused(8));
    }
    if index.keys.contains(key) {
        return Err(Refused(23));
    }
    let id = content_id(key);
    let ours = xor(&id, &table.own);
    let records = chosen(None, table, &id, |other| xor(&id, other) < ours);
    let records = &records[..taken(13, &records)];
    let list: usize = records.iter().map(|r| 4 + r.len()).sum();
    if out.len() < 13 + list {
        return Err(Refused(13));
    }
    assert!(may_be_written(records));
    out[..5].copy_from_slice(&[6, 0, 0, 0, 0]);
    out[5..9].copy_from_slice(&12u32.to_le_bytes());
    out[9..13].copy_from_slice(&(12 + list as u32).to_le_bytes());
    put_list(records, &mut out[13..]);
    Ok(vec![13 + list])
}

fn reply(index: &Index, table: &Table, own: &[u8], message: &[u8], out: &mut [u8]) -> Result<Vec<usize>, Refused> {
    if !index.is_good() || !table.is_good() || index.node != table.own {
        return Err(Refused(0));
    }
    let (&kind, body) = message.split_first().ok_or(Refused(1))?;
    if message.len() > 1280 {
        return Err(Refused(2));
    }
    if kind != 3 && kind != 5 {
        return Err(Refused(3));
    }
    let rest = body.strip_prefix(&[4, 0, 0, 0]).ok_or(Refused(4))?;
    if kind == 3 {
        nodes(table, own, rest, out)
    } else {
        content(index, table, rest, out)
    }
}

fn random<const N: usize>(seed: u64) -> [u8; N] {
    let mut state = seed;
    std::array::from_fn(|_| {
        state = (state * 1664525 + 1013904223) % 4294967296;
        (state / 65536 % 256) as u8
    })
}

fn id(class: u32, n: u32) -> Id {
    let weight = 128u32 >> class.min(7);
    let mut id: Id = random((class * 1000 + n) as u64);
    id[0] = 0;
    id[1] = (weight + id[1] as u32 % weight) as u8;
    id
}

fn node_record(kind: u32, n: u32) -> [u8; 300] {
    let mut bytes = random(if kind == 0 { n as u64 * 77 + 5 } else { 7 });
    bytes[if kind == 1 { 299 } else { 0 }] = (n % 256) as u8;
    bytes
}

fn contact(id: Id, enr: [u8; 300]) -> Contact {
    Contact { id, radius: [255; 32], address: [127, 0, 0, 1], port: 9009, len: 300, enr }
}

fn full_table(kind: u32) -> Table {
    let entry = |i: usize| Entry { contact: contact(id(i as u32 / 16, i as u32 % 16), node_record(kind, i as u32)), failures: 0 };
    Table { own: [0; 32], count: 128, entries: std::array::from_fn(entry), waiting: 0, replacements: [contact([0; 32], [0; 300]); 16] }
}

fn rust_many(rounds: u32, kind: u32, request: &[u8]) -> u64 {
    let table = full_table(kind);
    let own = node_record(kind, 128);
    let index = Index { node: [0; 32], cap: [255; 32], keys: vec![] };
    let mut out = vec![0; 65536];
    (0..rounds).fold(0u64, |sum, _| {
        let lens = reply(black_box(&index), black_box(&table), &own, black_box(request), &mut out).unwrap();
        let answer = ((lens.len() * 4096 + lens[0]) as u64) * 256 + out[640] as u64;
        sum % 4294967296 * 3 + answer % 4294967296
    })
}

fn main() {
    let rounds = 3000;
    let every: Vec<u8> = [3, 4, 0, 0, 0].into_iter().chain(0..=255).collect();
    let absent = [5u8, 4, 0, 0, 0, 0, 255, 0, 0, 0, 0, 0, 0, 0];
    let kinds = ["random records", "equal but for the last byte", "equal but for the first byte"];
    let calls: [(&str, unsafe extern "C" fn(u32, u32) -> u64, &[u8]); 2] = [("FindNode", nodes_many, &every), ("FindContent", content_many, &absent)];
    for (name, door, request) in calls {
        for (kind, what) in kinds.iter().enumerate() {
            let (mut ours, mut theirs) = (f64::MAX, f64::MAX);
            for _ in 0..5 {
                let start = Instant::now();
                let a = unsafe { door(rounds, kind as u32) };
                ours = ours.min(start.elapsed().as_secs_f64());
                let start = Instant::now();
                let b = rust_many(rounds, kind as u32, request);
                theirs = theirs.min(start.elapsed().as_secs_f64());
                assert_eq!(a, b, "both must send the same");
            }
            let per = 1e6 / rounds as f64;
            println!("{name}, {what}: {:.1} us, Rust {:.1} us, ratio {:.2}", ours * per, theirs * per, ours / theirs);
        }
    }
}
