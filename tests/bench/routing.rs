// Compares `routing_calls::seen` and `failed` on a full table with the same work in Rust: see docs/DECISIONS.md, "Speed".
#![allow(dead_code)]
use std::hint::black_box;
use std::time::Instant;

extern "C" {
    fn seen_many(rounds: u32, near: bool) -> u64;
    fn failed_many(rounds: u32, near: bool) -> u64;
}

type Id = [u8; 32];

#[derive(Clone, Copy)]
struct Contact {
    id: Id,
    radius: [u8; 32],
    address: [u8; 4],
    port: u16,
    len: usize,
    enr: [u8; 300],
}

#[derive(Clone, Copy)]
struct Entry {
    contact: Contact,
    failures: u8,
}

#[derive(Clone, Copy)]
struct Table {
    own: Id,
    count: usize,
    entries: [Entry; 128],
    waiting: usize,
    replacements: [Contact; 16],
}

#[derive(Debug)]
enum Refusal {
    BadTable,
    ItemRule,
    OwnId,
    TableFull,
    ReplacementsFull,
    NoEntry,
}

enum Standing {
    Entry,
    Replacement,
}

enum Failure {
    Counted(u8),
    Flagged,
    Replaced(Id),
}

fn log_distance(a: &Id, b: &Id) -> u16 {
    match a.iter().zip(b).position(|(x, y)| x != y) {
        Some(i) => 256 - 8 * i as u16 - (a[i] ^ b[i]).leading_zeros() as u16,
        None => 0,
    }
}

fn count(logs: &[u16], d: u16) -> usize {
    logs.iter().filter(|&&x| x == d).count()
}

impl Table {
    fn fresh(own: Id) -> Table {
        let contact = Contact { id: [0; 32], radius: [0; 32], address: [0; 4], port: 0, len: 0, enr: [0; 300] };
        Table { own, count: 0, entries: [Entry { contact, failures: 0 }; 128], waiting: 0, replacements: [contact; 16] }
    }

    // The log distances of entries and replacements, where the table keeps its rules.
    fn logs(&self) -> Option<([u16; 128], [u16; 16])> {
        let entries = self.entries.get(..self.count)?;
        let replacements = self.replacements.get(..self.waiting)?;
        let sized = |c: &Contact| (1..=300).contains(&c.len);
        if entries.iter().any(|e| e.failures > 3 || !sized(&e.contact)) || !replacements.iter().all(sized) {
            return None;
        }
        let mut ids = [&self.own; 145];
        let all = entries.iter().map(|e| &e.contact.id).chain(replacements.iter().map(|c| &c.id));
        ids[1..].iter_mut().zip(all).for_each(|(place, id)| *place = id);
        let ids = &ids[..1 + self.count + self.waiting];
        if (0..ids.len()).any(|i| ids[i + 1..].contains(&ids[i])) {
            return None;
        }
        let mut near = [0; 128];
        let mut wait = [0; 16];
        near.iter_mut().zip(entries).for_each(|(d, e)| *d = log_distance(&self.own, &e.contact.id));
        wait.iter_mut().zip(replacements).for_each(|(d, c)| *d = log_distance(&self.own, &c.id));
        let (n, w) = (&near[..self.count], &wait[..self.waiting]);
        let fit = n.iter().all(|&d| count(n, d) <= 16) && w.iter().all(|&d| count(w, d) <= 4 && count(n, d) >= 16);
        fit.then_some((near, wait))
    }

    fn latest(&mut self, at: usize, contact: Contact) {
        self.replacements[at..self.waiting].rotate_left(1);
        self.replacements[self.waiting - 1] = contact;
    }

    fn seen(&mut self, contact: Contact) -> Result<Standing, Refusal> {
        let (near, wait) = self.logs().ok_or(Refusal::BadTable)?;
        if !(1..=300).contains(&contact.len) {
            return Err(Refusal::ItemRule);
        }
        if contact.id == self.own {
            return Err(Refusal::OwnId);
        }
        if let Some(entry) = self.entries[..self.count].iter_mut().find(|e| e.contact.id == contact.id) {
            *entry = Entry { contact, failures: 0 };
            return Ok(Standing::Entry);
        }
        if let Some(at) = self.replacements[..self.waiting].iter().position(|c| c.id == contact.id) {
            self.latest(at, contact);
            return Ok(Standing::Replacement);
        }
        let d = log_distance(&self.own, &contact.id);
        if count(&near[..self.count], d) < 16 {
            *self.entries.get_mut(self.count).ok_or(Refusal::TableFull)? = Entry { contact, failures: 0 };
            self.count += 1;
            return Ok(Standing::Entry);
        }
        let wait = &wait[..self.waiting];
        if count(wait, d) < 4 && self.waiting < 16 {
            self.replacements[self.waiting] = contact;
            self.waiting += 1;
        } else {
            let at = wait.iter().position(|&x| x == d).ok_or(Refusal::ReplacementsFull)?;
            self.latest(at, contact);
        }
        Ok(Standing::Replacement)
    }

    fn failed(&mut self, id: &Id) -> Result<Failure, Refusal> {
        let (_, wait) = self.logs().ok_or(Refusal::BadTable)?;
        if *id == self.own {
            return Err(Refusal::OwnId);
        }
        let d = log_distance(&self.own, id);
        let entry = self.entries[..self.count].iter_mut().find(|e| e.contact.id == *id).ok_or(Refusal::NoEntry)?;
        if entry.failures < 2 {
            entry.failures += 1;
            return Ok(Failure::Counted(entry.failures));
        }
        let Some(at) = wait[..self.waiting].iter().rposition(|&x| x == d) else {
            entry.failures = 3;
            return Ok(Failure::Flagged);
        };
        let contact = self.replacements[at];
        *entry = Entry { contact, failures: 0 };
        self.replacements[at..self.waiting].rotate_left(1);
        self.waiting -= 1;
        Ok(Failure::Replaced(contact.id))
    }
}

fn id(near: bool, class: u32, n: u32) -> Id {
    let weight = 128u32 >> class.min(7);
    let mut id = [0; 32];
    if near {
        let number = 16 * weight + n % 256;
        id[30] = (number / 256) as u8;
        id[31] = (number % 256) as u8;
        return id;
    }
    let mut state = (class * 1000 + n) as u64;
    for b in &mut id {
        state = (state * 1664525 + 1013904223) % 4294967296;
        *b = (state / 65536 % 256) as u8;
    }
    id[0] = (weight + id[0] as u32 % weight) as u8;
    id
}

fn contact(id: Id) -> Contact {
    Contact { id, radius: [255; 32], address: [127, 0, 0, 1], port: 9009, len: 300, enr: [170; 300] }
}

fn full_table(near: bool) -> Table {
    let mut table = Table::fresh([0; 32]);
    for i in 0..128 {
        assert!(matches!(table.seen(contact(id(near, i / 16, i % 16))), Ok(Standing::Entry)));
    }
    for i in 0..16 {
        assert!(matches!(table.seen(contact(id(near, i / 4, 16 + i % 4))), Ok(Standing::Replacement)));
    }
    table
}

fn added(sum: u64, n: u8) -> u64 {
    sum % 4294967296 * 3 + n as u64
}

fn rust_seen(rounds: u32, near: bool) -> u64 {
    let full = full_table(near);
    (0..rounds).fold(0, |sum, i| {
        let mut table = black_box(full);
        table.seen(contact(id(near, i % 4, 20 + i % 200))).unwrap();
        let table = black_box(table);
        added(sum, table.replacements[15].id[31])
    })
}

fn rust_failed(rounds: u32, near: bool) -> u64 {
    let mut full = full_table(near);
    for i in 0..256 {
        assert!(matches!(full.failed(&id(near, i / 16 % 8, i % 16)), Ok(Failure::Counted(_))));
    }
    (0..rounds).fold(0, |sum, i| {
        let mut table = black_box(full);
        let Ok(Failure::Replaced(by)) = table.failed(&id(near, i % 4, i % 16)) else { panic!() };
        black_box(table);
        added(sum, by[31])
    })
}

fn measure(name: &str, near: bool, ours: unsafe extern "C" fn(u32, bool) -> u64, theirs: fn(u32, bool) -> u64) {
    let rounds = 50_000;
    for _ in 0..5 {
        let start = Instant::now();
        let a = unsafe { ours(rounds, near) };
        let proved = start.elapsed();
        let start = Instant::now();
        let b = theirs(rounds, near);
        let plain = start.elapsed();
        assert_eq!(a, b);
        let each = |t: std::time::Duration| t.as_nanos() as f64 / rounds as f64 / 1000.0;
        let ids = if near { "ids that agree in all but twelve bits" } else { "random ids" };
        println!("{name}, {ids}: proved {:.2} us, Rust {:.2} us, ratio {:.2}", each(proved), each(plain), each(proved) / each(plain));
    }
}

fn main() {
    for near in [false, true] {
        measure("seen", near, seen_many, rust_seen);
        measure("failed", near, failed_many, rust_failed);
    }
}
