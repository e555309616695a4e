//! A yardstick for `simulate`: the same replies from a plain Rust program without a proof. It reads rows in the plain form,
//! and of scripts the lines `limit`, `load` with `one` or `all`, `first` and any type, `release`, `status`, `count`, `take`,
//! `done` and `close`.
use std::collections::{BTreeMap, HashMap};
use std::env::args;
use std::fmt::Write;
use std::fs::{read, read_to_string};

fn text(token: &str) -> String {
    if token == "%" {
        return String::new();
    }
    let mut bytes = Vec::new();
    let mut rest = token.as_bytes();
    while let [first, after @ ..] = rest {
        match (*first, after) {
            (b'%', [_, _, behind @ ..]) => {
                bytes.push(u8::from_str_radix(std::str::from_utf8(&after[..2]).unwrap(), 16).unwrap());
                rest = behind;
            }
            (byte, _) => {
                bytes.push(byte);
                rest = after;
            }
        }
    }
    String::from_utf8(bytes).unwrap()
}

fn digest(digits: &str) -> [u8; 16] {
    std::array::from_fn(|n| u8::from_str_radix(&digits[2 * n..2 * n + 2], 16).unwrap())
}

#[allow(dead_code)]
struct Bundle {
    key: String,
    size: u64,
    digest: [u8; 16],
    name: String,
    id: String,
}

#[allow(dead_code)]
struct Asset {
    id: String,
    kind: u32,
    deps: Vec<u32>,
    keys: Vec<u32>,
}

#[derive(Default)]
struct Names {
    texts: Vec<String>,
    places: HashMap<String, u32>,
}

impl Names {
    fn number(&mut self, text: String) -> u32 {
        if let Some(place) = self.places.get(&text) {
            return *place;
        }
        let place = self.texts.len() as u32;
        self.texts.push(text.clone());
        self.places.insert(text, place);
        place
    }
}

#[derive(Default)]
struct Rows {
    bundles: Vec<Bundle>,
    assets: Vec<Asset>,
    keys: Names,
    kinds: Names,
    postings: Vec<Vec<u32>>,
}

fn read_rows(file: &str) -> Rows {
    let mut rows = Rows::default();
    let mut lines = file.lines();
    assert_eq!(lines.next(), Some("addr-rows 1"));
    for line in lines {
        let fields: Vec<&str> = line.split(' ').collect();
        match fields[..] {
            ["bundle", key, size, digits, name, id] => rows.bundles.push(Bundle {
                key: text(key),
                size: size.parse().unwrap(),
                digest: digest(digits),
                name: text(name),
                id: text(id),
            }),
            ["asset", id, kind, deps, keys] => {
                let place = rows.assets.len() as u32;
                let keys: Vec<u32> = match keys {
                    "%-" => Vec::new(),
                    _ => keys.split(',').map(|key| rows.keys.number(text(key))).collect(),
                };
                for key in &keys {
                    if rows.postings.len() <= *key as usize {
                        rows.postings.push(Vec::new());
                    }
                    rows.postings[*key as usize].push(place);
                }
                let deps: Vec<u32> = deps.split(',').map(|dep| dep.parse().unwrap()).collect();
                assert!(deps.iter().all(|dep| (*dep as usize) < rows.bundles.len()));
                let kind = rows.kinds.number(text(kind));
                rows.assets.push(Asset { id: text(id), kind, deps, keys });
            }
            _ => panic!("{line}"),
        }
    }
    rows
}

#[allow(dead_code)]
enum Event {
    Load(u32, u32),
    Release(u32, u32),
    Take(u32, u32),
    Done(u32, u32),
    Close,
}

#[derive(Default, Clone)]
struct Slot {
    count: u32,
    resident: bool,
    fetched_by: Option<u32>,
    queued_at: Option<u64>,
}

struct Operation {
    needs: Vec<u32>,
    released: bool,
}

struct Machine {
    slots: Vec<Slot>,
    queue: BTreeMap<u64, u32>,
    joined: u64,
    operations: Vec<Operation>,
    journal: Vec<Event>,
    limit: usize,
    fetched: usize,
    opened: usize,
    closed: bool,
}

impl Machine {
    fn load(&mut self, caller: u32, found: &[u32], rows: &Rows) -> String {
        let mut needs = Vec::new();
        for row in found {
            for dep in &rows.assets[*row as usize].deps {
                if !needs.contains(dep) {
                    needs.push(*dep);
                }
            }
        }
        let absent = |b: &&u32| {
            let slot = &self.slots[**b as usize];
            !slot.resident && slot.fetched_by.is_none() && slot.queued_at.is_none()
        };
        let needed = 2 + 2 * needs.iter().filter(absent).count();
        let reserved = self.opened + 2 * self.queue.len() + self.fetched + usize::from(!self.closed);
        if self.journal.len() + reserved + needed > self.limit {
            return format!("journal-full {} {reserved} {needed}", self.journal.len());
        }
        let operation = self.operations.len() as u32;
        self.journal.push(Event::Load(operation, caller));
        for b in &needs {
            let slot = &mut self.slots[*b as usize];
            slot.count += 1;
            if !slot.resident && slot.fetched_by.is_none() && slot.queued_at.is_none() {
                slot.queued_at = Some(self.joined);
                self.queue.insert(self.joined, *b);
                self.joined += 1;
            }
        }
        self.opened += 1;
        self.operations.push(Operation { needs, released: false });
        format!("op {operation}")
    }

    fn release(&mut self, caller: u32, operation: u32) -> &'static str {
        match self.operations.get_mut(operation as usize) {
            Some(open) if !open.released => {
                self.journal.push(Event::Release(operation, caller));
                open.released = true;
                for b in std::mem::take(&mut open.needs) {
                    let slot = &mut self.slots[b as usize];
                    slot.count -= 1;
                    if slot.count == 0 {
                        slot.resident = false;
                        if let Some(place) = slot.queued_at.take() {
                            self.queue.remove(&place);
                        }
                    }
                }
                self.opened -= 1;
                "released"
            }
            _ => "no-handle",
        }
    }

    fn status(&self, operation: u32) -> &'static str {
        match self.operations.get(operation as usize) {
            Some(open) if !open.released => match open.needs.iter().all(|b| self.slots[*b as usize].resident) {
                true => "ready",
                false => "pending",
            },
            _ => "no-handle",
        }
    }

    fn take(&mut self, worker: u32) -> String {
        match self.queue.pop_first() {
            Some((_, b)) => {
                self.journal.push(Event::Take(b, worker));
                self.slots[b as usize].queued_at = None;
                self.slots[b as usize].fetched_by = Some(worker);
                self.fetched += 1;
                format!("bundle {b}")
            }
            None if self.closed => "end".to_string(),
            None => "idle".to_string(),
        }
    }

    fn done(&mut self, worker: u32, b: u32) -> &'static str {
        match self.slots.get_mut(b as usize) {
            Some(slot) if slot.fetched_by == Some(worker) => {
                self.journal.push(Event::Done(b, worker));
                slot.fetched_by = None;
                slot.resident = slot.count > 0;
                self.fetched -= 1;
                if slot.resident { "kept" } else { "dropped" }
            }
            _ => "not-taken",
        }
    }

    fn close(&mut self) -> &'static str {
        if self.closed {
            return "closed";
        }
        self.closed = true;
        self.journal.push(Event::Close);
        "close"
    }

    fn count(&self, b: u32) -> String {
        match self.slots.get(b as usize) {
            None => "no-bundle".to_string(),
            Some(slot) => {
                let state = match slot {
                    Slot { resident: true, .. } => "resident",
                    Slot { fetched_by: Some(_), .. } => "fetching",
                    Slot { queued_at: Some(_), .. } => "queued",
                    _ => "absent",
                };
                format!("count {} {state}", slot.count)
            }
        }
    }
}

fn load(machine: &mut Machine, rows: &Rows, caller: u32, one: bool, keys: &str) -> String {
    if machine.closed {
        return "closed".to_string();
    }
    let found = keys.split(',').find_map(|key| rows.keys.places.get(&text(key)));
    match found.map(|key| &rows.postings[*key as usize]) {
        None => format!("no-location {}", keys.split(',').next().unwrap()),
        Some(found) if one => machine.load(caller, &found[..1], rows),
        Some(found) => machine.load(caller, found, rows),
    }
}

fn main() {
    let words: Vec<String> = args().collect();
    let rows = read_rows(&read_to_string(&words[1]).unwrap());
    let script = String::from_utf8(read(&words[2]).unwrap()).unwrap();
    let mut machine = Machine {
        slots: vec![Slot::default(); rows.bundles.len()],
        queue: BTreeMap::new(),
        joined: 0,
        operations: Vec::new(),
        journal: Vec::new(),
        limit: 100_000,
        fetched: 0,
        opened: 0,
        closed: false,
    };
    let mut out = String::new();
    for line in script.lines() {
        let fields: Vec<&str> = line.split(' ').collect();
        let number = |n: usize| fields[n].parse::<u32>().unwrap();
        let reply = match fields[0] {
            "limit" => {
                machine.limit = number(1) as usize;
                continue;
            }
            "load" => load(&mut machine, &rows, number(1), fields[2] == "one", fields[5]),
            "release" => machine.release(number(1), number(2)).to_string(),
            "status" => machine.status(number(1)).to_string(),
            "count" => machine.count(number(1)),
            "take" => machine.take(number(1)),
            "done" => machine.done(number(1), number(2)).to_string(),
            "close" => machine.close().to_string(),
            _ => panic!("{line}"),
        };
        writeln!(out, "{reply}").unwrap();
    }
    print!("{out}");
}
