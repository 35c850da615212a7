//! A lock table over Rust's standard collections, timed on the traces of `bench_core tables`.
//!
//! It makes the same calls as `bench_core` and prints, for each trace, the calls a second and a digest of
//! the grants. `bench_core` prints the same digest if both tables grant the same locks in the same order. An
//! argument selects a trace by its index.

use std::collections::{BTreeMap, BTreeSet, HashMap, VecDeque};
use std::time::{Duration, Instant};

#[derive(Clone, Copy, PartialEq)]
enum Mode {
    Shared,
    Exclusive,
}

#[derive(Clone, Copy, PartialEq)]
enum Standing {
    Held,
    Waiting,
    Absent,
}

struct Row {
    client: u16,
    number: u32,
    name: String,
    mode: Mode,
}

struct Entry {
    number: u32,
    is_held: bool,
    mode: Mode,
    name: String,
}

#[derive(Clone, Copy)]
struct Grant {
    client: u16,
    number: u32,
}

/// The holders of a name, and the order numbers of its waiting requests, rising.
#[derive(Default)]
struct Line {
    shared: usize,
    exclusive: usize,
    queue: VecDeque<u64>,
}

impl Line {
    fn is_free(&self, mode: Mode) -> bool {
        self.exclusive == 0 && (mode == Mode::Shared || self.shared == 0)
    }

    fn holders(&mut self, mode: Mode) -> &mut usize {
        match mode {
            Mode::Shared => &mut self.shared,
            Mode::Exclusive => &mut self.exclusive,
        }
    }

    fn is_idle(&self) -> bool {
        self.shared == 0 && self.exclusive == 0 && self.queue.is_empty()
    }
}

#[derive(Clone, Copy)]
struct Place {
    order: u64,
    is_held: bool,
}

/// Rows by rising order number, a line for each name, and the places of each client's numbers.
#[derive(Default)]
struct Table {
    next: u64,
    held: BTreeMap<u64, Row>,
    waiting: BTreeMap<u64, Row>,
    lines: HashMap<String, Line>,
    clients: HashMap<u16, HashMap<u32, Place>>,
    candidates: BTreeSet<u64>,
}

impl Table {
    fn state(&self, client: u16, number: u32) -> Standing {
        match self.clients.get(&client).and_then(|places| places.get(&number)) {
            Some(place) if place.is_held => Standing::Held,
            Some(_) => Standing::Waiting,
            None => Standing::Absent,
        }
    }

    fn new_order(&mut self) -> u64 {
        self.next += 1;
        self.next
    }

    fn hold(&mut self, row: Row) {
        let order = self.new_order();
        let place = Place { order, is_held: true };
        self.clients.entry(row.client).or_default().insert(row.number, place);
        match self.lines.get_mut(&row.name) {
            Some(line) => *line.holders(row.mode) += 1,
            None => *self.lines.entry(row.name.clone()).or_default().holders(row.mode) += 1,
        }
        self.held.insert(order, row);
    }

    fn queue(&mut self, row: Row) {
        let order = self.new_order();
        let place = Place { order, is_held: false };
        self.clients.entry(row.client).or_default().insert(row.number, place);
        match self.lines.get_mut(&row.name) {
            Some(line) => line.queue.push_back(order),
            None => self.lines.entry(row.name.clone()).or_default().queue.push_back(order),
        }
        self.candidates.insert(order);
        self.waiting.insert(order, row);
    }

    /// Takes a row's number from its client.
    fn forget_number(&mut self, row: &Row) {
        if let Some(places) = self.clients.get_mut(&row.client) {
            places.remove(&row.number);
            if places.is_empty() {
                self.clients.remove(&row.client);
            }
        }
    }

    /// Makes the first request of a name a candidate, and forgets a name without entries.
    fn left(&mut self, name: &str) {
        if let Some(line) = self.lines.get(name) {
            if let Some(order) = line.queue.front() {
                self.candidates.insert(*order);
            } else if line.is_idle() {
                self.lines.remove(name);
            }
        }
    }

    fn settle(&mut self) -> Vec<Grant> {
        let mut granted = Vec::new();
        while let Some(order) = self.candidates.pop_first() {
            let Some(row) = self.waiting.get(&order) else {
                continue;
            };
            let Some(line) = self.lines.get_mut(&row.name) else {
                continue;
            };
            if line.queue.front() != Some(&order) || !line.is_free(row.mode) {
                continue;
            }
            line.queue.pop_front();
            if let Some(next) = line.queue.front() {
                self.candidates.insert(*next);
            }
            if let Some(row) = self.waiting.remove(&order) {
                granted.push(Grant { client: row.client, number: row.number });
                self.hold(row);
            }
        }
        granted
    }

    fn request(&mut self, client: u16, number: u32, name: &str, mode: Mode) -> Vec<Grant> {
        let row = Row { client, number, name: name.to_owned(), mode };
        let is_free = match self.lines.get(name) {
            Some(line) => line.queue.is_empty() && line.is_free(mode),
            None => true,
        };
        if is_free && self.candidates.is_empty() {
            self.hold(row);
            return vec![Grant { client, number }];
        }
        self.queue(row);
        self.settle()
    }

    /// Releases a lock or aborts a request.
    fn end(&mut self, client: u16, number: u32) -> Vec<Grant> {
        let place = self.clients.get(&client).and_then(|places| places.get(&number)).copied();
        let Some(Place { order, is_held }) = place else {
            return self.settle();
        };
        let row = if is_held { self.held.remove(&order) } else { self.waiting.remove(&order) };
        if let Some(row) = row {
            if let Some(line) = self.lines.get_mut(&row.name) {
                if is_held {
                    *line.holders(row.mode) -= 1;
                } else if let Ok(index) = line.queue.binary_search(&order) {
                    line.queue.remove(index);
                }
            }
            self.forget_number(&row);
            self.left(&row.name);
        }
        self.settle()
    }

    fn restore(&mut self, client: u16, report: &[Entry], settles: bool) -> Vec<Grant> {
        let row = |entry: &Entry| Row { client, number: entry.number, name: entry.name.clone(), mode: entry.mode };
        for entry in report.iter().filter(|entry| entry.is_held) {
            self.hold(row(entry));
        }
        for entry in report.iter().filter(|entry| !entry.is_held) {
            self.queue(row(entry));
        }
        if settles { self.settle() } else { Vec::new() }
    }
}

/// A trace of `bench_core`.
struct Trace {
    title: &'static str,
    clients: u16,
    entries: u32,
    names: usize,
    is_apart: bool,
}

const CALLS: usize = 400_000;

const TRACES: [Trace; 4] = [
    Trace { title: "one name, 64 clients", clients: 64, entries: 4, names: 1, is_apart: false },
    Trace { title: "1,000 names, nobody waits", clients: 50, entries: 20, names: 1_000, is_apart: true },
    Trace { title: "1,024 clients with 16 entries each", clients: 1_024, entries: 16, names: 16_384, is_apart: false },
    Trace { title: "65,536 restored entries", clients: 1_024, entries: 64, names: 65_536, is_apart: false },
];

/// The pseudorandom numbers of `bench_core`.
struct Dice {
    state: u64,
}

impl Dice {
    fn below(&mut self, sides: usize) -> usize {
        self.state = self.state.wrapping_mul(6_364_136_223_846_793_005).wrapping_add(1_442_695_040_888_963_407);
        (self.state >> 33) as usize % sides
    }

    fn mode(&mut self) -> Mode {
        match self.below(2) {
            0 => Mode::Shared,
            _ => Mode::Exclusive,
        }
    }

    fn place(&mut self, trace: &Trace, client: u16, number: u32) -> usize {
        let chance = self.below(trace.names);
        if trace.is_apart { client as usize * trace.entries as usize + number as usize } else { chance }
    }
}

fn digest_with(digest: u64, granted: &[Grant]) -> u64 {
    let mut sum = digest.wrapping_mul(31);
    for grant in granted {
        sum = sum.wrapping_mul(31).wrapping_add(grant.client.into()).wrapping_mul(31).wrapping_add(grant.number.into());
    }
    sum
}

/// Fills a table with the reports of all clients, plays the calls, and returns their time and the digest.
fn play(trace: &Trace) -> (Duration, u64) {
    let names: Vec<String> = (0..trace.names).map(|index| format!("lock/name/{index}")).collect();
    let mut table = Table::default();
    let mut dice = Dice { state: 20_261_123 };
    let mut digest = 0;
    for client in 0..trace.clients {
        let mut report = Vec::new();
        for number in 0..trace.entries {
            let is_held = dice.below(4) > 0;
            let mode = dice.mode();
            let name = names[dice.place(trace, client, number)].clone();
            report.push(Entry { number, is_held, mode, name });
        }
        digest = digest_with(digest, &table.restore(client, &report, client + 1 == trace.clients));
    }
    let began = Instant::now();
    for _ in 0..CALLS {
        let client = dice.below(trace.clients as usize) as u16;
        let number = dice.below(trace.entries as usize) as u32;
        let mode = dice.mode();
        let place = dice.place(trace, client, number);
        let granted = match table.state(client, number) {
            Standing::Absent => table.request(client, number, &names[place], mode),
            _ => table.end(client, number),
        };
        digest = digest_with(digest, &granted);
    }
    (began.elapsed(), digest)
}

fn main() {
    let selected = std::env::args().nth(1).and_then(|word| word.parse().ok());
    for (index, trace) in TRACES.iter().enumerate() {
        if selected.is_some_and(|only: usize| only != index) {
            continue;
        }
        let (time, digest) = play(trace);
        let rate = CALLS as u128 * 1_000_000 / time.as_micros().max(1);
        println!("{}\n  calls a second: std {rate}\n  digest of the grants: {digest}", trace.title);
    }
}
