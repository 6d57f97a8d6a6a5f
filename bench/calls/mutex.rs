//! What `bench_calls` does, in plain Rust with the mutex of `std`: `mutex 4 100` has four threads make 4,000 calls together on one store, a
//! hundred times, each time on a new store. The store keeps what it must to answer each call and to tell its history; nothing is proved.
use std::collections::BTreeMap;
use std::sync::{Arc, Mutex};
use std::thread;

const CALLS: u32 = 4000;

type Name = [u8; 32];

#[allow(dead_code)]
#[derive(Clone)]
enum Call {
    Write { key: Arc<Name>, value: Arc<[u8]>, lineage: Arc<Vec<(u32, Name, u64)>> },
    Ship { region: u32, version: u64, part: u32 },
    Read { region: u32, key: Name },
}

#[allow(dead_code)]
enum Reply {
    Written { key: Arc<Name>, version: u64 },
    Shipped,
    Shown(Arc<Vec<Row>>),
}

#[allow(dead_code)]
#[derive(Clone)]
struct Row {
    key: Arc<Name>,
    version: u64,
    value: Arc<[u8]>,
    lineage: Arc<Vec<(u32, Name, u64)>>,
}

#[allow(dead_code)]
struct Entry {
    stamp: u64,
    object: u32,
    place: u32,
    seat: u32,
    actor: u32,
    span: u32,
    call: Call,
    reply: Reply,
}

#[derive(Default)]
struct Store {
    rows: Vec<Row>,
    shown: BTreeMap<Name, usize>,
    shipped: Vec<bool>,
    held: u32,
    owed: u32,
    history: Vec<Entry>,
}

impl Store {
    fn call(&mut self, seat: u32, span: u32, call: Call) -> Option<u64> {
        let need = if matches!(call, Call::Write { .. }) { 2 } else { 1 };
        if self.held + self.owed + need > 4096 {
            return None;
        }
        let mut made = 0;
        let reply = match &call {
            Call::Write { key, value, lineage } => {
                let version = self.rows.len() as u64 + 1;
                self.rows.push(Row { key: key.clone(), version, value: value.clone(), lineage: lineage.clone() });
                self.shipped.push(false);
                self.owed += 1;
                made = version;
                Reply::Written { key: key.clone(), version }
            }
            Call::Ship { version, .. } => {
                let at = (*version as usize).checked_sub(1)?;
                if *self.shipped.get(at)? {
                    return None;
                }
                self.shipped[at] = true;
                self.owed -= 1;
                let shown = self.shown.entry(*self.rows[at].key).or_insert(at);
                *shown = (*shown).max(at);
                Reply::Shipped
            }
            Call::Read { key, .. } => Reply::Shown(Arc::new(self.shown.get(key).map(|at| self.rows[*at].clone()).into_iter().collect())),
        };
        self.held += 1;
        let place = self.history.len() as u32 + 1;
        let stamp = self.history.last().map_or(0, |entry| entry.stamp) + 1;
        self.history.push(Entry { stamp, object: 0, place, seat, actor: 0, span, call, reply });
        Some(made)
    }
}

// The key of a turn: no other of some thousands has it.
fn key_of(turn: u32) -> Name {
    let mut key = [0; 32];
    key[..3].copy_from_slice(&[turn / 676 % 26, turn / 26 % 26, turn % 26].map(|letter| b'a' + letter as u8));
    key
}

fn work(store: &Mutex<Store>, seat: u32, turns: u32) {
    for turn in 0..turns {
        let key = key_of(turn);
        let write = Call::Write { key: Arc::new(key), value: Arc::from(&b"v"[..]), lineage: Arc::new(Vec::new()) };
        let version = store.lock().unwrap().call(seat, turn, write).unwrap_or(0);
        let _ = store.lock().unwrap().call(seat, turn, Call::Ship { region: 0, version, part: 1 });
        for _ in 0..2 {
            let _ = store.lock().unwrap().call(seat, turn, Call::Read { region: 0, key });
        }
    }
}

fn round(threads: u32) -> usize {
    let store = Mutex::new(Store::default());
    thread::scope(|scope| {
        for seat in 2..=threads {
            let store = &store;
            scope.spawn(move || work(store, seat, CALLS / 4 / threads));
        }
        work(&store, 1, CALLS / 4 / threads);
    });
    store.into_inner().unwrap().history.len()
}

fn main() {
    let words: Vec<u32> = std::env::args().skip(1).filter_map(|word| word.parse().ok()).collect();
    let (threads, rounds) = (words.first().copied().unwrap_or(1), words.get(1).copied().unwrap_or(1));
    let made: usize = (0..rounds).map(|_| round(threads)).sum();
    println!("{made}");
}
