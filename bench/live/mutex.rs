//! What `bench_live` does, in plain Rust with the mutex of `std`: `mutex write 100` makes 2,000 writes with an empty lineage a hundred times,
//! each time on new stores. A store keeps what it must to answer each call and to tell its history; nothing is proved.
use std::collections::HashMap;
use std::sync::atomic::{AtomicU32, Ordering};
use std::sync::{Arc, Mutex};

const TURNS: u32 = 2000;
const IDS: u32 = 16;
const STORES: u32 = 4;

type Name = [u8; 32];

#[allow(dead_code)]
#[derive(Clone)]
struct Id {
    store: u32,
    key: Name,
    version: u64,
}

#[allow(dead_code)]
#[derive(Clone)]
enum Call {
    Write { key: Arc<Name>, value: Arc<[u8]>, lineage: Arc<Vec<Id>> },
    Ship { version: u64 },
    Look { ids: Arc<Vec<Id>> },
}

#[allow(dead_code)]
enum Reply {
    Written { key: Arc<Name>, version: u64 },
    Shipped,
    Missing(Vec<Id>),
}

#[allow(dead_code)]
struct Entry {
    stamp: u64,
    place: u32,
    seat: u32,
    span: u32,
    call: Call,
    reply: Reply,
}

#[allow(dead_code)]
struct Row {
    key: Arc<Name>,
    value: Arc<[u8]>,
    lineage: Arc<Vec<Id>>,
}

#[derive(Default)]
struct Store {
    rows: Vec<Row>,
    shown: HashMap<Name, u64>,
    history: Vec<Entry>,
}

impl Store {
    // Makes a call, and gives the version that was written, or the stamp.
    fn call(&mut self, seat: u32, span: u32, clock: u64, call: Call) -> Option<u64> {
        if self.history.len() >= 4096 {
            return None;
        }
        let stamp = self.history.last().map_or(0, |entry| entry.stamp).max(clock) + 1;
        let mut answer = stamp;
        let reply = match &call {
            Call::Write { key, value, lineage } => {
                answer = self.rows.len() as u64 + 1;
                self.rows.push(Row { key: key.clone(), value: value.clone(), lineage: lineage.clone() });
                Reply::Written { key: key.clone(), version: answer }
            }
            Call::Ship { version } => {
                let row = self.rows.get(*version as usize - 1)?;
                let shown = self.shown.entry(*row.key).or_insert(0);
                *shown = (*shown).max(*version);
                Reply::Shipped
            }
            Call::Look { ids } => {
                let seen = |id: &&Id| self.shown.get(&id.key).is_some_and(|shown| *shown >= id.version);
                let missing: Vec<Id> = ids.iter().filter(|id| !seen(id)).cloned().collect();
                if !missing.is_empty() {
                    return None;
                }
                Reply::Missing(missing)
            }
        };
        let place = self.history.len() as u32 + 1;
        self.history.push(Entry { stamp, place, seat, span, call, reply });
        Some(answer)
    }
}

#[derive(Default)]
struct Live {
    stores: Vec<(Mutex<Store>, AtomicU32)>,
}

#[allow(dead_code)]
struct Client {
    seats: Vec<u32>,
    here: Vec<u32>,
    span: u32,
    clock: u64,
    lineage: Vec<Id>,
}

impl Live {
    fn start() -> (Live, Client) {
        let live = Live { stores: (0..STORES).map(|_| Default::default()).collect() };
        let client = live.client();
        (live, client)
    }

    fn client(&self) -> Client {
        let seats = self.stores.iter().map(|(_, seats)| seats.fetch_add(1, Ordering::SeqCst)).collect();
        Client { seats, here: (0..STORES).collect(), span: 1, clock: 0, lineage: Vec::new() }
    }

    fn call(&self, client: &mut Client, store: u32, call: Call) -> Option<u64> {
        let seat = client.seats[store as usize];
        self.stores[store as usize].0.lock().unwrap().call(seat, client.span, client.clock, call)
    }

    fn write(&self, client: &mut Client, store: u32, turn: u32) -> Option<u64> {
        let key = key_of(turn);
        let lineage = Arc::new(client.lineage.clone());
        let write = Call::Write { key: Arc::new(key), value: Arc::from(&b"v"[..]), lineage };
        let version = self.call(client, store, write)?;
        client.lineage.push(Id { store, key, version });
        Some(version)
    }

    fn barrier(&self, client: &mut Client) -> Option<Vec<(u32, u64)>> {
        let mut sights = Vec::new();
        for store in 0..STORES {
            let ids: Vec<Id> = client.lineage.iter().filter(|id| id.store == store).cloned().collect();
            if !ids.is_empty() {
                client.clock = self.call(client, store, Call::Look { ids: Arc::new(ids) })?;
                sights.push((store, client.clock));
            }
        }
        Some(sights)
    }
}

// The key of a turn: no other of some thousands has it.
fn key_of(turn: u32) -> Name {
    let mut key = [0; 32];
    key[..3].copy_from_slice(&[turn / 676 % 26, turn / 26 % 26, turn % 26].map(|letter| b'a' + letter as u8));
    key
}

fn writes() -> Option<()> {
    let (live, mut client) = Live::start();
    for turn in 0..TURNS {
        client.lineage.clear();
        client.span += 1;
        live.write(&mut client, 0, turn)?;
    }
    Some(())
}

fn calls() -> Option<()> {
    let store = Mutex::new(Store::default());
    for turn in 0..TURNS {
        let write = Call::Write { key: Arc::new(key_of(turn)), value: Arc::from(&b"v"[..]), lineage: Arc::new(Vec::new()) };
        store.lock().unwrap().call(1, turn, 0, write)?;
    }
    Some(())
}

fn barriers() -> Option<()> {
    let (live, mut client) = Live::start();
    for turn in 0..IDS {
        for store in 0..STORES {
            let version = live.write(&mut client, store, turn)?;
            live.call(&mut client, store, Call::Ship { version })?;
        }
    }
    for _ in 0..TURNS {
        std::hint::black_box(live.barrier(&mut client)?);
    }
    Some(())
}

fn splits() -> Option<()> {
    let (live, mut client) = Live::start();
    for _ in 0..TURNS {
        let further = std::hint::black_box(live.client());
        client.clock = client.clock.max(further.clock);
    }
    Some(())
}

fn main() {
    let words: Vec<String> = std::env::args().skip(1).collect();
    let rounds: u32 = words[1].parse().unwrap();
    for _ in 0..rounds {
        let made = match words[0].as_str() {
            "write" => writes(),
            "call" => calls(),
            "barrier" => barriers(),
            _ => splits(),
        };
        made.unwrap();
    }
    println!("{}", rounds * TURNS);
}
