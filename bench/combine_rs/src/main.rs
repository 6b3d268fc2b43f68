//! Throughput peers: threads on one queue, heap or map, by a lock and by flat combining.
//!
//!     combine [--kind queue] [--threads 1,2,4] [--calls N] [--rounds N] [--recorded] [--least] [--history STEM]
//!
//! Each thread makes N calls: enqueue and dequeue in turn, or insert and
//! extract, or put and get. Printed are the
//! operations per second of the middle round, for each peer and number of
//! threads, and ratios: to the lock with the first number of threads, and of
//! the two peers round by round. `--least`: the least nanoseconds of a call, over all rounds.
//!
//! `--recorded`: two tickets of one clock around each call, a journal for each
//! thread and a log inside the queue, as a recording desk has them.
//! `--history STEM`: writes STEM.PEER.edn and STEM.PEER.certs.edn of one
//! recorded round with the greatest number of threads.

use std::cell::UnsafeCell;
use std::cmp::Reverse;
use std::collections::{BTreeMap, BinaryHeap, VecDeque};
use std::sync::atomic::{AtomicBool, AtomicI64, AtomicU64, AtomicUsize, Ordering::*};
use std::sync::Mutex;
use std::time::Instant;

#[derive(Clone, Copy, PartialEq)]
enum Op {
    Enqueue(i64),
    Dequeue,
    Insert(i64),
    Extract,
    Put(i64, i64),
    Get(i64),
}

#[derive(Clone, Copy, PartialEq)]
enum Kind {
    Queue,
    Heap,
    Map,
}

impl Kind {
    /// The call of this number that a thread makes.
    fn op(self, thread: usize, call: usize) -> Op {
        let x = ((call as u64 * 7919 + thread as u64 * 104_729) % 1000) as i64;
        match (self, call % 2 == 0) {
            (Kind::Queue, true) => Op::Enqueue(x),
            (Kind::Queue, false) => Op::Dequeue,
            (Kind::Heap, true) => Op::Insert(x),
            (Kind::Heap, false) => Op::Extract,
            (Kind::Map, true) => Op::Put(x, call as i64),
            (Kind::Map, false) => Op::Get(x),
        }
    }
}

/// The sequential object and, where calls are recorded, its log of tickets.
struct Core {
    queue: VecDeque<i64>,
    heap: BinaryHeap<Reverse<i64>>,
    map: BTreeMap<i64, i64>,
    log: Option<Vec<u64>>,
}

impl Core {
    fn new(room: usize, recorded: bool) -> Core {
        Core { queue: VecDeque::new(), heap: BinaryHeap::new(), map: BTreeMap::new(), log: recorded.then(|| Vec::with_capacity(room)) }
    }

    fn apply(&mut self, op: Op, ticket: u64) -> Option<i64> {
        if let Some(log) = &mut self.log {
            log.push(ticket);
        }
        match op {
            Op::Enqueue(v) => {
                self.queue.push_back(v);
                Some(v)
            }
            Op::Dequeue => self.queue.pop_front(),
            Op::Insert(v) => {
                self.heap.push(Reverse(v));
                Some(v)
            }
            Op::Extract => self.heap.pop().map(|v| v.0),
            Op::Put(k, v) => self.map.insert(k, v),
            Op::Get(k) => self.map.get(&k).copied(),
        }
    }
}

trait Shared: Sync {
    fn call(&self, thread: usize, op: Op, ticket: u64) -> Option<i64>;
    fn into_core(self) -> Core;
}

struct Locked(Mutex<Core>);

impl Shared for Locked {
    fn call(&self, _: usize, op: Op, ticket: u64) -> Option<i64> {
        self.0.lock().unwrap().apply(op, ticket)
    }

    fn into_core(self) -> Core {
        self.0.into_inner().unwrap()
    }
}

const IDLE: u64 = 0;
const EMPTY: u64 = 3;
const VALUE: u64 = 4;
/// A posted call has this or a greater state, by its operation.
const POSTED: u64 = 8;

const CLEAN_EVERY: u64 = 64;
const TOO_OLD: u64 = 128;
const WALKS: usize = 4;

/// A thread's publication record, on cache lines of its own.
#[repr(align(128))]
struct Publication {
    state: AtomicU64,
    value: AtomicI64,
    second: AtomicI64,
    ticket: AtomicU64,
    active: AtomicBool,
    /// 1 + number of the next record in the list, or 0.
    next: AtomicUsize,
    /// The pass that last served it; only combiners touch it.
    age: AtomicU64,
}

#[repr(align(128))]
struct Line<T>(T);

/// Flat combining after Hendler, Incze, Shavit and Tzafrir, SPAA 2010.
struct Flat {
    locked: Line<AtomicBool>,
    /// 1 + number of the first record in the publication list, or 0.
    head: Line<AtomicUsize>,
    records: Vec<Publication>,
    /// Only who holds `locked` touches the core and the count of passes.
    inside: Line<UnsafeCell<(Core, u64)>>,
}

unsafe impl Sync for Flat {}

impl Flat {
    fn new(threads: usize, core: Core) -> Flat {
        let record = || Publication {
            state: AtomicU64::new(IDLE),
            value: AtomicI64::new(0),
            second: AtomicI64::new(0),
            ticket: AtomicU64::new(0),
            active: AtomicBool::new(false),
            next: AtomicUsize::new(0),
            age: AtomicU64::new(0),
        };
        Flat {
            locked: Line(AtomicBool::new(false)),
            head: Line(AtomicUsize::new(0)),
            records: (0..threads).map(|_| record()).collect(),
            inside: Line(UnsafeCell::new((core, 0))),
        }
    }

    fn enlist(&self, thread: usize) {
        let record = &self.records[thread];
        record.active.store(true, Relaxed);
        let mut head = self.head.0.load(Relaxed);
        loop {
            record.next.store(head, Relaxed);
            match self.head.0.compare_exchange_weak(head, thread + 1, Release, Relaxed) {
                Ok(_) => return,
                Err(now) => head = now,
            }
        }
    }

    /// Serves the list a few times, then cleans up now and then. The caller
    /// holds the lock.
    fn combine(&self) {
        let (core, pass) = unsafe { &mut *self.inside.0.get() };
        *pass += 1;
        for _ in 0..WALKS {
            let mut served = false;
            let mut at = self.head.0.load(Acquire);
            while at != 0 {
                let record = &self.records[at - 1];
                let state = record.state.load(Acquire);
                if state >= POSTED {
                    let value = record.value.load(Relaxed);
                    let op = match state - POSTED {
                        0 => Op::Enqueue(value),
                        1 => Op::Dequeue,
                        2 => Op::Insert(value),
                        3 => Op::Extract,
                        4 => Op::Put(value, record.second.load(Relaxed)),
                        _ => Op::Get(value),
                    };
                    let reply = core.apply(op, record.ticket.load(Relaxed));
                    record.age.store(*pass, Relaxed);
                    served = true;
                    match reply {
                        None => record.state.store(EMPTY, Release),
                        Some(v) => {
                            record.value.store(v, Relaxed);
                            record.state.store(VALUE, Release);
                        }
                    }
                }
                at = record.next.load(Relaxed);
            }
            if !served {
                break;
            }
        }
        if *pass % CLEAN_EVERY == 0 {
            self.clean_up(*pass);
        }
    }

    /// Takes old records out of the list, never the one at the head.
    fn clean_up(&self, pass: u64) {
        let mut before = self.head.0.load(Acquire);
        while before != 0 {
            let kept = &self.records[before - 1];
            let at = kept.next.load(Relaxed);
            if at == 0 {
                return;
            }
            let record = &self.records[at - 1];
            if pass - record.age.load(Relaxed) > TOO_OLD {
                kept.next.store(record.next.load(Relaxed), Relaxed);
                record.active.store(false, Release);
            } else {
                before = at;
            }
        }
    }
}

impl Shared for Flat {
    fn call(&self, thread: usize, op: Op, ticket: u64) -> Option<i64> {
        let record = &self.records[thread];
        record.ticket.store(ticket, Relaxed);
        let (number, value) = match op {
            Op::Enqueue(v) => (0, v),
            Op::Dequeue => (1, 0),
            Op::Insert(v) => (2, v),
            Op::Extract => (3, 0),
            Op::Put(k, v) => {
                record.second.store(v, Relaxed);
                (4, k)
            }
            Op::Get(k) => (5, k),
        };
        record.value.store(value, Relaxed);
        record.state.store(POSTED + number, Release);
        let mut turns = 0u32;
        loop {
            if !record.active.load(Acquire) {
                self.enlist(thread);
            }
            if !self.locked.0.load(Relaxed) && !self.locked.0.swap(true, Acquire) {
                self.combine();
                self.locked.0.store(false, Release);
            }
            // wait for the answer, now and then looking at the lock again
            for _ in 0..32 {
                match record.state.load(Acquire) {
                    EMPTY => {
                        record.state.store(IDLE, Relaxed);
                        return None;
                    }
                    VALUE => {
                        let v = record.value.load(Relaxed);
                        record.state.store(IDLE, Relaxed);
                        return Some(v);
                    }
                    _ => std::hint::spin_loop(),
                }
            }
            turns += 1;
            if turns > 4 {
                std::thread::yield_now();
            }
        }
    }

    fn into_core(self) -> Core {
        self.inside.0.into_inner().0
    }
}

/// Two tickets, the operation, the reply.
type Entry = (u64, u64, Op, Option<i64>);

struct Round {
    seconds: f64,
    core: Core,
    journals: Vec<Vec<Entry>>,
}

fn round<S: Shared>(shared: S, kind: Kind, threads: usize, calls: usize, recorded: bool) -> Round {
    let clock = Line(AtomicU64::new(0));
    let ready = AtomicUsize::new(0);
    let (journals, seconds) = std::thread::scope(|scope| {
        let workers: Vec<_> = (0..threads)
            .map(|thread| {
                let (shared, clock, ready) = (&shared, &clock.0, &ready);
                scope.spawn(move || {
                    let mut journal: Vec<Entry> = Vec::with_capacity(if recorded { calls } else { 0 });
                    ready.fetch_add(1, SeqCst);
                    while ready.load(SeqCst) <= threads {
                        std::hint::spin_loop();
                    }
                    for call in 0..calls {
                        let op = kind.op(thread, call);
                        if recorded {
                            let before = clock.fetch_add(1, SeqCst);
                            let reply = shared.call(thread, op, before);
                            journal.push((before, clock.fetch_add(1, SeqCst), op, reply));
                        } else {
                            std::hint::black_box(shared.call(thread, op, 0));
                        }
                    }
                    journal
                })
            })
            .collect();
        while ready.load(SeqCst) < threads {
            std::thread::yield_now();
        }
        let start = Instant::now();
        ready.fetch_add(1, SeqCst);
        let journals: Vec<_> = workers.into_iter().map(|w| w.join().unwrap()).collect();
        (journals, start.elapsed().as_secs_f64())
    });
    Round { seconds, core: shared.into_core(), journals }
}

fn play(peer: &str, kind: Kind, threads: usize, calls: usize, recorded: bool) -> Round {
    let core = Core::new(threads * calls, recorded);
    match peer {
        "mutex" => round(Locked(Mutex::new(core)), kind, threads, calls, recorded),
        _ => round(Flat::new(threads, core), kind, threads, calls, recorded),
    }
}

fn write_history(stem: &str, peer: &str, round: Round) {
    let edn = |v: Option<i64>| v.map_or("nil".to_string(), |v| v.to_string());
    let mut lines = Vec::new();
    for (thread, journal) in round.journals.iter().enumerate() {
        for (before, after, op, reply) in journal {
            let (f, arg) = match op {
                Op::Enqueue(v) => ("enqueue", Some(*v)),
                Op::Dequeue => ("dequeue", None),
                _ => unreachable!("a history is written of a queue alone"),
            };
            let line = |typ, v| format!("{{:process {thread}, :type :{typ}, :f :{f}, :value {}}}\n", edn(v));
            lines.push((*before, line("invoke", arg)));
            lines.push((*after, line("ok", *reply)));
        }
    }
    lines.sort();
    let text: String = lines.into_iter().map(|(_, line)| line).collect();
    let order: Vec<String> = round.core.log.unwrap().iter().map(u64::to_string).collect();
    std::fs::write(format!("{stem}.{peer}.edn"), text).unwrap();
    std::fs::write(format!("{stem}.{peer}.certs.edn"), format!("{{:object 0, :order [{}]}}\n", order.join(" "))).unwrap();
}

fn main() {
    let (mut threads, mut calls, mut rounds) = (vec![1, 2, 4], 200_000, 7);
    let (mut recorded, mut stem, mut kind, mut least) = (false, None, Kind::Queue, false);
    let mut words = std::env::args().skip(1);
    while let Some(word) = words.next() {
        let mut next = || words.next().expect("a value");
        match word.as_str() {
            "--threads" => threads = next().split(',').map(|n| n.parse().unwrap()).collect(),
            "--calls" => calls = next().parse().unwrap(),
            "--rounds" => rounds = next().parse().unwrap(),
            "--recorded" => recorded = true,
            "--least" => least = true,
            "--kind" => {
                kind = match next().as_str() {
                    "heap" => Kind::Heap,
                    "map" => Kind::Map,
                    _ => Kind::Queue,
                }
            }
            "--history" => stem = Some(next()),
            _ => panic!("unknown word {word}"),
        }
    }
    if let Some(stem) = stem {
        let most = threads.iter().copied().max().unwrap();
        for peer in ["mutex", "flat"] {
            write_history(&stem, peer, play(peer, Kind::Queue, most, calls, true));
        }
        return;
    }
    let mut lock_alone = None;
    for &n in &threads {
        // round about, so that both peers meet the same neighbours
        let mut rates = [Vec::new(), Vec::new()];
        for _ in 0..rounds {
            for (peer, rates) in ["mutex", "flat"].into_iter().zip(&mut rates) {
                let round = play(peer, kind, n, calls, recorded);
                assert!(round.core.queue.len() <= n * calls);
                rates.push((n * calls) as f64 / round.seconds);
            }
        }
        if least {
            let of = |rates: &Vec<f64>| 1e9 / rates.iter().copied().fold(0.0, f64::max);
            println!("{n} {:.0} {:.0}", of(&rates[0]), of(&rates[1]));
            continue;
        }
        let ratios = middle(rates[0].iter().zip(&rates[1]).map(|(mutex, flat)| flat / mutex).collect());
        for (peer, rates) in ["mutex", "flat"].into_iter().zip(rates) {
            let of = |pick: fn(f64, f64) -> f64| rates.iter().copied().reduce(pick).unwrap();
            let (least, most) = (of(f64::min), of(f64::max));
            let middle = middle(rates);
            let base = *lock_alone.get_or_insert(middle);
            println!(
                "{peer:5} {n} threads: {:8.0} thousand operations/s (least {:.0}, most {:.0}), {:.2} of the lock with {} threads",
                middle / 1e3,
                least / 1e3,
                most / 1e3,
                middle / base,
                threads[0]
            );
        }
        println!("flat to mutex, {n} threads, middle of the rounds: {ratios:.2}");
    }
}

fn middle(mut numbers: Vec<f64>) -> f64 {
    numbers.sort_by(f64::total_cmp);
    numbers[numbers.len() / 2]
}
