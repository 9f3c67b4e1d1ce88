//! Plain Rust to compare with the running board: two copies of 34 words with the board's own steps and orderings, and
//! the other usual choices in Rust. One line for each: a name, and nanoseconds for a reading alone, a submit with its
//! publication alone, and a reading by each of two readers while a writer publishes all the time; `-` where there is
//! none.
//!
//! `bench/run-readers` builds it, with arc-swap if Debian's crate is installed (`--cfg arc_swap`).
use std::collections::HashMap;
use std::hint::{black_box, spin_loop};
use std::sync::atomic::Ordering::{Acquire, Relaxed, Release, SeqCst};
use std::sync::atomic::{fence, AtomicBool, AtomicU64};
use std::sync::{Mutex, RwLock};
use std::time::Instant;

const WORDS: usize = 34;
const READERS: usize = 4;
const READS: u64 = 2_000_000;
const SUBMITS: u64 = 200_000;

type Words = [u64; WORDS];

/// What a writer does before it publishes: one member's votes are set, the command is kept, and the sheet is made.
struct Register {
    members: HashMap<[u8; 3], (u64, usize)>,
    journal: Vec<([u8; 3], u64)>,
    weights: [u64; 32],
    total: u64,
}

impl Register {
    fn new() -> Self {
        Register { members: HashMap::from([(*b"AAA", (10, 0))]), journal: Vec::new(), weights: [0; 32], total: 10 }
    }

    fn submit(&mut self, code: [u8; 3], votes: u64) {
        if let Some((old, chair)) = self.members.get_mut(&code) {
            self.weights[*chair] = self.weights[*chair] - *old + votes;
            self.total = self.total - *old + votes;
            *old = votes;
            self.journal.push((code, votes));
        }
    }

    /// One number of the sheet, without the others.
    fn word(&self, k: usize) -> u64 {
        match k {
            32 => self.total,
            33 => self.journal.len() as u64,
            _ => self.weights[k],
        }
    }

    fn sheet(&self) -> Words {
        let mut words = [0; WORDS];
        words[..32].copy_from_slice(&self.weights);
        words[32] = self.total;
        words[33] = self.journal.len() as u64;
        words
    }
}

fn atomics<const N: usize>() -> [AtomicU64; N] {
    std::array::from_fn(|_| AtomicU64::new(0))
}

/// The board's own steps: a pin for each reader, side, two copies.
struct TwoCopies {
    side: AtomicU64,
    copies: [[AtomicU64; WORDS]; 2],
    pins: [AtomicU64; READERS],
    readers: usize,
}

impl TwoCopies {
    fn new(readers: usize) -> Self {
        TwoCopies { side: AtomicU64::new(0), copies: [atomics(), atomics()], pins: atomics(), readers }
    }

    fn read(&self, r: usize) -> Words {
        self.pins[r].store(1, SeqCst);
        let side = self.side.load(SeqCst) as usize & 1;
        let mut words = [0; WORDS];
        for k in 0..WORDS {
            words[k] = self.copies[side][k].load(SeqCst);
        }
        self.pins[r].store(0, SeqCst);
        words
    }

    fn publish(&self, words: &Words) {
        self.publish_each(|k| words[k]);
    }

    /// As above, but stores each word as it is computed, so no sheet is made first.
    fn publish_each(&self, word: impl Fn(usize) -> u64) {
        for r in 0..self.readers {
            while self.pins[r].load(SeqCst) == 1 {
                spin_loop();
            }
        }
        let other = 1 - (self.side.load(SeqCst) as usize & 1);
        for k in 0..WORDS {
            self.copies[other][k].store(word(k), SeqCst);
        }
        self.side.store(other as u64, SeqCst);
    }
}

struct SeqLock {
    sequence: AtomicU64,
    words: [AtomicU64; WORDS],
}

impl SeqLock {
    fn read(&self) -> Words {
        loop {
            let before = self.sequence.load(Acquire);
            if before & 1 == 1 {
                spin_loop();
                continue;
            }
            let mut words = [0; WORDS];
            for k in 0..WORDS {
                words[k] = self.words[k].load(Relaxed);
            }
            fence(Acquire);
            if self.sequence.load(Relaxed) == before {
                return words;
            }
        }
    }

    fn publish(&self, words: &Words) {
        let before = self.sequence.load(Relaxed);
        self.sequence.store(before + 1, Relaxed);
        fence(Release);
        for k in 0..WORDS {
            self.words[k].store(words[k], Relaxed);
        }
        self.sequence.store(before + 2, Release);
    }
}

fn least(rounds: usize, times: u64, mut act: impl FnMut()) -> f64 {
    let mut least = f64::MAX;
    for _ in 0..rounds {
        let start = Instant::now();
        for _ in 0..times {
            act();
        }
        least = least.min(start.elapsed().as_secs_f64() / times as f64 * 1e9);
    }
    least
}

/// The mean time of a reading by each of two readers, while a writer publishes all the time.
fn beside(read: &(impl Fn(usize) -> Words + Sync), publish: &(impl Fn(&Words) + Sync)) -> f64 {
    let stop = AtomicBool::new(false);
    std::thread::scope(|scope| {
        scope.spawn(|| {
            let mut register = Register::new();
            while !stop.load(Relaxed) {
                register.submit(*b"AAA", 10);
                publish(&register.sheet());
            }
        });
        let readers: Vec<_> = (0..2)
            .map(|r| {
                scope.spawn(move || {
                    least(1, READS / 4, || {
                        black_box(read(r));
                    })
                })
            })
            .collect();
        let sum: f64 = readers.into_iter().map(|it| it.join().unwrap()).sum();
        stop.store(true, Relaxed);
        sum / 2.0
    })
}

fn time(name: &str, read: impl Fn(usize) -> Words + Sync, publish: impl Fn(&Words) + Sync) {
    let reading = least(5, READS / 4, || {
        black_box(read(0));
    });
    let mut register = Register::new();
    let submit = least(5, SUBMITS, || {
        register.submit(black_box(*b"AAA"), black_box(10));
        publish(&register.sheet());
    });
    println!("{name} {reading:.1} {submit:.1} {:.1}", beside(&read, &publish));
}

fn main() {
    // alone: a board of one reader, as the proved one is timed; beside (with a writer): one of two
    let one = TwoCopies::new(1);
    let two = TwoCopies::new(2);
    let reading = least(5, READS / 4, || {
        black_box(one.read(0));
    });
    let mut register = Register::new();
    let submit = least(5, SUBMITS, || {
        register.submit(black_box(*b"AAA"), black_box(10));
        one.publish(&register.sheet());
    });
    println!("two-copies {reading:.1} {submit:.1} {:.1}", beside(&|r| two.read(r), &|w| two.publish(w)));
    let mut register = Register::new();
    let submit = least(5, SUBMITS, || {
        register.submit(black_box(*b"AAA"), black_box(10));
        one.publish_each(|k| register.word(k));
    });
    println!("no-sheet - {submit:.1} -");
    let lock = SeqLock { sequence: AtomicU64::new(0), words: atomics() };
    time("seqlock", |_| lock.read(), |w| lock.publish(w));
    let lock = RwLock::new([0; WORDS]);
    time("RwLock", |_| *lock.read().unwrap(), |w| *lock.write().unwrap() = *w);
    let lock = Mutex::new([0; WORDS]);
    time("Mutex", |_| *lock.lock().unwrap(), |w| *lock.lock().unwrap() = *w);
    #[cfg(arc_swap)]
    {
        let shared = arc_swap::ArcSwap::from(std::sync::Arc::new([0u64; WORDS]));
        time("arc-swap", |_| **shared.load(), |w| shared.store(std::sync::Arc::new(*w)));
    }
}
