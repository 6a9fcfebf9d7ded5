//! The same job as the part `lock` of `crates/bench_parts`, in plain Rust: threads post to a counting machine
//! under a `Mutex` of std, which takes each number that isn't 0 and keeps it, as the lock keeps its events.
use std::sync::Mutex;
use std::thread;

const STORED: usize = 16_384;

struct Counter {
    sum: u64,
    checkpoint: u64,
    events: Vec<u64>,
}

impl Counter {
    fn post(&mut self, number: u64) -> u64 {
        if number == 0 {
            return self.sum;
        }
        if self.events.len() == STORED {
            self.checkpoint = self.sum;
            self.events.clear();
        }
        self.sum = self.sum.wrapping_add(number);
        self.events.push(number);
        self.sum
    }
}

fn main() {
    let words: Vec<u64> = std::env::args().skip(1).map(|w| w.parse().unwrap()).collect();
    let [threads, posts] = words[..] else {
        panic!("usage: lock_mutex THREADS POSTS")
    };
    let counter = Mutex::new(Counter {
        sum: 0,
        checkpoint: 0,
        events: Vec::new(),
    });
    thread::scope(|scope| {
        for _ in 0..threads {
            scope.spawn(|| {
                for _ in 0..posts {
                    std::hint::black_box(counter.lock().unwrap().post(std::hint::black_box(1)));
                }
            });
        }
    });
    let held = counter.into_inner().unwrap();
    let sum = held.sum;
    println!("rust threads={threads} posts={posts} sum={sum}");
    std::hint::black_box(held.checkpoint);
}
