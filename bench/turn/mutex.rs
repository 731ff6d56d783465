// The baseline: the same entries through a `std` Mutex.
use std::hint::black_box;
use std::sync::Mutex;
use std::thread;
use std::time::Instant;

const ENTRIES: u64 = 1_000_000;

fn main() {
    for threads in [1u64, 2, 4, 16] {
        let lock = Mutex::new(0u64);
        let start = Instant::now();
        thread::scope(|scope| {
            for _ in 0..threads {
                scope.spawn(|| {
                    for _ in 0..ENTRIES / threads {
                        let mut count = lock.lock().unwrap();
                        *count = black_box(*count + 1);
                    }
                });
            }
        });
        let took = start.elapsed();
        let count = lock.into_inner().unwrap();
        println!("{threads} {count} {}", took.as_nanos());
    }
}
