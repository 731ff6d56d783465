// Reads each line of a file into serde_json's Value, and prints the bytes, the lines that are values, and the nanoseconds.
use std::time::Instant;

fn main() {
    let path = std::env::args().nth(1).expect("a path");
    let bytes = std::fs::read(path).expect("a file");
    let start = Instant::now();
    let mut read = 0u64;
    for line in bytes.split(|byte| *byte == b'\n') {
        if serde_json::from_slice::<serde_json::Value>(line).is_ok() {
            read += 1;
        }
    }
    println!("values {} {} {}", bytes.len(), read, start.elapsed().as_nanos());
}
