// Reads each line of a file into serde_json's Value, and prints the value as a line of another file.
use std::fs::File;
use std::io::{BufWriter, Write};

fn main() -> std::io::Result<()> {
    let mut paths = std::env::args().skip(1);
    let bytes = std::fs::read(paths.next().expect("a source"))?;
    let mut sink = BufWriter::new(File::create(paths.next().expect("a sink"))?);
    for line in bytes.split(|byte| *byte == b'\n') {
        if let Ok(value) = serde_json::from_slice::<serde_json::Value>(line) {
            serde_json::to_writer(&mut sink, &value)?;
            sink.write_all(b"\n")?;
        }
    }
    sink.flush()
}
