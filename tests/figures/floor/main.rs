//! The floor that programs are measured against: reads each line as a JSON value, as a user of
//! serde_json would, and drops it. Built by tests/figures/floor_program.py, outside the gate.
use std::io::BufRead;

fn main() -> Result<(), Box<dyn std::error::Error>> {
    let mut input = std::io::BufReader::new(std::io::stdin().lock());
    let mut line = Vec::new();
    let mut read = 0u64;
    loop {
        line.clear();
        if input.read_until(b'\n', &mut line)? == 0 {
            break;
        }
        let value: serde_json::Value = serde_json::from_slice(&line)?;
        read += u64::from(value.is_object());
    }
    println!("{read}");
    Ok(())
}
