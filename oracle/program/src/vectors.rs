//! The fixed lists that a program of the gate replays: calls with the Rust's answers, and 01's table of
//! refusals. The same bytes come out at every run; oracle/README.md has their layout.

mod calls;
mod refused;

use crate::command::Options;
use crate::counts::Counts;
use crate::framer::{Framer, Lent};
use crate::run::Record;
use std::path::Path;

pub fn command(options: &Options) -> Result<i32, String> {
    let [folder] = &options.rest[..] else {
        return Err("vectors needs the folder to write to".to_string());
    };
    write(folder, "calls.bin", &calls::records()?, calls::put)?;
    write(folder, "refusals.bin", &refused::records(), refused::put)?;
    Ok(0)
}

/// The records of both lists.
pub fn records() -> Result<Vec<Record>, String> {
    let mut records = calls::records()?;
    records.extend(refused::records());
    Ok(records)
}

/// How many of the records a framer does not answer as the Rust does.
pub fn differing(records: &[Record], framer: &mut dyn Framer) -> usize {
    let differs = |record: &&Record| {
        let (mut state, mut out) = (record.before, [0; 16]);
        let mut carry = record.carry_before.clone();
        let mut lent = Lent {
            carry_length: carry.len() as u64,
            carry: &mut carry,
            chunk: &record.chunk,
            chunk_length: record.chunk.len() as u64,
        };
        framer.call(record.call, &mut state, &mut lent, &mut out);
        state != record.after || out != record.out || carry != record.carry_after
    };
    records.iter().filter(differs).count()
}

/// Writes a list, and says what is in it.
fn write(
    folder: &str,
    name: &str,
    records: &[Record],
    put: fn(&mut Vec<u8>, &Record),
) -> Result<(), String> {
    let (mut bytes, mut longest, mut counts) = (Vec::new(), 0, Counts::default());
    for record in records {
        let from = bytes.len();
        put(&mut bytes, record);
        longest = longest.max(bytes.len() - from);
        counts.note(record.call, &record.before, &record.after, &record.out);
    }
    let path = Path::new(folder).join(name);
    let failed = |error| format!("{}: {error}", path.display());
    std::fs::create_dir_all(folder).map_err(failed)?;
    std::fs::write(&path, &bytes).map_err(failed)?;
    let (records, bytes) = (records.len(), bytes.len());
    say!("{name}: {records} records, {bytes} bytes, the longest record {longest} bytes\n{counts}");
    Ok(())
}
