#!/bin/sh
# How long recover of a log of 10, 100, 1,000 and 10,000 entries takes, as a ratio to copying the entries, and how long it takes for a
# byte, as a ratio to that of 10 entries. Each entry has an outcome and a count; each fourth one secures a family with four operations.
# A figure is such a ratio: the nanoseconds are those of one machine on one day. Each time is the least of five rounds, and each round
# recovers 10,000 entries.
# bench/recman.sh           proves the crates and the program, and runs it
# bench/recman.sh --quick   runs a build of the same sources that nothing has proved
. "$(dirname "$0")/common.sh"
make_program recman_times anyhow cam_base cam_names cam_type cam_log cam_bytes cam_recman
cat > src/main.rt <<'PROGRAM'
//! How long the entries of a log take to be recovered.
#![tactic(auto)]

use anyhow::Error;
use cam_bytes::{write_byte, write_deps, write_name, write_number, write_op};
use cam_log::{Entries, Entry};
use cam_names::{Deps, Name, Part};
use cam_recman::recover;
use cam_type::Op;
use std::alloc::Global;
use std::time::Instant;

/// How many entries a round recovers.
const ALL: u32 = 10_000;

/// How many entries the logs have.
const NUMBERS: [u32; 4] = [10, 100, 1_000, 10_000];

/// The records of an entry of this number: Abort or Commit, Seen, and in each fourth entry Secure.
fn an_entry(alloc: Global, i: u32) -> Result<Vec<u8>, Error> {
    let number = 1 + i.wrapping_mul(7919) % 1_000_000;
    let Some(part) = Part::new(1 + (i % 8) as u8, 1, number) else {
        return Ok(Vec::new(alloc));
    };
    let name = Name::top(part);
    let mut out = write_byte(Vec::new(alloc), if i % 2 == 0 { 2 } else { 3 })?;
    out = write_name(out, &name)?;
    if i % 2 == 1 {
        out = write_deps(out, &Deps::none().with(1, 1).with(2, 3))?;
    }
    out = write_byte(out, 4)?;
    out = write_byte(out, 1 + (i % 8) as u8)?;
    out = write_number(out, 2 + i % 1_000_000)?;
    if i % 4 == 0 {
        out = write_byte(out, 5)?;
        out = write_name(out, &name)?;
        out = write_number(out, 1)?;
        out = write_number(out, 4)?;
        for k in 0..4 {
            out = write_number(out, i % 1_000_000 * 4 + k)?;
            out = write_byte(out, k as u8)?;
            out = write_op(out, &Op::Write(k as i64))?;
        }
    }
    Ok(out)
}

/// So many entries.
fn some_entries(rt: &HostRuntime, number: u32) -> Result<Entries, Error> {
    let mut entries = Entries::new(rt.alloc());
    for i in 0..number {
        entries.push(Entry::from_vec(an_entry(rt.alloc(), i)?))?;
    }
    Ok(entries)
}

/// The bytes of all entries.
fn bytes_of(entries: &Entries) -> u64 {
    let mut bytes = 0u64;
    for entry in entries.as_slice() {
        bytes = bytes.saturating_add(entry.len() as u64);
    }
    bytes
}

/// The nanoseconds of so many times a copy, and of so many times recover.
fn round(rt: &HostRuntime, entries: &Entries, times: u32) -> Result<[u128; 2], Error> {
    let start = Instant::now(rt)?;
    for _ in 0..times {
        let mut copy = Entries::new(rt.alloc());
        for entry in entries.as_slice() {
            copy.push(Entry::from_vec(entry.as_slice().to_vec(rt.alloc())?))?;
        }
    }
    let copied = start.elapsed(rt)?.as_nanos();
    let start = Instant::now(rt)?;
    for _ in 0..times {
        let _ = recover(rt.alloc(), entries)?;
    }
    Ok([copied, start.elapsed(rt)?.as_nanos()])
}

/// The least times of some rounds.
fn measure(rt: &HostRuntime, entries: &Entries, times: u32) -> Result<[u128; 2], Error> {
    let mut least = round(rt, entries, times)?;
    for _ in 0..4 {
        let other = round(rt, entries, times)?;
        for i in 0..2 {
            least[i] = least[i].min(other[i]);
        }
    }
    Ok(least)
}

fn main(rt: HostRuntime) -> Result<(), Error> {
    let mut first = 1u128;
    for number in NUMBERS {
        let times = ALL / number.max(1);
        let entries = some_entries(&rt, number)?;
        let bytes = bytes_of(&entries);
        let least = measure(&rt, &entries, times)?;
        let read = (bytes as u128).saturating_mul(times as u128).max(1);
        let for_byte = least[1].saturating_mul(1000) / read;
        if number == 10 {
            first = for_byte;
        }
        println!(rt; "{number} entries, {bytes} bytes: recover {} times a copy; for a byte, {} tenths of the time at 10 entries",
            least[1] / least[0].max(1), for_byte.saturating_mul(10) / first.max(1))?;
    }
    Ok(())
}
PROGRAM
if [ "${1-}" = --quick ]; then
    # That build checks each step as it runs, and is a thousand times slower.
    sed -i 's/ALL: u32 = 10_000/ALL: u32 = 100/; s/\[u32; 4\] = .*/[u32; 2] = [10, 100];/' src/main.rt
    rt try --steps 1
else
    rt run
fi
