#!/bin/sh
# How long an append takes, and the opening of a log of 10, 1,000 and 100,000 entries, on a disk in memory
# and on a file, which takes ten minutes: an append has two syncs.
# Usage: bench/log.sh [FOLDER]. Its folder is made in FOLDER, or where `mktemp` makes one. Name one on a
# disk: where the file lies in memory, as /tmp does on many machines, a sync costs nothing.
. "$(dirname "$0")/common.sh"
bench_folder=${1-}
make_program log_times cam_base cam_disk cam_log
cat > src/main.rt <<'PROGRAM'
//! How long an append to a log and its opening take.
#![tactic(auto)]

use cam_disk::{Disk, FileDisk, MemoryDisk};
use cam_log::{EntryLog, Log};
use std::fs;
use std::io;
use std::time::Instant;

const ENTRY: [u8; 32] = [7; 32];

fn measure<D: Disk>(rt: &HostRuntime, kind: &str, disk: D, count: u32) -> io::Result<()> {
    let alloc = rt.alloc();
    let Ok(mut log) = Log::format(alloc, disk) else {
        return println!(rt; "{kind}: no log was made");
    };
    let start = Instant::now(rt)?;
    for _ in 0..count {
        if log.is_broken() || log.append(&ENTRY).is_err() {
            return println!(rt; "{kind}: an append failed");
        }
    }
    let append = start.elapsed(rt)?.as_nanos() / count.max(1) as u128;
    let disk = log.into_disk();
    let start = Instant::now(rt)?;
    let opened = Log::open(alloc, disk);
    let open = start.elapsed(rt)?.as_nanos() / count.max(1) as u128;
    let found = match opened {
        Ok(log) => log.entries().len(),
        Err(_) => 0,
    };
    println!(rt; "{kind}, {count} entries: append {append} ns each, open {open} ns each ({found} found)")
}

fn main(rt: HostRuntime) -> io::Result<()> {
    for count in [10, 1_000, 100_000] {
        measure(&rt, "memory", MemoryDisk::new(rt.alloc()), count)?;
    }
    for count in [10, 1_000, 100_000] {
        measure(&rt, "file", FileDisk::open(&rt, rt.alloc(), "log_times.log"), count)?;
    }
    fs::remove_file(&rt, "log_times.log")
}
PROGRAM
TMPDIR="$copy" rt run
