#!/bin/sh
# How long the parser takes on scripts of 1, 16 and 256 KiB, and how often that is the time of the first.
# A figure is such a ratio: the nanoseconds are those of one machine on one day. Each time is the least of several rounds.
# In each script all lines have 32 bytes: comments; `deliver` steps, and comments behind the 512th; `begin` steps, which each look up their
# name among all before them, and comments behind the 512th.
# bench/script.sh           proves the crates and the program, and runs it
# bench/script.sh --quick   runs a build of the same sources that nothing has proved
# The figures in RESULTS.md come from the first, which has run to its end.
. "$(dirname "$0")/common.sh"
make_program script_times anyhow cam_script
cat > src/main.rt <<'PROGRAM'
//! How long the parser takes.
#![tactic(auto)]

use anyhow::Error;
use cam_script::parse;
use std::fmt::Write;
use std::time::Instant;

const ROUNDS: u32 = 4;
const LINE: u32 = 32;
const MOST_STEPS: u32 = 512;

/// The lines of a script.
#[derive(Clone, Copy, PartialEq, Eq)]
enum Lines {
    Comments,
    Deliveries,
    Names,
}

/// A script of so many lines, each of 32 bytes with its LF.
fn script(rt: &HostRuntime, lines: Lines, count: u32) -> Result<String, Error> {
    let mut text = String::from_str(rt.alloc(), "nodes                         1\n")?;
    for n in 1..count {
        if lines == Lines::Comments || n > MOST_STEPS {
            write!(text, "# {n:029}\n")?;
        } else if lines == Lines::Deliveries {
            write!(text, "deliver {n:023}\n")?;
        } else {
            write!(text, "begin A{n:07}                1\n")?;
        }
    }
    Ok(text)
}

/// The time of one reading.
fn parse_once(rt: &HostRuntime, text: &str) -> Result<u128, Error> {
    let start = Instant::now(rt)?;
    parse(rt.alloc(), text.as_bytes())?;
    Ok(start.elapsed(rt)?.as_nanos())
}

/// The least time of some readings.
fn measure(rt: &HostRuntime, text: &str) -> Result<u128, Error> {
    let mut time = parse_once(rt, text)?;
    for _ in 0..ROUNDS {
        time = time.min(parse_once(rt, text)?);
    }
    Ok(time)
}

/// The times of the three sizes.
fn report(rt: &HostRuntime, name: &str, lines: Lines) -> Result<(), Error> {
    let first = measure(rt, script(rt, lines, 1024 / LINE)?.as_str())?;
    for kib in [1, 16, 256] {
        let text = script(rt, lines, kib * 1024 / LINE)?;
        let time = if kib == 1 { first } else { measure(rt, text.as_str())? };
        let tenths = time.saturating_mul(10) / first.max(1);
        println!(rt; "{name}, {} bytes: {time} ns, {tenths} tenths of the first", text.len())?;
    }
    Ok(())
}

fn main(rt: HostRuntime) -> Result<(), Error> {
    report(&rt, "comments", Lines::Comments)?;
    report(&rt, "deliveries", Lines::Deliveries)?;
    report(&rt, "names", Lines::Names)?;
    Ok(())
}
PROGRAM
if [ "${1-}" = --quick ]; then
    rt try --steps 1
else
    rt run
fi
