#!/bin/sh
# How long the clocks of a trace of 1,000, 10,000 and 50,000 events take, for each event, how long look-ups in them take, and how much of
# the first trace's time that is. Beside them stands a bare walk: it reads the node of each event, and writes eight numbers for it. Its
# time rises too, since longer traces leave the processor's caches, and new memory costs something. So the clocks' time is given as a
# multiple of that walk's as well.
# A figure is such a ratio: the nanoseconds are those of one machine on one day. Each time is the least of several rounds.
# bench/past.sh           proves the crates and the program, and runs it
# bench/past.sh --quick   runs a build of the same sources that nothing has proved
# The figures in RESULTS.md come from the first, which has run to its end.
. "$(dirname "$0")/common.sh"
make_program past_times anyhow cam_base cam_event cam_past
cat > src/main.rt <<'PROGRAM'
//! How long clocks and look-ups in them take.
#![tactic(auto)]

use anyhow::Error;
use cam_event::{Deeds, Event, LetterId, Note, SentList, Trace};
use cam_past::{Clocks, clocks};
use std::time::Instant;

const ROUNDS: u32 = 20;
const LOOK_UPS: u64 = 100_000;

/// Events of eight nodes, of which every other one receives a letter of one of the hundred events before it.
fn trace(rt: &HostRuntime, events: u64) -> Result<Trace, Error> {
    let mut trace = Trace::new(rt.alloc());
    for number in 0..events {
        let back = number.wrapping_mul(17) % 100;
        let letter = LetterId {
            event: number.saturating_sub(back).saturating_sub(1),
            place: 0,
        };
        trace.push(Event {
            node: (number.wrapping_mul(7) % 11 % 8) as u8 + 1,
            got: if number % 2 == 1 { Some(letter) } else { None },
            deeds: Deeds::new(rt.alloc()),
            sent: SentList::new(rt.alloc()),
            note: Note::Plain,
        })?;
    }
    Ok(trace)
}

/// The time of look-ups all over the trace.
fn look_up(rt: &HostRuntime, clocks: &Clocks, events: u64) -> Result<u128, Error> {
    let start = Instant::now(rt)?;
    let mut found = 0u64;
    let mut one = 0u64;
    for turn in 0..LOOK_UPS {
        one = one.wrapping_mul(6_364_136_223_846_793_005).wrapping_add(turn | 1);
        let i = (one >> 33) % events.max(1);
        let j = (one >> 13) % events.max(1);
        if clocks.in_past(i, j) {
            found = found.wrapping_add(1);
        }
    }
    let time = start.elapsed(rt)?.as_nanos();
    if found == 0 {
        println!(rt; "no event is in a past")?;
    }
    Ok(time)
}

/// The time of a walk that reads the node of each event, and writes eight numbers for it.
fn walk(rt: &HostRuntime, trace: &Trace) -> Result<u128, Error> {
    let start = Instant::now(rt)?;
    let mut rows = Vec::with_capacity(rt.alloc(), trace.len())?;
    for event in trace.as_slice() {
        rows.push([event.node as u64; 8])?;
    }
    let time = start.elapsed(rt)?.as_nanos();
    if rows.len() != trace.len() {
        println!(rt; "the walk is not whole")?;
    }
    Ok(time)
}

/// What was measured.
#[derive(Clone, Copy)]
struct Times {
    walk: u128,
    clocks: u128,
    look_ups: u128,
}

impl Times {
    fn least(&self, other: &Times) -> Times {
        Times {
            walk: self.walk.min(other.walk),
            clocks: self.clocks.min(other.clocks),
            look_ups: self.look_ups.min(other.look_ups),
        }
    }
}

fn measure_once(rt: &HostRuntime, trace: &Trace) -> Result<Times, Error> {
    let walk = walk(rt, trace)?;
    let start = Instant::now(rt)?;
    let clocks = clocks(rt.alloc(), trace)?;
    let making = start.elapsed(rt)?.as_nanos();
    Ok(Times {
        walk,
        clocks: making,
        look_ups: look_up(rt, &clocks, trace.len() as u64)?,
    })
}

/// The least times of some rounds, of the walk and of the clocks for a thousand events.
fn measure(rt: &HostRuntime, events: u64) -> Result<Times, Error> {
    let trace = trace(rt, events)?;
    let mut times = measure_once(rt, &trace)?;
    for _ in 0..ROUNDS {
        times = times.least(&measure_once(rt, &trace)?);
    }
    let thousands = (events / 1_000).max(1) as u128;
    times.walk = times.walk / thousands;
    times.clocks = times.clocks / thousands;
    Ok(times)
}

/// A time, and how many hundredths of the first run's it is.
fn show(rt: &HostRuntime, what: &str, time: u128, first: u128) -> Result<(), Error> {
    let hundredths = time.saturating_mul(100) / first.max(1);
    println!(rt; "  {what}: {time} ns, {hundredths} hundredths of the first")?;
    Ok(())
}

fn main(rt: HostRuntime) -> Result<(), Error> {
    let first = measure(&rt, 1_000)?;
    for events in [1_000, 10_000, 50_000] {
        let times = measure(&rt, events)?;
        println!(rt; "{events} events")?;
        show(&rt, "a bare walk, for a thousand events", times.walk, first.walk)?;
        show(&rt, "clocks, for a thousand events", times.clocks, first.clocks)?;
        let tenths = times.clocks.saturating_mul(10) / times.walk.max(1);
        println!(rt; "  clocks take {tenths} tenths of the bare walk")?;
        show(&rt, "look-ups all over the trace", times.look_ups, first.look_ups)?;
    }
    Ok(())
}
PROGRAM
if [ "${1-}" = --quick ]; then
    # That build checks each step as it runs, and is a thousand times slower.
    sed -i 's/= 20;/= 1;/; s/= 100_000;/= 1_000;/' src/main.rt
    rt try --steps 1
else
    rt run
fi
