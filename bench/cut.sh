#!/bin/sh
# How long the witness of an action and a cut take in traces of 1,000, 10,000 and 50,000 events, for a thousand events each, and how much
# of the first trace's time that is. Beside them stand a bare copy of all deeds, and the clocks of the trace, which are a part of the
# witness. The bare copy's time rises too, since longer traces leave the processor's caches, so each time is also given as a multiple of
# that copy's. The action has its first and last step in the first and last event, so that all others may be in its past.
# A figure is such a ratio: the nanoseconds are those of one machine on one day. Each time is the least of several rounds.
# bench/cut.sh           proves the crates and the program, and runs it
# bench/cut.sh --quick   runs a build of the same sources that nothing has proved
# The figures in RESULTS.md come from the first, which has run to its end.
. "$(dirname "$0")/common.sh"
make_program cut_times anyhow cam_base cam_names cam_type cam_event cam_past cam_cut
cat > src/main.rt <<'PROGRAM'
//! How long witnesses and cuts take.
#![tactic(auto)]

use anyhow::Error;
use cam_cut::{cut_deeds, witness};
use cam_event::{Deed, Deeds, Event, LetterId, Note, SentList, Trace};
use cam_names::Name;
use cam_past::clocks;
use cam_type::{Answer, Op};
use std::time::Instant;

const ROUNDS: u32 = 20;

/// A call and an operation of one action; at the ends of the trace a call of another one.
fn deeds(rt: &HostRuntime, number: u64, last: u64, one: &Name, other: &Name) -> Result<Deeds, Error> {
    let mut deeds = Deeds::new(rt.alloc());
    if number == 0 {
        deeds.push_copy(&Deed::Create { action: *one })?;
    }
    let action = if number == last { *one } else { *other };
    deeds.push_copy(&Deed::Call {
        action,
        number: 1,
        object: 0,
        op: Op::Read,
        count: 1,
    })?;
    deeds.push_copy(&Deed::Perform {
        action,
        number: 1,
        answer: Answer::Ok,
    })?;
    Ok(deeds)
}

/// Events of eight nodes, of which every other one receives a letter of one of the hundred events before it.
fn trace(rt: &HostRuntime, events: u64, one: &Name, other: &Name) -> Result<Trace, Error> {
    let mut trace = Trace::new(rt.alloc());
    for number in 0..events {
        let back = number.wrapping_mul(17) % 100;
        let letter = LetterId {
            event: number.saturating_sub(back).saturating_sub(1),
            place: 0,
        };
        trace.push(Event {
            node: (number.wrapping_mul(7) % 11 % 8) as u8 + 1,
            got: if number % 2 == 1 { Some(letter) } else { None },
            deeds: deeds(rt, number, events.saturating_sub(1), one, other)?,
            sent: SentList::new(rt.alloc()),
            note: Note::Plain,
        })?;
    }
    Ok(trace)
}

/// How long it takes to copy all deeds of the trace, and how many they are.
fn copy(rt: &HostRuntime, trace: &Trace) -> Result<(u128, usize), Error> {
    let start = Instant::now(rt)?;
    let mut deeds = Deeds::new(rt.alloc());
    for event in trace.as_slice() {
        for deed in event.deeds.as_slice() {
            deeds.push_copy(deed)?;
        }
    }
    Ok((start.elapsed(rt)?.as_nanos(), deeds.len()))
}

/// How long the clocks of the trace take.
fn clock(rt: &HostRuntime, trace: &Trace) -> Result<u128, Error> {
    let start = Instant::now(rt)?;
    let clocks = clocks(rt.alloc(), trace)?;
    let time = start.elapsed(rt)?.as_nanos();
    if !clocks.in_past(0, 0) {
        println!(rt; "the first event is not in its past")?;
    }
    Ok(time)
}

/// How long a cut takes that keeps all events, and how many deeds it has.
fn cut(rt: &HostRuntime, trace: &Trace) -> Result<(u128, usize), Error> {
    let keep = vec![in rt.alloc(); true; trace.len()]?;
    let start = Instant::now(rt)?;
    let deeds = cut_deeds(rt.alloc(), trace, &keep)?;
    Ok((start.elapsed(rt)?.as_nanos(), deeds.len()))
}

/// How long the witness of an action takes, and how many deeds it has.
fn find(rt: &HostRuntime, trace: &Trace, name: &Name) -> Result<(u128, usize), Error> {
    let start = Instant::now(rt)?;
    let deeds = witness(rt.alloc(), trace, name)?;
    Ok((start.elapsed(rt)?.as_nanos(), deeds.len()))
}

/// What was measured.
#[derive(Clone, Copy)]
struct Times {
    copy: u128,
    clocks: u128,
    cut: u128,
    witness: u128,
}

impl Times {
    fn least(&self, other: &Times) -> Times {
        Times {
            copy: self.copy.min(other.copy),
            clocks: self.clocks.min(other.clocks),
            cut: self.cut.min(other.cut),
            witness: self.witness.min(other.witness),
        }
    }
}

fn measure_once(rt: &HostRuntime, trace: &Trace, name: &Name) -> Result<Times, Error> {
    let clocks = clock(rt, trace)?;
    let (copy, copied) = copy(rt, trace)?;
    let (cut, kept) = cut(rt, trace)?;
    let (witness, found) = find(rt, trace, name)?;
    if kept != copied || found < copied / 10 * 9 {
        println!(rt; "{kept} deeds of {copied} in the cut, and {found} in the witness")?;
    }
    Ok(Times {
        copy,
        clocks,
        cut,
        witness,
    })
}

/// The least times of some rounds, for a thousand events.
fn measure(rt: &HostRuntime, events: u64) -> Result<Times, Error> {
    let one = Name::parse("1.1.1")?;
    let trace = trace(rt, events, &one, &Name::parse("1.1.2")?)?;
    let mut times = measure_once(rt, &trace, &one)?;
    for _ in 0..ROUNDS {
        times = times.least(&measure_once(rt, &trace, &one)?);
    }
    let thousands = (events / 1_000).max(1) as u128;
    Ok(Times {
        copy: times.copy / thousands,
        clocks: times.clocks / thousands,
        cut: times.cut / thousands,
        witness: times.witness / thousands,
    })
}

/// A time, how many hundredths of the first run's it is, and how many tenths of the bare copy's.
fn show(rt: &HostRuntime, what: &str, time: u128, first: u128, copy: u128) -> Result<(), Error> {
    let hundredths = time.saturating_mul(100) / first.max(1);
    let tenths = time.saturating_mul(10) / copy.max(1);
    println!(rt; "  {what}: {time} ns, {hundredths} hundredths of the first, {tenths} tenths of the copy")?;
    Ok(())
}

fn main(rt: HostRuntime) -> Result<(), Error> {
    let first = measure(&rt, 1_000)?;
    for events in [1_000, 10_000, 50_000] {
        let times = measure(&rt, events)?;
        println!(rt; "{events} events")?;
        show(&rt, "a bare copy", times.copy, first.copy, times.copy)?;
        show(&rt, "clocks", times.clocks, first.clocks, times.copy)?;
        show(&rt, "cut_deeds", times.cut, first.cut, times.copy)?;
        show(&rt, "witness", times.witness, first.witness, times.copy)?;
    }
    Ok(())
}
PROGRAM
if [ "${1-}" = --quick ]; then
    # That build checks each step as it runs, and is a thousand times slower.
    sed -i 's/= 20;/= 1;/' src/main.rt
    rt try --steps 1
else
    rt run
fi
