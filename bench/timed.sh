#!/bin/sh
# How long the report and a witness of a run by time of 1,000, 10,000 and 50,000 events take, for each event, and how long the report of the
# same events without moments takes, which has neither pauses nor quiesce moments. And how long scripts by time of 512 steps take to be
# read, against scripts without time that have the same lines but for their moments. And how long the runs of scripts of up to 512 steps
# take to be made, for each event: of families one after another, side by side, and on one object. The
# largest of these scripts have 494, 509 and 500 steps.
# A figure is a ratio: the nanoseconds are those of one machine on one day. Each time is the least of several rounds.
# bench/timed.sh           proves the crates and the program, and runs it
# bench/timed.sh --quick   runs a build of the same sources that nothing has proved
. "$(dirname "$0")/common.sh"
make_program timed_times anyhow cam_base cam_names cam_type cam_event cam_cut cam_script cam_report cam_timed
cat > src/main.rt <<'PROGRAM'
//! How long reports, witnesses and parsing of runs by time take.
#![tactic(auto)]

use anyhow::Error;
use cam_event::{Deed, Deeds, Event, Marks, Note, RunRecord, SentList, Trace, copy_event};
use cam_names::{Name, Part};
use cam_report::report_text;
use cam_script::{Bodies, Labels, Script, Steps, parse};
use cam_timed::{
    Pause, TimedEvent, TimedMarks, TimedRecord, TimedScript, TimedSteps, TimedTrace, parse_timed,
    timed, timed_text, timed_witness,
};
use cam_type::Objects;
use std::time::Instant;

const ROUNDS: u32 = 20;

/// The top action of this number at a node.
fn top(node: u8, number: u32) -> Result<Name, Error> {
    match Part::new(node, 1, number) {
        Some(part) => Ok(Name::top(part)),
        None => Err(Error::msg("no such part")),
    }
}

/// Events of eight nodes, by turns a begin, a request to abort, a moment, and an arrival that pauses.
fn trace(rt: &HostRuntime, events: u32) -> Result<TimedTrace, Error> {
    let mut trace = TimedTrace::new(rt.alloc());
    for number in 0..events {
        let node = (number / 4 % 8) as u8 + 1;
        let action = top(node, number / 32 + 1)?;
        let mut deeds = Deeds::new(rt.alloc());
        if number % 4 == 0 {
            deeds.push_copy(&Deed::Create { action })?;
        }
        if number % 4 == 1 {
            deeds.push_copy(&Deed::AskAbort { action })?;
        }
        trace.push(TimedEvent {
            event: Event {
                node,
                got: None,
                deeds,
                sent: SentList::new(rt.alloc()),
                note: Note::Plain,
            },
            moment: u64::from(number),
            until: if number % 4 == 0 { u64::from(number) + 2 } else { 0 },
            pause: if number % 4 == 3 { Some(Pause::Quiet(action)) } else { None },
        })?;
    }
    Ok(trace)
}

/// A script that declares nothing.
fn empty(rt: &HostRuntime) -> TimedScript {
    TimedScript {
        script: Script {
            nodes: 8,
            objects: Objects::new(rt.alloc()),
            labels: Labels::new(rt.alloc()),
            bodies: Bodies::new(rt.alloc()),
            steps: Steps::new(rt.alloc()),
        },
        steps: TimedSteps::new(rt.alloc()),
    }
}

/// What was measured.
#[derive(Clone, Copy)]
struct Times {
    report: u128,
    untimed: u128,
    witness: u128,
}

impl Times {
    fn least(&self, other: &Times) -> Times {
        Times {
            report: self.report.min(other.report),
            untimed: self.untimed.min(other.untimed),
            witness: self.witness.min(other.witness),
        }
    }
}

fn measure_once(
    rt: &HostRuntime,
    script: &TimedScript,
    run: &TimedRecord,
    plain: &RunRecord,
) -> Result<Times, Error> {
    let start = Instant::now(rt)?;
    let text = timed_text(rt.alloc(), script, run)?;
    let report = start.elapsed(rt)?.as_nanos();
    let start = Instant::now(rt)?;
    let other = report_text(rt.alloc(), &script.script, plain)?;
    let untimed = start.elapsed(rt)?.as_nanos();
    if text.len() < other.len() {
        println!(rt; "a report is not whole")?;
    }
    let last = top(1, 1)?;
    let start = Instant::now(rt)?;
    match timed_witness(rt.alloc(), run, &last) {
        Ok(_) => {}
        Err(_) => println!(rt; "there is no witness")?,
    }
    Ok(Times {
        report,
        untimed,
        witness: start.elapsed(rt)?.as_nanos(),
    })
}

/// The least times of some rounds, for a thousand events.
fn measure(rt: &HostRuntime, events: u32) -> Result<Times, Error> {
    let script = empty(rt);
    let run = TimedRecord {
        trace: trace(rt, events)?,
        marks: TimedMarks::new(rt.alloc()),
    };
    let mut plain = Trace::new(rt.alloc());
    for event in run.trace.as_slice() {
        plain.push(copy_event(&event.event)?)?;
    }
    let plain = RunRecord {
        trace: plain,
        marks: Marks::new(rt.alloc()),
    };
    let mut times = measure_once(rt, &script, &run, &plain)?;
    for _ in 0..ROUNDS {
        times = times.least(&measure_once(rt, &script, &run, &plain)?);
    }
    let thousands = (events / 1_000).max(1) as u128;
    times.report = times.report / thousands;
    times.untimed = times.untimed / thousands;
    times.witness = times.witness / thousands;
    Ok(times)
}

/// A script of 512 begins, with or without their moments.
fn begins(rt: &HostRuntime, until: &str) -> Result<String, Error> {
    let mut text = String::from_str(rt.alloc(), "nodes 8\n")?;
    for number in 0..512 {
        let line = format!(in rt.alloc(); "begin A{number} 1{until}\n")?;
        text.push_str(line.as_str())?;
    }
    Ok(text)
}

/// The least times of some rounds of reading.
fn reading(rt: &HostRuntime) -> Result<(u128, u128), Error> {
    let timed = begins(rt, " 1000")?;
    let plain = begins(rt, "")?;
    let mut times = (u128::MAX, u128::MAX);
    for _ in 0..ROUNDS {
        let start = Instant::now(rt)?;
        let one = parse_timed(rt.alloc(), timed.as_bytes())?;
        let by_time = start.elapsed(rt)?.as_nanos();
        let start = Instant::now(rt)?;
        let other = parse(rt.alloc(), plain.as_bytes())?;
        let without = start.elapsed(rt)?.as_nanos();
        if one.steps.len() != other.steps.len() {
            println!(rt; "a script is not whole")?;
        }
        times = (times.0.min(by_time), times.1.min(without));
    }
    Ok(times)
}

/// The head of a script with a counter at each node.
fn counters(rt: &HostRuntime) -> Result<String, Error> {
    let mut text = String::from_str(rt.alloc(), "nodes 8\n")?;
    for node in 1..9 {
        let line = format!(in rt.alloc(); "object x{node} {node} counter 0\n")?;
        text.push_str(line.as_str())?;
    }
    Ok(text)
}

/// A script of so many families, one after another. Each begins at node 1, adds to an object of each node and commits; the letters are
/// delivered after each line.
fn in_turn(rt: &HostRuntime, count: u32) -> Result<String, Error> {
    let mut text = counters(rt)?;
    for number in 0..count {
        let line = format!(in rt.alloc(); "begin A{number} 1 1000000\n")?;
        text.push_str(line.as_str())?;
        for node in 1..9 {
            let line = format!(in rt.alloc(); "call A{number} x{node} add 1\ndrain\n")?;
            text.push_str(line.as_str())?;
        }
        let line = format!(in rt.alloc(); "commit A{number} 0\ndrain\n")?;
        text.push_str(line.as_str())?;
    }
    Ok(text)
}

/// A script of so many families side by side. All begin at node 1, add to the object of one node after another, and commit.
fn together(rt: &HostRuntime, count: u32) -> Result<String, Error> {
    let mut text = counters(rt)?;
    for number in 0..count {
        let line = format!(in rt.alloc(); "begin A{number} 1 1000000\n")?;
        text.push_str(line.as_str())?;
    }
    for node in 1..9 {
        for number in 0..count {
            let line = format!(in rt.alloc(); "call A{number} x{node} add 1\n")?;
            text.push_str(line.as_str())?;
        }
        text.push_str("drain\n")?;
    }
    for number in 0..count {
        let line = format!(in rt.alloc(); "commit A{number} 0\n")?;
        text.push_str(line.as_str())?;
    }
    text.push_str("drain\n")?;
    Ok(text)
}

/// A script of so many families, one after another, each of which adds to one and the same object.
fn on_one(rt: &HostRuntime, count: u32) -> Result<String, Error> {
    let mut text = String::from_str(rt.alloc(), "nodes 2\nobject x 2 counter 0\n")?;
    for number in 0..count {
        let line = format!(in rt.alloc();
            "begin A{number} 1 1000000\ncall A{number} x add 1\ndrain\ncommit A{number} 0\ndrain\n")?;
        text.push_str(line.as_str())?;
    }
    Ok(text)
}

/// The events of a script's run, and the least time of some rounds for each.
fn running(rt: &HostRuntime, text: &String) -> Result<(usize, u128), Error> {
    let script = parse_timed(rt.alloc(), text.as_bytes())?;
    let mut least = u128::MAX;
    let mut events = 1;
    for _ in 0..ROUNDS {
        let start = Instant::now(rt)?;
        let run = timed(rt.alloc(), &script)?;
        least = least.min(start.elapsed(rt)?.as_nanos());
        events = run.trace.len().max(1);
    }
    Ok((events, least / events as u128))
}

/// A time, and how many hundredths of another it is.
fn show(rt: &HostRuntime, what: &str, time: u128, than: &str, other: u128) -> Result<(), Error> {
    let hundredths = time.saturating_mul(100) / other.max(1);
    println!(rt; "  {what}: {time} ns, {hundredths} hundredths of {than}")?;
    Ok(())
}

/// What the run of so many families took, against that of one.
fn show_run(
    rt: &HostRuntime,
    families: u32,
    how: &str,
    run: (usize, u128),
    few: (usize, u128),
) -> Result<(), Error> {
    let (events, time) = run;
    println!(rt; "{families} families {how}, {events} events")?;
    show(rt, "making one", time, "the first", few.1)
}

fn main(rt: HostRuntime) -> Result<(), Error> {
    let first = measure(&rt, 1_000)?;
    for events in [1_000, 10_000, 50_000] {
        let times = measure(&rt, events)?;
        println!(rt; "{events} events, for a thousand of them")?;
        show(&rt, "the report", times.report, "the first", first.report)?;
        show(&rt, "the report", times.report, "that without moments", times.untimed)?;
        show(&rt, "a witness", times.witness, "the first", first.witness)?;
    }
    let few = running(&rt, &in_turn(&rt, 1)?)?;
    show_run(&rt, 1, "in turn", few, few)?;
    for families in [5, 13, 26] {
        show_run(&rt, families, "in turn", running(&rt, &in_turn(&rt, families)?)?, few)?;
    }
    let few = running(&rt, &together(&rt, 1)?)?;
    show_run(&rt, 1, "side by side", few, few)?;
    for families in [5, 25, 50] {
        show_run(&rt, families, "side by side", running(&rt, &together(&rt, families)?)?, few)?;
    }
    let few = running(&rt, &on_one(&rt, 1)?)?;
    show_run(&rt, 1, "on one object", few, few)?;
    for families in [10, 100] {
        show_run(&rt, families, "on one object", running(&rt, &on_one(&rt, families)?)?, few)?;
    }
    let (by_time, without) = reading(&rt)?;
    println!(rt; "512 steps")?;
    show(&rt, "reading them", by_time, "that without moments", without)?;
    Ok(())
}
PROGRAM
if [ "${1-}" = --quick ]; then
    # That build checks each step as it runs, and is a thousand times slower.
    sed -i 's/= 20;/= 1;/; s/\[1_000, 10_000, 50_000\]/[1_000]/' src/main.rt
    rt try --steps 1
else
    rt run
fi
