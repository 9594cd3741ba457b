#!/bin/sh
# How long a letter takes to be sent, written, read and noted where 10, 100 and 1,000 outcomes are known and it brings ten more, and how
# much of the first run's time that is. Its receiver has acknowledged all but these ten. What ten new outcomes take is told twice: as the
# mean of the letters that come until twice as much is known, in which time each table grows once, wherever it began; and as the least of
# those that come until eight times as much is known, one for which no table has to grow. The script fails where a letter does not carry
# or bring its ten outcomes.
# A figure is such a ratio: the nanoseconds are those of one machine on one day. Each time is the least of several rounds.
# bench/letters.sh           proves the crates and the program, and runs it
# bench/letters.sh --quick   runs a build of the same sources that nothing has proved
. "$(dirname "$0")/common.sh"
make_program letter_times anyhow cam_base cam_names cam_type cam_know cam_event cam_bytes cam_comman cam_wire
cat > src/main.rt <<'PROGRAM'
//! How long letters take by what is known and by what they bring.
#![tactic(auto)]

ghost use Rattle.cam_comman.specs.Letters.{IsWithin};
ghost use Rattle.cam_wire.specs.Writable.{IsWritable};

use anyhow::{Error, ensure};
use cam_comman::{Places, arrive, send};
use cam_event::{Body, Letter};
use cam_know::{Know, Outcome};
use cam_names::{Deps, Name, Part};
use cam_wire::{decode, encode};
use std::time::Instant;

const ROUNDS: u32 = 20;
const TIMES: u32 = 500;
const LETTERS: u32 = 100;
const BROUGHT: u32 = 10;

/// The outcome of a child of a top action: each second one commits.
fn child(top: &Name, number: u32) -> Option<Outcome> {
    let name = top.child(Part::new(2, 1, number)?)?;
    if number % 2 == 0 {
        Some(Outcome::Committed(name, Deps::none().with(2, 1)))
    } else {
        Some(Outcome::Aborted(name))
    }
}

/// Knowledge of the outcomes of the children with these numbers.
fn family(rt: &HostRuntime, top: &Name, first: u32, last: u32) -> Result<Know, Error> {
    let mut know = Know::new(rt.alloc());
    for number in first..=last {
        if let Some(outcome) = child(top, number) {
            know.add(&outcome)?;
        }
    }
    Ok(know)
}

/// News from node 2 to node 1, which brings this, and acknowledges so many outcomes.
fn news(have: u64, know: Know) -> Letter
    ensures { IsWritable result }
{
    Letter {
        from: 2,
        count: 1,
        to: 1,
        have,
        place: 0,
        know,
        body: Body::News,
    }
}

/// The time of sending a letter to a node that has acknowledged all but ten outcomes.
fn sent(rt: &HostRuntime, know: &Know, places: &Places) -> Result<u128, Error>
    requires { IsWithin know.now places.now }
{
    let start = Instant::now(rt)?;
    for _ in 0..TIMES {
        let _ = send(know, places, 1, 1, 2, Body::News)?;
    }
    Ok(start.elapsed(rt)?.as_nanos() / TIMES as u128)
}

/// The times of writing and of reading a letter.
fn as_bytes(rt: &HostRuntime, letter: &Letter) -> Result<[u128; 2], Error>
    requires { IsWritable letter.now }
{
    let bytes = encode(rt.alloc(), letter)?;
    let start = Instant::now(rt)?;
    for _ in 0..TIMES {
        let _ = encode(rt.alloc(), letter)?;
    }
    let written = start.elapsed(rt)?.as_nanos() / TIMES as u128;
    let start = Instant::now(rt)?;
    for _ in 0..TIMES {
        let _ = decode(rt.alloc(), bytes.as_slice())?;
    }
    Ok([written, start.elapsed(rt)?.as_nanos() / TIMES as u128])
}

/// The time of the arrival of a letter that brings ten outcomes, which are known.
fn noted_again(rt: &HostRuntime, know: &mut Know, letter: Know) -> Result<u128, Error> {
    let letter = news(0, letter);
    let before = know.len();
    let mut places = Places::new();
    let start = Instant::now(rt)?;
    for _ in 0..TIMES {
        let _ = arrive(know, &mut places, &letter)?;
    }
    let nanos = start.elapsed(rt)?.as_nanos() / TIMES as u128;
    ensure!(know.len() == before, "known outcomes were learnt again");
    Ok(nanos)
}

/// The times of letters that come one after another, each with ten new outcomes, until so many
/// times as much is known.
fn arrivals(rt: &HostRuntime, top: &Name, known: u32, times: u32) -> Result<Vec<u128>, Error> {
    let mut know = family(rt, top, 1, known)?;
    let mut places = Places::new();
    let mut nanos = Vec::new(rt.alloc());
    for i in 0..known.saturating_mul(times.saturating_sub(1)) / BROUGHT {
        let before = known.saturating_add(i.saturating_mul(BROUGHT));
        let brought = family(rt, top, before.saturating_add(1), before.saturating_add(BROUGHT))?;
        let letter = news(0, brought);
        let start = Instant::now(rt)?;
        let _ = arrive(&mut know, &mut places, &letter)?;
        nanos.push(start.elapsed(rt)?.as_nanos())?;
        for outcome in letter.know.outcomes() {
            ensure!(is_known(&know, outcome), "a letter did not bring an outcome");
        }
        ensure!(know.len() == before as u64 + BROUGHT as u64, "a letter did not bring ten outcomes");
    }
    Ok(nanos)
}

/// Whether how an action ended is known.
fn is_known(know: &Know, outcome: &Outcome) -> bool {
    match outcome {
        Outcome::Aborted(name) => know.is_aborted(name),
        Outcome::Committed(name, _) => know.is_committed(name),
    }
}

/// The time of the arrival of a letter that brings ten new outcomes: the mean of a hundred.
fn noted(rt: &HostRuntime, top: &Name, known: u32) -> Result<u128, Error> {
    let mut nanos = 0u128;
    for _ in 0..LETTERS.saturating_mul(BROUGHT) / known.max(1) {
        for time in &arrivals(rt, top, known, 2)? {
            nanos = nanos.saturating_add(*time);
        }
    }
    Ok(nanos / LETTERS as u128)
}

/// The time of the arrival of such a letter for which no table has to grow.
fn noted_in_room(rt: &HostRuntime, top: &Name, known: u32) -> Result<u128, Error> {
    let mut least = u128::MAX;
    for time in &arrivals(rt, top, known, 8)? {
        least = least.min(*time);
    }
    Ok(least)
}

/// What was measured: to send, to write, to read, to note what is known, to note what is new, and
/// that where there is room for it.
fn measure_once(rt: &HostRuntime, known: u32) -> Result<[u128; 6], Error> {
    let top = Name::parse("1.1.1")?;
    let mut know = family(rt, &top, 1, known.saturating_add(BROUGHT))?;
    let mut places = Places::new();
    let _ = arrive(&mut know, &mut places, &news(known as u64, Know::new(rt.alloc())))?;
    let sent = sent(rt, &know, &places)?;
    let letter = send(&know, &places, 1, 1, 2, Body::News)?;
    ensure!(letter.know.len() == BROUGHT as u64, "a letter does not carry ten outcomes");
    let [written, read] = as_bytes(rt, &letter)?;
    let again = noted_again(rt, &mut know, letter.know)?;
    let new = noted(rt, &top, known)?;
    Ok([sent, written, read, again, new, noted_in_room(rt, &top, known)?])
}

/// The least times of some rounds.
fn measure(rt: &HostRuntime, known: u32) -> Result<[u128; 6], Error> {
    let mut least = measure_once(rt, known)?;
    for _ in 0..ROUNDS {
        let times = measure_once(rt, known)?;
        for i in 0..6 {
            least[i] = least[i].min(times[i]);
        }
    }
    Ok(least)
}

fn main(rt: HostRuntime) -> Result<(), Error> {
    const WHAT: [&str; 6] = [
        "send",
        "encode",
        "decode",
        "arrive, ten known outcomes",
        "arrive, ten new outcomes",
        "arrive, ten new outcomes, no table grows",
    ];
    let first = measure(&rt, 10)?;
    for known in [10, 100, 1_000] {
        let times = if known == 10 { first } else { measure(&rt, known)? };
        println!(rt; "{known} outcomes known")?;
        for i in 0..6 {
            let hundredths = times[i].saturating_mul(100) / first[i].max(1);
            println!(rt; "  {}: {} ns, {hundredths} hundredths of the first", WHAT[i], times[i])?;
        }
    }
    Ok(())
}
PROGRAM
if [ "${1-}" = --quick ]; then
    # That build checks each step as it runs, and is a thousand times slower.
    sed -i 's/ROUNDS: u32 = 20;/ROUNDS: u32 = 1;/; s/= 500;/= 10;/' src/main.rt
    rt try --steps 1
else
    rt run
fi
