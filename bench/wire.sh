#!/bin/sh
# How long encode and decode of a letter take where 0, 10, 100 and 500 outcomes are known, as a ratio to copying the letter's bytes, and
# how long each takes for a byte, as a ratio to that of the letter with 10 outcomes. Half of the outcomes are aborts, half commits.
# A figure is such a ratio: the nanoseconds are those of one machine on one day. Each time is the least of five rounds.
# bench/wire.sh           proves the crates and the program, and runs it
# bench/wire.sh --quick   runs a build of the same sources that nothing has proved
. "$(dirname "$0")/common.sh"
make_program wire_times anyhow cam_base cam_names cam_type cam_know cam_event cam_bytes cam_wire
cat > src/main.rt <<'PROGRAM'
//! How long letters take to be written and read.
#![tactic(auto)]

ghost use Rattle.std.specs.Prelude.{IfOk};
ghost use Rattle.cam_wire.specs.Writable.{IsWritable};

use anyhow::Error;
use cam_event::{Body, Letter};
use cam_know::{Know, Outcome};
use cam_names::{Deps, Name, Part};
use cam_wire::{decode, encode};
use std::time::Instant;

/// A letter whose sender knows so many outcomes, learnt in no order of names.
fn a_letter(rt: &HostRuntime, outcomes: u32) -> Result<Letter, Error>
    ensures { IfOk result (λ letter. IsWritable letter) }
{
    let mut know = Know::new(rt.alloc());
    for i in 0..outcomes {
        let number = 1 + i.wrapping_mul(7919) % 1_000_000;
        if let Some(part) = Part::new(1 + (i % 8) as u8, 1, number) {
            let name = Name::top(part);
            let outcome = if i % 2 == 0 {
                Outcome::Aborted(name)
            } else {
                Outcome::Committed(name, Deps::none().with(1, 1).with(2, 3))
            };
            know.add(&outcome)?;
        }
    }
    Ok(Letter {
        from: 1,
        count: 1,
        to: 2,
        have: 0,
        place: 0,
        know,
        body: Body::News,
    })
}

/// The nanoseconds of a hundred copies, of a hundred times encode and of a hundred times decode.
fn round(rt: &HostRuntime, letter: &Letter, bytes: &[u8]) -> Result<[u128; 3], Error>
    requires { IsWritable letter.now }
{
    let start = Instant::now(rt)?;
    for _ in 0..100 {
        let _ = bytes.to_vec(rt.alloc())?;
    }
    let copied = start.elapsed(rt)?.as_nanos();
    let start = Instant::now(rt)?;
    for _ in 0..100 {
        let _ = encode(rt.alloc(), letter)?;
    }
    let encoded = start.elapsed(rt)?.as_nanos();
    let start = Instant::now(rt)?;
    for _ in 0..100 {
        let _ = decode(rt.alloc(), bytes)?;
    }
    Ok([copied, encoded, start.elapsed(rt)?.as_nanos()])
}

/// The least times of some rounds.
fn measure(rt: &HostRuntime, letter: &Letter, bytes: &[u8]) -> Result<[u128; 3], Error>
    requires { IsWritable letter.now }
{
    let mut least = round(rt, letter, bytes)?;
    for _ in 0..4 {
        let times = round(rt, letter, bytes)?;
        for i in 0..3 {
            least[i] = least[i].min(times[i]);
        }
    }
    Ok(least)
}

/// The time for a thousand bytes.
fn for_bytes(time: u128, bytes: usize) -> u128 {
    time.saturating_mul(1000) / (bytes as u128).max(1)
}

fn main(rt: HostRuntime) -> Result<(), Error> {
    let mut first = [1; 2];
    for outcomes in [10, 0, 100, 500] {
        let letter = a_letter(&rt, outcomes)?;
        let bytes = encode(rt.alloc(), &letter)?;
        let times = measure(&rt, &letter, &bytes)?;
        let each = [for_bytes(times[1], bytes.len()), for_bytes(times[2], bytes.len())];
        if outcomes == 10 {
            first = each;
        }
        let copy = times[0].max(1);
        println!(rt; "{outcomes} outcomes, {} bytes: encode {} times a copy, decode {} times; for a byte, {} and {} tenths of the time at 10 outcomes",
            bytes.len(), times[1] / copy, times[2] / copy,
            each[0].saturating_mul(10) / first[0].max(1), each[1].saturating_mul(10) / first[1].max(1))?;
    }
    Ok(())
}
PROGRAM
if [ "${1-}" = --quick ]; then
    rt try --steps 1
else
    rt run
fi
