#!/bin/sh
# How long a network takes for a letter where 500, 5,000 and 50,000 letters are put, lost and delivered in a mixed order, as a ratio to the
# time for a letter where 500 are. One node in eight is halted until all other letters have gone, so an eighth of the letters waits long.
# A figure is such a ratio: the nanoseconds are those of one machine on one day. Each time is the least of five rounds.
# bench/net.sh           proves the crates and the program, and runs it
# bench/net.sh --quick   runs a build of the same sources that nothing has proved
. "$(dirname "$0")/common.sh"
make_program net_times anyhow cam_base cam_names cam_type cam_know cam_event cam_bytes cam_wire cam_net
cat > src/main.rt <<'PROGRAM'
//! How long letters take on a network.
#![tactic(auto)]

ghost use Rattle.std.specs.Prelude.{◌≤◌};
ghost use Rattle.cam_wire.specs.Writable.{IsWritable};

use anyhow::Error;
use cam_event::{Body, Letter};
use cam_know::Know;
use cam_net::Net;
use std::alloc::Global;
use std::time::Instant;

/// News to a node.
fn news(alloc: Global, to: u8) -> Letter
    requires { (1 ≤ to) × (to ≤ 8) }
    ensures { IsWritable result }
{
    Letter {
        from: 1,
        count: 1,
        to,
        have: 0,
        place: 0,
        know: Know::new(alloc),
        body: Body::News,
    }
}

/// Loses or delivers what is next, if anything is: each seventh letter is lost.
fn take_next(net: &mut Net, halted: &[bool]) -> bool {
    match net.next(halted) {
        Some(number) if number % 7 == 0 => net.lose(number),
        Some(number) => {
            net.delivered(number);
            true
        }
        None => false,
    }
}

/// The nanoseconds in which so many letters are put and go, and how many went.
fn round(rt: &HostRuntime, count: u32) -> Result<(u128, u32), Error> {
    const HALTED: [bool; 8] = [false, false, false, true, false, false, false, false];
    let start = Instant::now(rt)?;
    let mut net = Net::new(rt.alloc());
    let mut gone: u32 = 0;
    for i in 0..count {
        net.put(&news(rt.alloc(), 1 + (i.wrapping_mul(7919) % 8) as u8))?;
        // A letter of the middle is lost, wherever the next one stands.
        if i % 11 == 0 && net.lose(i / 2 + 1) {
            gone = gone.wrapping_add(1);
        }
        if i % 2 == 0 && take_next(&mut net, &HALTED) {
            gone = gone.wrapping_add(1);
        }
    }
    for halted in [HALTED.as_slice(), [].as_slice()] {
        for _ in 0..count {
            if take_next(&mut net, halted) {
                gone = gone.wrapping_add(1);
            }
        }
    }
    Ok((start.elapsed(rt)?.as_nanos(), gone))
}

fn main(rt: HostRuntime) -> Result<(), Error> {
    let mut first = 0;
    for count in [500, 5000, 50000] {
        let (mut least, gone) = round(&rt, count)?;
        for _ in 0..4 {
            least = least.min(round(&rt, count)?.0);
        }
        let each = least.saturating_mul(100) / count as u128;
        if count == 500 {
            first = each;
        }
        println!(rt; "{count} letters, {gone} calls that lost or delivered one: for a letter {} hundredths of the time at 500", each.saturating_mul(100) / first.max(1))?;
    }
    Ok(())
}
PROGRAM
if [ "${1-}" = --quick ]; then
    rt try --steps 1
else
    rt run
fi
