#!/bin/sh
# How long the check of the plain machine takes on legal lists of 1,000, 10,000 and 50,000 deeds, and how often that is the time of the
# first. A figure is such a ratio: the nanoseconds are those of one machine on one day. Each time is the least of four rounds. At the square
# ten times the deeds would take a hundred times as long.
# Two lists: actions one after another that write one register and commit, and actions that add to one counter, of which hundreds run at
# a time.
# bench/plain.sh           proves the crates and the program, and runs it
# bench/plain.sh --quick   runs a build of the same sources that nothing has proved
. "$(dirname "$0")/common.sh"
make_program plain_times anyhow cam_base cam_names cam_type cam_event cam_plain
cat > src/main.rt <<'PROGRAM'
//! How long the check of the plain machine takes.
#![tactic(auto)]

use anyhow::Error;
use cam_event::{Deed, Deeds, Seen};
use cam_names::{Name, Part};
use cam_plain::check;
use cam_type::{Answer, ObjectDecl, Objects, Op, State};
use std::time::Instant;

/// The start of an action, and its call of an operation that answers `Ok`.
fn first_half(action: Name, op: Op) -> [Deed; 4] {
    [
        Deed::Create { action },
        Deed::Call {
            action,
            number: 1,
            object: 0,
            op,
            count: 1,
        },
        Deed::Perform {
            action,
            number: 1,
            answer: Answer::Ok,
        },
        Deed::Got {
            action,
            number: 1,
            seen: Seen::Done(Answer::Ok),
        },
    ]
}

/// Its commit.
fn second_half(action: Name) -> [Deed; 4] {
    [
        Deed::AskCommit { action, value: 0 },
        Deed::Secure {
            family: action,
            site: 1,
            count: 1,
        },
        Deed::Commit { action },
        Deed::Inform {
            site: 1,
            name: action,
            committed: true,
        },
    ]
}

/// So many actions, of which so many run at a time.
fn actions(rt: &HostRuntime, count: u32, at_a_time: u32, op: Op) -> Result<Deeds, Error> {
    let mut deeds = Deeds::new(rt.alloc());
    for round in 0..count / at_a_time.max(1) {
        for half in 0..2 {
            for place in 1..=at_a_time {
                let number = (round as u64 * at_a_time as u64 + place as u64) as u32;
                if let Some(part) = Part::new(1, 1, number) {
                    let action = Name::top(part);
                    let deeds_of_half = if half == 0 {
                        first_half(action, op)
                    } else {
                        second_half(action)
                    };
                    for deed in &deeds_of_half {
                        deeds.push_copy(deed)?;
                    }
                }
            }
        }
    }
    Ok(deeds)
}

/// The time of one check.
fn check_once(rt: &HostRuntime, deeds: &Deeds, start_state: State) -> Result<u128, Error> {
    let mut objects = Objects::new(rt.alloc());
    objects.push(ObjectDecl {
        node: 1,
        start: start_state,
    })?;
    let start = Instant::now(rt)?;
    check(rt.alloc(), deeds, &objects)?;
    Ok(start.elapsed(rt)?.as_nanos())
}

/// The least time of four checks of the writers, or of the adders.
fn measure(rt: &HostRuntime, deeds: &Deeds, is_counter: bool) -> Result<u128, Error> {
    let mut time = u128::MAX;
    for _ in 0..4 {
        let state = if is_counter { State::Counter(0) } else { State::Register(0) };
        time = time.min(check_once(rt, deeds, state)?);
    }
    Ok(time)
}

fn main(rt: HostRuntime) -> Result<(), Error> {
    for is_counter in [false, true] {
        let mut first = 0;
        for count in [125, 1250, 6250] {
            let (at_a_time, op) = if is_counter { (count / 5, Op::Add(1)) } else { (1, Op::Write(5)) };
            let deeds = actions(&rt, count, at_a_time, op)?;
            let time = measure(&rt, &deeds, is_counter)?;
            if first == 0 {
                first = time.max(1);
            }
            let tenths = time.saturating_mul(10) / first;
            let what = if is_counter { "adders" } else { "writers" };
            println!(rt; "{what}: {} deeds: {time} ns, {tenths} tenths of the first", deeds.len())?;
        }
    }
    Ok(())
}
PROGRAM
if [ "${1-}" = --quick ]; then
    # That build checks each step as it runs, and is some hundred times slower: it takes short lists.
    sed -i 's/125, 1250, 6250/25, 50, 100/' src/main.rt
    rt try --steps 1
else
    rt run
fi
