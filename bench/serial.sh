#!/bin/sh
# How long serial lists and their replay take on legal lists of 1,000, 10,000 and 50,000 deeds, and how often that is the time of the
# first. A figure is such a ratio: the nanoseconds are those of one machine on one day. Each time is the least of four rounds.
# Ten times the deeds in ten times the time is a cost that grows with the deeds. From 1,000 to 10,000 the logarithm adds a third, and
# tables that are larger than the processor's caches add more.
# In these lists one top action after another has a child that writes one of eight registers and a child that is aborted, both actions
# commit, and two other nodes crash.
# bench/serial.sh           proves the crates and the program, and runs it
# bench/serial.sh --quick   runs a build of the same sources that nothing has proved
# The figures in RESULTS.md come from the first, which has run to its end.
. "$(dirname "$0")/common.sh"
make_program serial_times anyhow cam_base cam_names cam_type cam_event cam_serial
cat > src/main.rt <<'PROGRAM'
//! How long serial lists and their replay take.
#![tactic(auto)]

use anyhow::Error;
use cam_event::{Deed, Deeds, Seen};
use cam_names::{Name, Part};
use cam_serial::{replays, serial};
use cam_type::{Answer, ObjectDecl, Objects, Op, State};
use std::time::Instant;

/// One top action with a child that writes and a child that is aborted, in twenty deeds.
fn a_write(action: Name, child: Name, lost: Name, object: u8) -> [Deed; 20] {
    [
        Deed::Create { action },
        Deed::Ask { action, child },
        Deed::Create { action: child },
        Deed::Call {
            action: child,
            number: 1,
            object,
            op: Op::Write(5),
            count: 1,
        },
        Deed::Perform {
            action: child,
            number: 1,
            answer: Answer::Ok,
        },
        Deed::Got {
            action: child,
            number: 1,
            seen: Seen::Done(Answer::Ok),
        },
        Deed::AskCommit {
            action: child,
            value: 0,
        },
        Deed::Commit { action: child },
        Deed::Inform {
            site: 1,
            name: child,
            committed: true,
        },
        Deed::Ask {
            action,
            child: lost,
        },
        Deed::Create { action: lost },
        Deed::Abort { action: lost },
        Deed::Inform {
            site: 1,
            name: lost,
            committed: false,
        },
        Deed::AskCommit { action, value: 0 },
        Deed::Secure {
            family: action,
            site: 1,
            count: 1,
        },
        Deed::Commit { action },
        Deed::Inform {
            site: 1,
            name: action,
            committed: true,
        },
        Deed::Inform {
            site: 2,
            name: action,
            committed: true,
        },
        Deed::Crash { site: 2 },
        Deed::Crash { site: 3 },
    ]
}

/// So many top actions, one after another.
fn writes(rt: &HostRuntime, actions: u32) -> Result<Deeds, Error> {
    let mut deeds = Deeds::new(rt.alloc());
    for number in 1..=actions {
        if let (Some(top), Some(one), Some(two)) = (Part::new(1, 1, number), Part::new(1, 1, 1), Part::new(1, 1, 2)) {
            let action = Name::top(top);
            if let (Some(child), Some(lost)) = (action.child(one), action.child(two)) {
                for deed in &a_write(action, child, lost, (number % 8) as u8) {
                    deeds.push_copy(deed)?;
                }
            }
        }
    }
    Ok(deeds)
}

/// The times of one serial list, and of its replay.
fn measure_once(rt: &HostRuntime, deeds: &Deeds, objects: &Objects) -> Result<(u128, u128), Error> {
    let start = Instant::now(rt)?;
    let list = serial(rt.alloc(), deeds, objects, None)?;
    let made = start.elapsed(rt)?.as_nanos();
    let start = Instant::now(rt)?;
    replays(rt.alloc(), &list, objects)?;
    Ok((made, start.elapsed(rt)?.as_nanos()))
}

/// The least times of some rounds.
fn measure(rt: &HostRuntime, actions: u32) -> Result<(u128, u128), Error> {
    let mut objects = Objects::new(rt.alloc());
    for _ in 0..8 {
        objects.push(ObjectDecl {
            node: 1,
            start: State::Register(0),
        })?;
    }
    let deeds = writes(rt, actions)?;
    let mut least = measure_once(rt, &deeds, &objects)?;
    for _ in 0..3 {
        let times = measure_once(rt, &deeds, &objects)?;
        least = (least.0.min(times.0), least.1.min(times.1));
    }
    Ok(least)
}

fn main(rt: HostRuntime) -> Result<(), Error> {
    let first = measure(&rt, 50)?;
    for actions in [50u32, 500, 2500] {
        let times = if actions == 50 { first } else { measure(&rt, actions)? };
        let made = times.0.saturating_mul(10) / first.0.max(1);
        let replayed = times.1.saturating_mul(10) / first.1.max(1);
        let deeds = actions.saturating_mul(20);
        println!(rt; "{deeds} deeds: serial {} ns, {made} tenths of the first; replays {} ns, {replayed} tenths", times.0, times.1)?;
    }
    Ok(())
}
PROGRAM
if [ "${1-}" = --quick ]; then
    # That build checks each step as it runs, and is some hundred times slower: it does not take the longest lists.
    sed -i 's/50u32, 500, 2500/50u32, 500/' src/main.rt
    rt try --steps 1
else
    rt run
fi
