#!/bin/sh
# How long an orphan test, joins and additions take where 10, 100, 500 and 1,000 outcomes are known, and how much of the first
# run's time that is.
# In the last line of each run all of them are commits of one name, with as many dependency sets.
# A figure is such a ratio: the nanoseconds are those of one machine on one day. Each time is the least of several rounds.
# bench/know.sh           proves the crates and the program, and runs it
# bench/know.sh --quick   runs a build of the same sources that nothing has proved
# The figures in RESULTS.md come from the first, which has run to its end.
. "$(dirname "$0")/common.sh"
make_program know_times anyhow cam_base cam_names cam_know cam_orphan
cat > src/main.rt <<'PROGRAM'
//! How long an orphan test, joins and additions take.
#![tactic(auto)]

use anyhow::Error;
use cam_know::{Know, Outcome};
use cam_names::{Deps, Name, Part};
use cam_orphan::orphan;
use std::time::Instant;

const ROUNDS: u32 = 20;
const TESTS: u32 = 2_000;
const JOINS: u32 = 200;
const NODES: u32 = 10;
const LETTER: u32 = 10;

/// The commit of a child of a top action.
fn child(top: &Name, number: u32) -> Option<Outcome> {
    let name = top.child(Part::new(2, 1, number)?)?;
    Some(Outcome::Committed(name, Deps::none().with(2, 1)))
}

/// The commit of one child, with this count among its dependencies.
fn commit_at(top: &Name, count: u32) -> Option<Outcome> {
    let name = top.child(Part::new(2, 1, 1)?)?;
    Some(Outcome::Committed(name, Deps::none().with(3, count.clamp(1, 1_000))))
}

/// Knowledge of the commits of the children with these numbers.
fn family(rt: &HostRuntime, top: &Name, first: u32, last: u32) -> Result<Know, Error> {
    let mut know = Know::new(rt.alloc());
    for number in first..=last {
        if let Some(outcome) = child(top, number) {
            know.add(&outcome)?;
        }
    }
    Ok(know)
}

/// Knowledge of the commit of one child, with each of these counts.
fn commits_of_one(rt: &HostRuntime, top: &Name, first: u32, last: u32) -> Result<Know, Error> {
    let mut know = Know::new(rt.alloc());
    for count in first..=last {
        if let Some(outcome) = commit_at(top, count) {
            know.add(&outcome)?;
        }
    }
    Ok(know)
}

/// The time of one orphan test of an action of eight parts.
fn orphan_test(rt: &HostRuntime, know: &Know) -> Result<u128, Error> {
    let deep = Name::parse("1.1.1/1.1.2/1.1.3/1.1.4/1.1.5/1.1.6/1.1.7/1.1.8")?;
    let own = Deps::none().with(1, 1);
    let start = Instant::now(rt)?;
    let mut orphans = 0u32;
    for _ in 0..TESTS {
        if orphan(know, &deep, &own).is_some() {
            orphans = orphans.saturating_add(1);
        }
    }
    let time = start.elapsed(rt)?.as_nanos() / TESTS as u128;
    if orphans > 0 {
        println!(rt; "{orphans} orphans, where none is")?;
    }
    Ok(time)
}

/// The time of a join of a letter that brings nothing new.
fn join_again(rt: &HostRuntime, know: &mut Know, letter: &Know) -> Result<u128, Error> {
    let start = Instant::now(rt)?;
    for _ in 0..JOINS {
        know.join(letter)?;
    }
    Ok(start.elapsed(rt)?.as_nanos() / JOINS as u128)
}

/// What a letter brings whose ten outcomes are all new where this many children are known.
fn letter_of_new(rt: &HostRuntime, top: &Name, children: u32) -> Result<Know, Error> {
    let first = children.saturating_add(1);
    family(rt, top, first, children.saturating_add(LETTER))
}

/// What some nodes know, each the commits of this many children.
fn nodes_that_know(rt: &HostRuntime, top: &Name, children: u32) -> Result<Vec<Know>, Error> {
    let mut nodes = Vec::new(rt.alloc());
    for _ in 0..NODES {
        nodes.push(family(rt, top, 1, children)?)?;
    }
    Ok(nodes)
}

/// The time of a join of a letter whose ten outcomes are all new.
fn join_new(rt: &HostRuntime, top: &Name, children: u32) -> Result<u128, Error> {
    let letter = letter_of_new(rt, top, children)?;
    let mut nodes = nodes_that_know(rt, top, children)?;
    let start = Instant::now(rt)?;
    for know in nodes.iter_mut() {
        know.join(&letter)?;
    }
    Ok(start.elapsed(rt)?.as_nanos() / NODES as u128)
}

/// The time of adding a letter's ten outcomes one by one, where all are known.
fn add_again(rt: &HostRuntime, know: &mut Know, letter: &Know) -> Result<u128, Error> {
    let start = Instant::now(rt)?;
    for _ in 0..JOINS {
        for outcome in letter.outcomes() {
            know.add(outcome)?;
        }
    }
    Ok(start.elapsed(rt)?.as_nanos() / JOINS as u128)
}

/// The time of adding ten new outcomes one by one.
fn add_new(rt: &HostRuntime, top: &Name, children: u32) -> Result<u128, Error> {
    let letter = letter_of_new(rt, top, children)?;
    let mut nodes = nodes_that_know(rt, top, children)?;
    let start = Instant::now(rt)?;
    for know in nodes.iter_mut() {
        for outcome in letter.outcomes() {
            know.add(outcome)?;
        }
    }
    Ok(start.elapsed(rt)?.as_nanos() / NODES as u128)
}

/// The time for each outcome of a join into nothing.
fn join_all(rt: &HostRuntime, know: &Know) -> Result<u128, Error> {
    let start = Instant::now(rt)?;
    for _ in 0..JOINS {
        let mut all = Know::new(rt.alloc());
        all.join(know)?;
    }
    let outcomes = know.len().max(1) as u128;
    Ok(start.elapsed(rt)?.as_nanos() / JOINS as u128 / outcomes)
}

/// What was measured.
#[derive(Clone, Copy)]
struct Times {
    orphan_test: u128,
    join_new: u128,
    join_again: u128,
    add_new: u128,
    add_again: u128,
    join_all: u128,
    one_name: u128,
}

impl Times {
    fn least(&self, other: &Times) -> Times {
        Times {
            orphan_test: self.orphan_test.min(other.orphan_test),
            join_new: self.join_new.min(other.join_new),
            join_again: self.join_again.min(other.join_again),
            add_new: self.add_new.min(other.add_new),
            add_again: self.add_again.min(other.add_again),
            join_all: self.join_all.min(other.join_all),
            one_name: self.one_name.min(other.one_name),
        }
    }
}

fn measure_once(rt: &HostRuntime, children: u32) -> Result<Times, Error> {
    let top = Name::parse("1.1.1")?;
    let mut know = family(rt, &top, 1, children)?;
    let letter = family(rt, &top, 1, LETTER)?;
    let mut one = commits_of_one(rt, &top, 1, children)?;
    let last = children.saturating_sub(LETTER).saturating_add(1);
    let again = commits_of_one(rt, &top, last, children)?;
    Ok(Times {
        orphan_test: orphan_test(rt, &know)?,
        join_new: join_new(rt, &top, children)?,
        join_again: join_again(rt, &mut know, &letter)?,
        add_new: add_new(rt, &top, children)?,
        add_again: add_again(rt, &mut know, &letter)?,
        join_all: join_all(rt, &know)?,
        one_name: join_again(rt, &mut one, &again)?,
    })
}

fn measure(rt: &HostRuntime, children: u32) -> Result<Times, Error> {
    let mut times = measure_once(rt, children)?;
    for _ in 0..ROUNDS {
        times = times.least(&measure_once(rt, children)?);
    }
    Ok(times)
}

/// A time, and how many hundredths of the first run's it is.
fn show(rt: &HostRuntime, what: &str, time: u128, first: u128) -> Result<(), Error> {
    let hundredths = time.saturating_mul(100) / first.max(1);
    println!(rt; "  {what}: {time} ns, {hundredths} hundredths of the first")?;
    Ok(())
}

fn main(rt: HostRuntime) -> Result<(), Error> {
    let first = measure(&rt, 10)?;
    for children in [10, 100, 500, 1_000] {
        let times = if children == 10 { first } else { measure(&rt, children)? };
        println!(rt; "{children} outcomes")?;
        show(&rt, "orphan test", times.orphan_test, first.orphan_test)?;
        show(&rt, "join of 10 new outcomes", times.join_new, first.join_new)?;
        show(&rt, "join of 10 known outcomes", times.join_again, first.join_again)?;
        show(&rt, "addition of 10 new outcomes", times.add_new, first.add_new)?;
        show(&rt, "addition of 10 known outcomes", times.add_again, first.add_again)?;
        show(&rt, "join into nothing, for each outcome", times.join_all, first.join_all)?;
        show(&rt, "join of 10 known dependency sets of one name", times.one_name, first.one_name)?;
    }
    Ok(())
}
PROGRAM
if [ "${1-}" = --quick ]; then
    # That build checks each step as it runs, and is a thousand times slower.
    sed -i 's/= 20;/= 1;/; s/= 2_000;/= 20;/; s/= 200;/= 4;/' src/main.rt
    rt try --steps 1
else
    rt run
fi
