#!/bin/sh
# How long a record takes, growth of the seat's list counted in, and making room that is there: each as a ratio to one bare atomic increment.
# A figure is such a ratio: the nanoseconds are those of one machine on one day. Each time is the least of several rounds.
# bench/journal.sh           proves the crates and the program, and runs it
# bench/journal.sh --quick   runs a build of the same sources that nothing has proved
. "$(dirname "$0")/common.sh"
make_program journal_times anyhow cam_base cam_journal
cat > src/main.rt <<'PROGRAM'
//! How long a record takes.
#![tactic(auto)]

ghost use Rattle.std.specs.Prelude.{◌≡◌, ◌↔◌, None, IsNone, IsTrue, IfOk, false};
ghost use Rattle.cam_journal.specs.Taking.{IsStep, FaultsWithCause};

use anyhow::Error;
use cam_base::NoMemory;
use cam_journal::{Core, CoreFault, CoreInput, Journal, NodeSeat, ReserveFault};
use std::alloc::Global;
use std::sync::atomic::{AtomicU64, Ordering};
use std::time::Instant;

const ROUNDS: u32 = 5;
const EVENTS: u32 = 1_000_000;

/// A core whose events are numbers, and which sends no letters.
#[derive(Drop)]
struct Numbers;

impl Core for Numbers {
    type Event = u64;

    type Letter = u64;

    ghost use Rattle.std.specs.Prelude.{[], None, false};

    ghost faults = { λ core. 0 };

    ghost names = { λ event. None };

    ghost sends = { λ event. [] };

    ghost goes_to = { λ letter. 1 };

    ghost copied = { λ letter. 1 };

    ghost lawful = { λ node history received event. Unit {0} };

    ghost is_replay = { λ core node history. Unit {0} };

    ghost is_idle = { λ core input. false };

    fn step(&mut self, input: CoreInput<u64>) -> Result<Option<u64>, CoreFault>
        ensures step { IsStep (λ core node history. Unit {0}) (λ event. None) (λ letter. 1) (λ node history received event. Unit {0}) self.old input self.new result }
        ensures none { IfOk result (λ made. IsNone made ↔ IsTrue false) }
        ensures cause { FaultsWithCause 0 0 result }
    {
        drop(input);
        Ok(Some(0))
    }

    fn idle(&self, _input: &CoreInput<u64>) -> bool {
        false
    }

    fn copies(_letter: &u64) -> u8 {
        1
    }

    fn to(_letter: &u64) -> u8 {
        1
    }

    fn letters(_event: &u64) -> u32 {
        0
    }

    fn letter(_event: &u64, _place: u32) -> Result<u64, NoMemory> {
        unreachable!()
    }

    fn copy(letter: &u64) -> Result<u64, NoMemory> {
        Ok(*letter)
    }
}

/// A journal of one node, with its seat.
#[derive(Drop)]
struct Desk {
    journal: Journal<Numbers>,
    seat: NodeSeat<Numbers>,
    ghost own: { seat.journal ≡ journal.id },
}

#[tactic(auto, using(cam_journal::proofs::Pairs::last_own))]
fn open(alloc: Global) -> Result<Option<Desk>, NoMemory> {
    let (journal, mut seats) = Journal::<Numbers>::open(alloc, 1)?;
    let Some(seat) = seats.pop() else {
        return Ok(None);
    };
    Ok(Some(Desk { journal, seat }))
}

impl Desk {
    fn reserve(&mut self) -> Result<(), ReserveFault> {
        self.journal.reserve(&mut self.seat)
    }

    fn record(&mut self, number: u64) -> Result<(), ReserveFault> {
        self.journal.reserve(&mut self.seat)?;
        self.journal.record(&mut self.seat, number);
        Ok(())
    }
}

/// What was measured, for so many events.
#[derive(Clone, Copy)]
struct Times {
    increments: u128,
    reserves: u128,
    records: u128,
}

/// The time of so many increments of one atomic word.
fn increments(rt: &HostRuntime) -> Result<u128, Error> {
    let word = AtomicU64::new(0);
    let start = Instant::now(rt)?;
    for _ in 0..EVENTS {
        word.fetch_add(1, Ordering::SeqCst);
    }
    let time = start.elapsed(rt)?.as_nanos();
    if word.into_inner() != EVENTS as u64 {
        println!(rt; "the word has another value")?;
    }
    Ok(time)
}

fn measure(rt: &HostRuntime, desk: &mut Desk) -> Result<Times, Error> {
    let start = Instant::now(rt)?;
    for number in 0..EVENTS {
        desk.record(number as u64)?;
    }
    let records = start.elapsed(rt)?.as_nanos();
    let start = Instant::now(rt)?;
    for _ in 0..EVENTS {
        desk.reserve()?;
    }
    let reserves = start.elapsed(rt)?.as_nanos();
    Ok(Times {
        increments: increments(rt)?,
        reserves,
        records,
    })
}

/// A time for each event, and how many hundredths of an increment's it is.
fn show(rt: &HostRuntime, what: &str, time: u128, increments: u128) -> Result<(), Error> {
    let each = time.saturating_mul(100) / EVENTS.max(1) as u128;
    let hundredths = time.saturating_mul(100) / increments.max(1);
    println!(rt; "{what}: {each} hundredths of a nanosecond, {hundredths} hundredths of an increment")?;
    Ok(())
}

fn main(rt: HostRuntime) -> Result<(), Error> {
    let mut least = Times {
        increments: u128::MAX,
        reserves: u128::MAX,
        records: u128::MAX,
    };
    for _ in 0..ROUNDS {
        let Some(mut desk) = open(rt.alloc())? else {
            return Ok(());
        };
        let times = measure(&rt, &mut desk)?;
        least.increments = least.increments.min(times.increments);
        least.reserves = least.reserves.min(times.reserves);
        least.records = least.records.min(times.records);
    }
    show(&rt, "atomic increment", least.increments, least.increments)?;
    show(&rt, "room that is there", least.reserves, least.increments)?;
    show(&rt, "room and record", least.records, least.increments)?;
    let alone = least.records.saturating_sub(least.reserves);
    show(&rt, "record", alone, least.increments)?;
    Ok(())
}
PROGRAM
if [ "${1-}" = --quick ]; then
    # That build checks each step as it runs, and is a thousand times slower.
    sed -i 's/= 1_000_000;/= 1_000;/' src/main.rt
    rt try --steps 1
else
    rt run
fi
