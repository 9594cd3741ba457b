#!/bin/sh
# How long calls of the lock table take where 100, 1,000 and 10,000 live operations stand on one object, and how much of the first
# number's time that is: under readers, under readers of which all but the last have ended, under the writes of one action, under
# children of one action that wrote and committed, and under such writes of an action two levels further down, each of which was handed
# up to the top action. Last, how long an add takes among the adds of 100 holders on a counter, beside a read among as many reads.
# A figure is such a ratio: the nanoseconds are those of one machine on one day. Each time is the least of several rounds.
# Where one round took more than a second, greater numbers are left out, and a line says so.
# bench/locks.sh           proves the crates and the program, and runs it
# bench/locks.sh --quick   runs a build of the same sources that nothing has proved
# The figures in RESULTS.md come from the first, which has run to its end.
. "$(dirname "$0")/common.sh"
make_program lock_times anyhow cam_base cam_names cam_type cam_know cam_locks
cat > src/main.rt <<'PROGRAM'
//! How long calls of the lock table take.
#![tactic(auto)]

ghost use Rattle.cam_locks.specs.Restored.{CanRestore};

use anyhow::Error;
use cam_base::NoMemory;
use cam_know::Know;
use cam_locks::{Grant, LockTable, may_restore};
use cam_names::{Name, Part};
use cam_type::{
    CounterServer, DataType, HeldList, ObjectDecl, Objects, Op, RegisterServer, State,
};
use std::alloc::Global;
use std::time::{Duration, Instant};

const ROUNDS: u32 = 5;
const CALLS: u32 = 20;
/// Where one round takes longer, in nanoseconds, greater numbers are left out.
const PATIENCE: u128 = 1_000_000_000;

/// A register and a counter.
fn objects(alloc: Global) -> Result<Objects, NoMemory> {
    let mut objects = Objects::new(alloc);
    objects.push(ObjectDecl {
        node: 1,
        start: State::Register(0),
    })?;
    objects.push(ObjectDecl {
        node: 1,
        start: State::Counter(0),
    })?;
    Ok(objects)
}

fn top(number: u32) -> Option<Name> {
    Some(Name::top(Part::new(1, 1, number)?))
}

/// A child of the first top action.
fn child(number: u32) -> Option<Name> {
    top(1)?.child(Part::new(1, 1, number)?)
}

/// The only child of an action.
fn below(name: &Name) -> Option<Name> {
    name.child(Part::new(1, 1, 1)?)
}

/// Asks for an operation, of the counter where it is an add and else of the register, and says whether it was done.
fn ask(table: &mut LockTable, name: &Name, op: &Op) -> Result<bool, NoMemory> {
    match op {
        Op::Add(_) => ask_with(table, name, 1, op, &mut CounterServer::new()),
        _ => ask_with(table, name, 0, op, &mut RegisterServer::new()),
    }
}

fn ask_with<T: DataType>(
    table: &mut LockTable,
    name: &Name,
    object: u8,
    op: &Op,
    server: &mut T,
) -> Result<bool, NoMemory> {
    if !table.takes(object, op) || table.next_index() > 999_999_999 {
        return Ok(false);
    }
    if table.kind(object) != server.kind() {
        return Ok(false);
    }
    let grant = table.try_lock_and_apply(name, object, op, server)?;
    Ok(matches!(grant, Grant::Done(_)))
}

fn commit(table: &mut LockTable, name: &Name) -> Result<(), NoMemory> {
    table.reserve(1)?;
    table.commit(name);
    Ok(())
}

fn abort(table: &mut LockTable, name: &Name) -> Result<(), NoMemory> {
    table.reserve(1)?;
    table.abort(name);
    Ok(())
}

/// One of the ways in which operations come about.
#[derive(Clone, Copy, PartialEq, Eq)]
enum Way {
    Readers,
    EndedReaders,
    Writer,
    HandUp,
    DeepHandUp,
    HundredReaders,
    HundredAdders,
}

/// Whose the operation of a number is: a top action's where there are readers, and else a child's of the writer.
fn actor(way: Way, number: u32) -> Option<Name> {
    match way {
        Way::Readers | Way::EndedReaders => top(number),
        Way::HundredReaders | Way::HundredAdders => top(1 + number % 100),
        _ => child(number),
    }
}

/// A top action reads, and then the one before it commits.
fn read_behind(table: &mut LockTable, name: &Name, number: u32) -> Result<bool, NoMemory> {
    let done = ask(table, name, &Op::Read)?;
    if let Some(before) = top(number.saturating_sub(1)) {
        commit(table, &before)?;
    }
    Ok(done)
}

/// One more operation of a way.
fn one_more(table: &mut LockTable, way: Way, number: u32) -> Result<bool, NoMemory> {
    let Some(name) = actor(way, number) else {
        return Ok(false);
    };
    let write = Op::Write(number as i64);
    match way {
        Way::Readers | Way::HundredReaders => ask(table, &name, &Op::Read),
        Way::HundredAdders => ask(table, &name, &Op::Add(number as i64)),
        Way::EndedReaders => read_behind(table, &name, number),
        Way::Writer => ask(table, &name.family(), &write),
        Way::HandUp => hand_up(table, &name, &write),
        Way::DeepHandUp => deep_hand_up(table, &name, &write),
    }
}

/// An action does an operation and commits.
fn hand_up(table: &mut LockTable, name: &Name, op: &Op) -> Result<bool, NoMemory> {
    let done = ask(table, name, op)?;
    commit(table, name)?;
    Ok(done)
}

/// The child of a child of an action does an operation, and all three commit, the lowest first.
fn deep_hand_up(table: &mut LockTable, name: &Name, op: &Op) -> Result<bool, NoMemory> {
    let (Some(middle), Some(low)) = (below(name), below(name).and_then(|name| below(&name))) else {
        return Ok(false);
    };
    let done = hand_up(table, &low, op)?;
    commit(table, &middle)?;
    commit(table, name)?;
    Ok(done)
}

fn new_table(alloc: Global) -> Result<LockTable, NoMemory> {
    let objects = objects(alloc)?;
    LockTable::new(alloc, &objects, 1)
}

/// Does this many operations.
fn fill(rt: &HostRuntime, table: &mut LockTable, way: Way, count: u32) -> Result<(), Error> {
    let mut done = 0u32;
    for number in 1..=count {
        if one_more(table, way, number)? {
            done = done.saturating_add(1);
        }
    }
    if done != count {
        println!(rt; "{done} of {count} were done")?;
    }
    Ok(())
}

/// What one call takes, in nanoseconds.
#[derive(Clone, Copy)]
struct Times {
    one_more: u128,
    refused: u128,
    dropped: u128,
    value: u128,
    secure: u128,
    restore: u128,
}

impl Times {
    fn least(&self, other: &Times) -> Times {
        Times {
            one_more: self.one_more.min(other.one_more),
            refused: self.refused.min(other.refused),
            dropped: self.dropped.min(other.dropped),
            value: self.value.min(other.value),
            secure: self.secure.min(other.secure),
            restore: self.restore.min(other.restore),
        }
    }
}

fn each(time: Duration) -> u128 {
    time.as_nanos() / CALLS as u128
}

/// One more operation, as those that stand.
fn time_one_more(rt: &HostRuntime, table: &mut LockTable, way: Way, count: u32) -> Result<u128, Error> {
    let start = Instant::now(rt)?;
    let mut refused = 0u32;
    for call in 1..=CALLS {
        if !one_more(table, way, count.saturating_add(call))? {
            refused = refused.saturating_add(1);
        }
    }
    let time = start.elapsed(rt)?;
    if refused > 0 {
        println!(rt; "{refused} were refused, where none is")?;
    }
    Ok(each(time))
}

/// A write of another family, which is refused.
fn time_refused(rt: &HostRuntime, table: &mut LockTable, other: &Name) -> Result<u128, Error> {
    let start = Instant::now(rt)?;
    let mut done = 0u32;
    for call in 1..=CALLS {
        if ask(table, other, &Op::Write(call as i64))? {
            done = done.saturating_add(1);
        }
    }
    let time = start.elapsed(rt)?;
    if done > 0 {
        println!(rt; "{done} were done, where none is")?;
    }
    Ok(each(time))
}

/// An action that reads and aborts: another family's where there are readers, and else a child of the writer.
fn time_dropped(rt: &HostRuntime, table: &mut LockTable, way: Way) -> Result<u128, Error> {
    let start = Instant::now(rt)?;
    let mut refused = 0u32;
    for call in 1..=CALLS {
        let number = call.saturating_add(900_000);
        if !read_and_abort(table, actor(way, number))? {
            refused = refused.saturating_add(1);
        }
    }
    let time = start.elapsed(rt)?;
    if refused > 0 {
        println!(rt; "{refused} were refused, where none is")?;
    }
    Ok(each(time))
}

fn read_and_abort(table: &mut LockTable, name: Option<Name>) -> Result<bool, NoMemory> {
    let Some(name) = name else {
        return Ok(false);
    };
    let done = ask(table, &name, &Op::Read)?;
    abort(table, &name)?;
    Ok(done)
}

/// The value that is handed up past the top.
fn time_value(rt: &HostRuntime, table: &LockTable) -> Result<u128, Error> {
    let start = Instant::now(rt)?;
    for _ in 0..CALLS {
        look(table)?;
    }
    Ok(each(start.elapsed(rt)?))
}

fn look(table: &LockTable) -> Result<(), NoMemory> {
    if table.takes(0, &Op::Read) {
        let _value = table.value(0)?;
    }
    Ok(())
}

/// What is secured of the first top action, for each operation of it.
fn time_secure(rt: &HostRuntime, table: &LockTable, family: &Name) -> Result<u128, Error> {
    let start = Instant::now(rt)?;
    let mut operations = 1u128;
    for _ in 0..CALLS {
        operations = secure(table, family)? as u128;
    }
    Ok(each(start.elapsed(rt)?) / operations.max(1))
}

fn secure(table: &LockTable, family: &Name) -> Result<usize, NoMemory> {
    let held = table.secure(family, 1)?;
    Ok(held.ops.len())
}

/// A restart from what is secured of the first top action, for each operation of it. It is 0 where that cannot be restored.
fn time_restore(rt: &HostRuntime, table: &LockTable, family: &Name) -> Result<u128, Error> {
    let objects = objects(rt.alloc())?;
    let held = table.secure(family, 1)?;
    let operations = held.ops.len().max(1) as u128;
    let mut all = HeldList::new(rt.alloc());
    all.push(held)?;
    if !may_restore(rt.alloc(), &objects, 1, &all)? {
        return Ok(0);
    }
    Ok(time_restart(rt, &objects, &all)? / operations)
}

fn time_restart(rt: &HostRuntime, objects: &Objects, all: &HeldList) -> Result<u128, Error>
    requires { CanRestore objects.now 1 all.now }
{
    let start = Instant::now(rt)?;
    restore(rt.alloc(), objects, all)?;
    Ok(start.elapsed(rt)?.as_nanos())
}

fn restore(alloc: Global, objects: &Objects, all: &HeldList) -> Result<(), NoMemory>
    requires { CanRestore objects.now 1 all.now }
{
    let know = Know::new(alloc);
    let _restored = LockTable::restore(alloc, objects, 1, all, &know)?;
    Ok(())
}

fn measure_once(rt: &HostRuntime, way: Way, count: u32) -> Result<Times, Error> {
    let mut table = new_table(rt.alloc())?;
    fill(rt, &mut table, way, count)?;
    time_all(rt, &mut table, way, count)
}

fn time_all(rt: &HostRuntime, table: &mut LockTable, way: Way, count: u32) -> Result<Times, Error> {
    let first = Name::parse("1.1.1")?;
    let other = Name::parse("1.1.999999999")?;
    Ok(Times {
        value: time_value(rt, table)?,
        secure: time_secure(rt, table, &first)?,
        restore: time_restore(rt, table, &first)?,
        refused: time_refused(rt, table, &other)?,
        one_more: time_one_more(rt, table, way, count)?,
        dropped: time_dropped(rt, table, way)?,
    })
}

/// The least times of some rounds, of which the first has been.
fn measure(rt: &HostRuntime, way: Way, count: u32, first: &Times) -> Result<Times, Error> {
    let mut times = *first;
    for _ in 1..ROUNDS {
        times = times.least(&measure_once(rt, way, count)?);
    }
    Ok(times)
}

/// A time, and how many hundredths of the first number's it is.
fn show(rt: &HostRuntime, what: &str, time: u128, first: u128) -> Result<(), Error> {
    let hundredths = time.saturating_mul(100) / first.max(1);
    println!(rt; "  {what}: {time} ns, {hundredths} hundredths of the first")?;
    Ok(())
}

fn show_all(rt: &HostRuntime, times: &Times, first: &Times) -> Result<(), Error> {
    show(rt, "one more is granted", times.one_more, first.one_more)?;
    show(rt, "another family's write is refused", times.refused, first.refused)?;
    show(rt, "an action reads and aborts", times.dropped, first.dropped)?;
    show(rt, "the value past the top", times.value, first.value)?;
    show(rt, "what is secured, for an operation", times.secure, first.secure)?;
    show(rt, "a restart from it, for an operation", times.restore, first.restore)
}

/// The times of one number, and whether they came soon enough to go on.
fn show_count(rt: &HostRuntime, what: &str, way: Way, count: u32, first: &mut Option<Times>) -> Result<bool, Error> {
    let start = Instant::now(rt)?;
    let once = measure_once(rt, way, count)?;
    let is_soon = start.elapsed(rt)?.as_nanos() < PATIENCE;
    let times = if is_soon { measure(rt, way, count, &once)? } else { once };
    println!(rt; "{count} live operations, {what}")?;
    let base = first.unwrap_or(times);
    *first = Some(base);
    show_all(rt, &times, &base)?;
    Ok(is_soon)
}

fn show_way(rt: &HostRuntime, what: &str, way: Way) -> Result<(), Error> {
    let mut first = None;
    for count in [100, 1_000, 10_000] {
        if !show_count(rt, what, way, count, &mut first)? && count < 10_000 {
            println!(rt; "more than {count}, {what}: left out, since this took more than a second")?;
            break;
        }
    }
    Ok(())
}

/// What one more operation takes, the least of some rounds.
fn least_grant(rt: &HostRuntime, way: Way, count: u32) -> Result<u128, Error> {
    let mut least = u128::MAX;
    for _ in 0..ROUNDS {
        let mut table = new_table(rt.alloc())?;
        fill(rt, &mut table, way, count)?;
        least = least.min(time_one_more(rt, &mut table, way, count)?);
    }
    Ok(least)
}

/// An add among the adds of 100 holders, beside a read among as many reads.
fn show_adds(rt: &HostRuntime) -> Result<(), Error> {
    for count in [100, 1_000, 10_000] {
        let read = least_grant(rt, Way::HundredReaders, count)?;
        let add = least_grant(rt, Way::HundredAdders, count)?;
        println!(rt; "{count} live operations of 100 holders: a read {read} ns")?;
        show(rt, "an add, to a read", add, read)?;
    }
    Ok(())
}

fn main(rt: HostRuntime) -> Result<(), Error> {
    show_way(&rt, "each the read of a top action", Way::Readers)?;
    show_way(&rt, "each the read of a top action, of which all but the last committed", Way::EndedReaders)?;
    show_way(&rt, "writes of one top action", Way::Writer)?;
    show_way(&rt, "each the write of a child that committed", Way::HandUp)?;
    show_way(&rt, "each the write of a child of a child of a child, which all committed", Way::DeepHandUp)?;
    show_adds(&rt)
}
PROGRAM
if [ "${1-}" = --quick ]; then
    # That build checks each step as it runs, and is a thousand times slower.
    sed -i 's/const ROUNDS: u32 = 5/const ROUNDS: u32 = 1/; s/const CALLS: u32 = 20/const CALLS: u32 = 2/; s/, 1_000, 10_000\]/, 200]/' src/main.rt
    rt try --steps 1
else
    rt run
fi
