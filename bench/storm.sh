#!/bin/sh
# How many events of a storm the threads make in a second, calm and rough, with 1, 2 and 4 workers for each node: each as a ratio to one worker
# for each node. And the same with a gate that lets one worker of all at a time take its turn, as if one lock stood round the hall; and a run of a
# script that has as many events as a calm storm, without threads.
# A figure is such a ratio of one run: the events a second are those of one machine on one day. Each is the median of several rounds, in each of
# which all ways take their turn, one after another, so what else the machine does slows all of them.
# bench/storm.sh           proves the crates and the program, and runs it
# bench/storm.sh --quick   runs a build of the same sources that nothing has proved
. "$(dirname "$0")/common.sh"
make_program storm_times anyhow cam_base cam_type cam_event cam_disk cam_script cam_gen cam_hall cam_cluster cam_storm_run
cp "$top/HANDLES" ../../HANDLES
cat > src/main.rt <<'PROGRAM'
//! How many events of a storm there are in a second.
#![tactic(auto)]

ghost use Rattle.std.specs.Prelude.{◌≡◌, ◌≤◌, IfOk, length};
ghost use Rattle.cam_script.specs.Law.{IsScript};

use anyhow::{Error, anyhow};
use cam_cluster::{RunFault, Servers, run_script};
use cam_disk::MemoryDisk;
use cam_gen::Storm;
use cam_hall::{Gate, OpenGate};
use cam_script::{Script, parse};
use cam_storm_run::run_storm;
use cam_type::{CounterServer, QueueServer, RegisterServer};
use std::alloc::{AllocFailed, Global};
use std::fmt::Write;
use std::sync::Wait;
use std::sync::atomic::{AtomicU64, Ordering};
use std::thread::{Threads, yield_now};
use std::time::Instant;

const ROUNDS: u32 = 5;

const ACTIONS: u32 = 64;

/// How many actions the script has.
const SCRIPT_ACTIONS: u32 = 34;

/// How often a worker looks for its turn before it takes it from one that has ended.
const PATIENCE: u32 = 100_000;

/// Lets one worker of all at a time take its turn: the next begins when it ends. It holds the number
/// of the worker whose turn it is, from 1, or 0.
#[derive(Drop)]
struct OneAtATime {
    turn: AtomicU64,
}

impl OneAtATime {
    fn end(&self, worker: u64) {
        if self.turn.load(Ordering::SeqCst) == worker {
            self.turn.store(0, Ordering::SeqCst);
        }
    }
}

impl Gate for OneAtATime {
    fn before(&self, worker: u32, _step: u32) -> bool {
        let own = u64::from(worker) + 1;
        self.end(own);
        for _ in 0..PATIENCE {
            let found = self.turn.compare_exchange(0, own, Ordering::SeqCst, Ordering::SeqCst);
            if found.is_ok() {
                return true;
            }
            yield_now();
        }
        self.turn.store(own, Ordering::SeqCst);
        true
    }

    fn after(&self, worker: u32, _step: u32) {
        self.end(u64::from(worker) + 1);
    }
}

/// Who takes the steps.
#[derive(Clone, Copy)]
enum Way {
    /// So many workers for each node.
    Workers(u32),
    /// Four for each node, of which one of all at a time takes its turn.
    OneOfFour,
    /// A run of a script, without threads.
    Run,
}

/// How many events a storm had, and how long it took.
#[derive(Clone, Copy)]
struct Times {
    events: u128,
    nanoseconds: u128,
}

impl Times {
    fn in_a_second(&self) -> u128 {
        self.events.saturating_mul(1_000_000_000) / self.nanoseconds.max(1)
    }
}

fn four_disks(alloc: Global) -> Result<Vec<MemoryDisk>, AllocFailed<MemoryDisk>>
    ensures { IfOk result (λ disks. length disks.items ≡ 4) }
{
    let mut disks = Vec::new(alloc);
    disks.push(MemoryDisk::new(alloc))?;
    disks.push(MemoryDisk::new(alloc))?;
    disks.push(MemoryDisk::new(alloc))?;
    disks.push(MemoryDisk::new(alloc))?;
    Ok(disks)
}

/// One storm of this seed.
fn storm<R: Threads + Wait + Sync, G: Gate + Sync>(
    rt: &HostRuntime,
    handle: &R,
    seed: u64,
    calm: bool,
    threads: u32,
    gate: &G,
) -> Result<Times, Error>
    requires { (1 ≤ threads) × (threads ≤ 4) }
{
    let words = Storm {
        seed,
        actions: ACTIONS,
        calm,
    };
    let Ok(mut disks) = four_disks(rt.alloc()) else {
        return Err(anyhow!("out of memory"));
    };
    let start = Instant::now(rt)?;
    let trace = match run_storm(handle, rt.alloc(), &words, threads, gate, &mut disks) {
        Ok(trace) => trace,
        Err(RunFault::DiskFault(_)) => return Err(anyhow!("a disk failed")),
        Err(RunFault::NoMemory) => return Err(anyhow!("out of memory")),
    };
    Ok(Times {
        events: trace.len() as u128,
        nanoseconds: start.elapsed(rt)?.as_nanos(),
    })
}

fn show(rt: &HostRuntime, what: &str, events: u128, one: u128) -> Result<(), Error> {
    let hundredths = events.saturating_mul(100) / one.max(1);
    println!(rt; "  {what}: {events} events a second, {hundredths} hundredths of one worker's")?;
    Ok(())
}

/// A script of so many actions, each of which calls a counter of each of four nodes and commits, in a
/// play of its own: 26 events each.
fn script_text(alloc: Global, actions: u32) -> Result<String, Error> {
    let mut text = String::new(alloc);
    text.push_str("nodes 4\n")?;
    for at in 1..=4 {
        write!(text, "object c{at} {at} counter 0\n")?;
    }
    text.push_str("body calls\n")?;
    for at in 1..=4 {
        write!(text, "call 2 c{at} add 1\n")?;
    }
    text.push_str("commit 0\nend\n")?;
    for action in 0..actions {
        let at = action % 4 + 1;
        write!(text, "start A{action} {at} calls\nplay\n")?;
    }
    Ok(text)
}

/// A run of a script.
fn run(rt: &HostRuntime, script: &Script) -> Result<Times, Error>
    requires script { IsScript script.now }
{
    let Ok(mut disks) = four_disks(rt.alloc()) else {
        return Err(anyhow!("out of memory"));
    };
    if script.nodes != 4 {
        return Err(anyhow!("the script is of other nodes"));
    }
    let mut servers = Servers {
        register: RegisterServer::new(),
        queue: QueueServer::new(rt.alloc()),
        counter: CounterServer::new(),
    };
    let start = Instant::now(rt)?;
    let Ok(record) = run_script(rt.alloc(), script, &mut disks, &mut servers) else {
        return Err(anyhow!("the run failed"));
    };
    Ok(Times {
        events: record.trace.len() as u128,
        nanoseconds: start.elapsed(rt)?.as_nanos(),
    })
}

/// How many events there are in a second this way, in a storm of this seed or a run of the script.
fn measured<R: Threads + Wait + Sync>(
    rt: &HostRuntime,
    handle: &R,
    script: &Script,
    way: Way,
    seed: u64,
    calm: bool,
) -> Result<u128, Error>
    requires script { IsScript script.now }
{
    let times = match way {
        Way::Workers(1) => storm(rt, handle, seed, calm, 1, &OpenGate)?,
        Way::Workers(2) => storm(rt, handle, seed, calm, 2, &OpenGate)?,
        Way::Workers(_) => storm(rt, handle, seed, calm, 4, &OpenGate)?,
        Way::OneOfFour => {
            let gate = OneAtATime {
                turn: AtomicU64::new(0),
            };
            storm(rt, handle, seed, calm, 4, &gate)?
        }
        Way::Run => run(rt, script)?,
    };
    Ok(times.in_a_second())
}

fn median(mut rates: Vec<u128>) -> Result<u128, Error> {
    rates.sort()?;
    Ok(rates.get(rates.len() / 2).copied().unwrap_or(0))
}

/// All ways, in rounds: a line for each.
fn compare<R: Threads + Wait + Sync>(
    rt: &HostRuntime,
    handle: &R,
    script: &Script,
    calm: bool,
) -> Result<(), Error>
    requires script { IsScript script.now }
{
    let alloc = rt.alloc();
    let (mut one, mut two, mut four) = (Vec::new(alloc), Vec::new(alloc), Vec::new(alloc));
    let (mut in_turn, mut runs) = (Vec::new(alloc), Vec::new(alloc));
    for round in 0..ROUNDS {
        let seed = u64::from(round);
        one.push(measured(rt, handle, script, Way::Workers(1), seed, calm)?)?;
        two.push(measured(rt, handle, script, Way::Workers(2), seed, calm)?)?;
        four.push(measured(rt, handle, script, Way::Workers(4), seed, calm)?)?;
        runs.push(measured(rt, handle, script, Way::Run, seed, calm)?)?;
    }
    // (once, since beside other work each change of turns waits for a processor)
    in_turn.push(measured(rt, handle, script, Way::OneOfFour, 0, calm)?)?;
    let one = median(one)?;
    show(rt, "1 worker a node", one, one)?;
    show(rt, "2 workers a node", median(two)?, one)?;
    show(rt, "4 workers a node", median(four)?, one)?;
    show(rt, "4 workers a node, one turn at a time", median(in_turn)?, one)?;
    show(rt, "the run of a script", median(runs)?, one)
}

fn main(rt: HostRuntime) -> Result<(), Error> {
    let text = script_text(rt.alloc(), SCRIPT_ACTIONS)?;
    let script = parse(rt.alloc(), text.as_bytes())?;
    let events = run(&rt, &script)?.events;
    println!(&rt; "storms of {ACTIONS} actions; a script of {events} events")?;
    for calm in [true, false] {
        let mode = if calm { "calm" } else { "rough" };
        println!(&rt; "{mode}")?;
        compare(&rt, &rt, &script, calm)?;
    }
    Ok(())
}
PROGRAM
if [ "${1-}" = --quick ]; then
    rt try --seconds 400
else
    rt run
fi
