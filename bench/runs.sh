#!/bin/sh
# How long whole runs of scripts take for each of their events, and how long the report of such a run takes for each of them, and how often
# that is the time of the first size. A figure is such a ratio, or a share of the whole: the nanoseconds are those of one machine on one day.
# Each time is the least of several rounds. A script costs 512 at most, so that the longest have some thousand events.
# Seven families of scripts, over eight nodes whose disks are in memory, each a block that stands so many times:
#   calls               an action that calls a counter of each node, with tries to spare, and commits; each in a play of its own
#   calls in one play   the same actions, and one play of them all
#   short actions       an action that only commits; each in a play of its own
#   children            an action with a child at each node, which all commit; each in a play of its own
#   restarts            an action that calls two counters and commits, in a play of its own, and a restart of its node
#   bare restarts       the begin of an action, and a restart of its node
#   losses              an action by hand, of whose letters two are lost and two come twice
# The program fails where a run does not have as many events as its blocks must make.
# bench/runs.sh           proves the crates and the program, and runs it
# bench/runs.sh --quick   runs a build of the same sources that nothing has proved
. "$(dirname "$0")/common.sh"
make_program run_times anyhow cam_base cam_type cam_event cam_disk cam_script cam_cluster cam_report
cat > src/main.rt <<'PROGRAM'
//! How long whole runs of scripts, and their reports, take.
#![tactic(auto)]

ghost use Rattle.cam_script.specs.Law.{IsScript};

use anyhow::Error;
use cam_base::NoMemory;
use cam_cluster::{RunFault, Servers, run_script};
use cam_disk::MemoryDisk;
use cam_event::RunRecord;
use cam_report::report_text;
use cam_script::{Script, parse};
use cam_type::{CounterServer, QueueServer, RegisterServer};
use std::alloc::Global;
use std::fmt::Write;
use std::time::Instant;

const ROUNDS: u32 = 8;

const NODES: u32 = 8;

/// What a block of a script does.
#[derive(Clone, Copy)]
enum Family {
    Calls,
    CallsAtOnce,
    ShortActions,
    Children,
    Restarts,
    BareRestarts,
    Losses,
}

impl Family {
    fn name(self) -> &'static str {
        match self {
            Family::Calls => "calls",
            Family::CallsAtOnce => "calls in one play",
            Family::ShortActions => "short actions",
            Family::Children => "children",
            Family::Restarts => "restarts",
            Family::BareRestarts => "bare restarts",
            Family::Losses => "losses",
        }
    }

    /// How many blocks the scripts have.
    fn sizes(self) -> [u32; 4] {
        match self {
            Family::Calls | Family::CallsAtOnce => [3, 6, 12, 25],
            Family::ShortActions => [20, 40, 80, 170],
            Family::Children => [3, 6, 12, 26],
            Family::Restarts => [8, 16, 32, 63],
            Family::BareRestarts => [32, 64, 128, 255],
            Family::Losses => [4, 8, 16, 34],
        }
    }

    /// The line behind the blocks.
    fn ending(self) -> &'static str {
        match self {
            Family::CallsAtOnce => "play\n",
            _ => "",
        }
    }

    /// How many events so many blocks make. The first seven of the restarts call no node that has
    /// restarted before; each later one has a call that came for the old count, its answer, and its repeat.
    fn events(self, blocks: u32) -> usize {
        let blocks = blocks as usize;
        match self {
            Family::Calls | Family::CallsAtOnce => blocks.saturating_mul(50),
            Family::ShortActions => blocks.saturating_mul(5),
            Family::Children => blocks.saturating_mul(58),
            Family::Restarts => blocks.saturating_mul(18).saturating_sub(21),
            Family::BareRestarts => blocks.saturating_mul(2),
            Family::Losses => blocks.saturating_mul(12),
        }
    }
}

/// The node behind this one, in turn.
fn node(number: u32) -> u32 {
    number % NODES + 1
}

/// The declarations of each script.
fn declare(text: &mut String) -> Result<(), Error> {
    write!(text, "nodes {NODES}\n")?;
    for at in 1..=NODES {
        write!(text, "object c{at} {at} counter 0\n")?;
    }
    text.push_str("body calls\n")?;
    for at in 1..=NODES {
        write!(text, "call 2 c{at} add 1\n")?;
    }
    text.push_str("commit 0\nend\nbody leaf\ncommit 1\nend\nbody children\n")?;
    for at in 1..=NODES {
        write!(text, "child 1 {at} leaf\n")?;
    }
    text.push_str("commit 0\nend\n")?;
    for at in 1..=NODES {
        let next = node(at);
        write!(
            text,
            "body pair{at}\ncall 2 c{at} add 1\ncall 2 c{next} add 1\ncommit 0\nend\n"
        )?;
    }
    Ok(())
}

/// An action by hand. Its call comes twice, and so there are two answers, of which one is lost. A vote
/// comes twice, and the news is lost. So a block sends nine letters.
fn write_losses(text: &mut String, block: u32) -> Result<(), Error> {
    let home = node(block);
    let site = node(home);
    let letter = u64::from(block) * 9;
    let [call, answer, lost] = [letter + 1, letter + 2, letter + 3];
    let [finish, prepare, other] = [letter + 4, letter + 5, letter + 6];
    let [vote, last, news] = [letter + 7, letter + 8, letter + 9];
    write!(text, "begin A{block} {home}\ncall A{block} c{site} add 1\n")?;
    write!(
        text,
        "deliver {call}\ndeliver {call}\ndeliver {answer}\nlose {lost}\n"
    )?;
    write!(
        text,
        "commit A{block} 0\ndeliver {finish}\ndeliver {prepare}\ndeliver {other}\n"
    )?;
    write!(
        text,
        "deliver {vote}\ndeliver {vote}\ndeliver {last}\nlose {news}\n"
    )?;
    Ok(())
}

/// A block of a script.
fn write_block(text: &mut String, family: Family, block: u32) -> Result<(), Error> {
    let at = node(block);
    match family {
        Family::Calls => write!(text, "start A{block} {at} calls\nplay\n")?,
        Family::CallsAtOnce => write!(text, "start A{block} {at} calls\n")?,
        Family::ShortActions => write!(text, "start A{block} {at} leaf\nplay\n")?,
        Family::Children => write!(text, "start A{block} {at} children\nplay\n")?,
        Family::Restarts => write!(text, "start A{block} {at} pair{at}\nplay\nrestart {at}\n")?,
        Family::BareRestarts => write!(text, "begin A{block} {at}\nrestart {at}\n")?,
        Family::Losses => write_losses(text, block)?,
    }
    Ok(())
}

/// The text of a script of so many blocks.
fn script_text(alloc: Global, family: Family, blocks: u32) -> Result<String, Error> {
    let mut text = String::new(alloc);
    declare(&mut text)?;
    for block in 0..blocks {
        write_block(&mut text, family, block)?;
    }
    text.push_str(family.ending())?;
    Ok(text)
}

/// So many empty disks in memory.
fn empty_disks(alloc: Global, count: u8) -> Result<Vec<MemoryDisk>, NoMemory> {
    let mut disks = Vec::with_capacity(alloc, count as usize)?;
    for _ in 0..count {
        disks.push(MemoryDisk::new(alloc))?;
    }
    Ok(disks)
}

/// A run over empty disks.
fn run(alloc: Global, script: &Script) -> Result<RunRecord, RunFault>
    requires script { IsScript script.now }
{
    let mut disks = empty_disks(alloc, script.nodes)?;
    if disks.len() != script.nodes as usize {
        return Err(RunFault::NoMemory);
    }
    let mut servers = Servers {
        register: RegisterServer::new(),
        queue: QueueServer::new(alloc),
        counter: CounterServer::new(),
    };
    run_script(alloc, script, &mut disks, &mut servers)
}

/// What was measured, in nanoseconds.
#[derive(Clone, Copy)]
struct Times {
    run: u128,
    report: u128,
    events: usize,
}

impl Times {
    fn least(self, other: Times) -> Times {
        Times {
            run: self.run.min(other.run),
            report: self.report.min(other.report),
            events: other.events,
        }
    }

    /// The picoseconds of a part for an event.
    fn for_event(self, time: u128) -> u128 {
        time.saturating_mul(1_000) / (self.events as u128).max(1)
    }
}

/// One run, and its report.
fn measure_once(rt: &HostRuntime, script: &Script) -> Result<Times, Error>
    requires script { IsScript script.now }
{
    let start = Instant::now(rt)?;
    let record = run(rt.alloc(), script)?;
    let run = start.elapsed(rt)?.as_nanos();
    let start = Instant::now(rt)?;
    report_text(rt.alloc(), script, &record)?;
    let report = start.elapsed(rt)?.as_nanos();
    Ok(Times {
        run,
        report,
        events: record.trace.len(),
    })
}

/// The least times of some rounds.
fn measure(rt: &HostRuntime, text: &str) -> Result<Times, Error> {
    let script = parse(rt.alloc(), text.as_bytes())?;
    let mut times = measure_once(rt, &script)?;
    for _ in 0..ROUNDS {
        times = times.least(measure_once(rt, &script)?);
    }
    Ok(times)
}

/// The time of a part for an event, how often that is the first, and its share of the whole.
fn show(rt: &HostRuntime, what: &str, time: u128, first: u128, share: u128) -> Result<(), Error> {
    let hundredths = time.saturating_mul(100) / first.max(1);
    let nanoseconds = time / 1_000;
    println!(rt;
        "  {what}: {nanoseconds} ns, {hundredths} hundredths of the first, {share} hundredths of the whole"
    )?;
    Ok(())
}

/// The times of one size.
fn show_times(rt: &HostRuntime, times: Times, first: Times) -> Result<(), Error> {
    let whole = times.run.saturating_add(times.report).max(1);
    let run_share = times.run.saturating_mul(100) / whole;
    let report_share = times.report.saturating_mul(100) / whole;
    show(
        rt,
        "the run, for an event",
        times.for_event(times.run),
        first.for_event(first.run),
        run_share,
    )?;
    show(
        rt,
        "the report, for an event",
        times.for_event(times.report),
        first.for_event(first.report),
        report_share,
    )
}

/// The times of all sizes of a family.
fn show_family(rt: &HostRuntime, family: Family) -> Result<(), Error> {
    let mut first = None;
    for blocks in family.sizes() {
        let text = script_text(rt.alloc(), family, blocks)?;
        let times = measure(rt, text.as_str())?;
        println!(rt;
            "{}: {blocks} blocks, {} events",
            family.name(),
            times.events
        )?;
        if times.events != family.events(blocks) {
            return Err(Error::msg("a run does not have the events that it must have"));
        }
        let least = first.unwrap_or(times);
        first = Some(least);
        show_times(rt, times, least)?;
    }
    Ok(())
}

fn main(rt: HostRuntime) -> Result<(), Error> {
    for family in [
        Family::Calls,
        Family::CallsAtOnce,
        Family::ShortActions,
        Family::Children,
        Family::Restarts,
        Family::BareRestarts,
        Family::Losses,
    ] {
        show_family(&rt, family)?;
    }
    Ok(())
}
PROGRAM
if [ "${1-}" = --quick ]; then
    # That build checks each step as it runs, and is some hundred times slower: it takes short scripts.
    sed -i 's/ROUNDS: u32 = 8/ROUNDS: u32 = 1/; s/, 12, 25\]/, 9, 12]/; s/, 12, 26\]/, 9, 12]/; s/, 32, 63\]/, 24, 28]/' src/main.rt
    sed -i 's/\[32, 64, 128, 255\]/[16, 24, 32, 64]/; s/, 80, 170\]/, 60, 80]/' src/main.rt
    rt try --steps 1
else
    rt run
fi
