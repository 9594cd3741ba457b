#!/bin/sh
# How many nested rounds a node alone makes in a second where 10, 1,000 and 10,000 are behind, and where it knows of 1,000 outcomes
# besides, and how much of the first number that is. In a round a top action begins and asks for a child at its own node; the child
# starts, calls an object of node 2 and is answered; the child commits, and then the top action, by the votes of the nodes 1 and 2. Its
# letters come back to the node at once; those of node 2 are made here, and acknowledge what it was told. The disk is in memory, and
# two of the eleven steps of a round force an entry.
# The script fails where a round does not end in the commit.
# A figure is such a ratio: the rounds a second are those of one machine on one day. Each time is the least of forty turns of five rounds.
# bench/node.sh           proves the crates and the program, and runs it
# bench/node.sh --quick   runs a build of the same sources that nothing has proved
. "$(dirname "$0")/common.sh"
make_program node_rounds anyhow cam_base cam_names cam_type cam_know cam_event cam_disk cam_log cam_ckpt cam_node
cat > src/main.rt <<'PROGRAM'
//! How many nested rounds a node alone makes in a second, by what is behind.
#![tactic(auto)]

mod alone;

use alone::{Alone, filled};
use anyhow::{Error, ensure};
use cam_ckpt::CheckpointLog;
use std::time::Instant;

/// So many turns are timed for each figure, of so many rounds.
const TURNS: u32 = 40;
const ROUNDS: u32 = 5;
const OUTCOMES: u32 = 1_000;

/// The nanoseconds of some rounds.
fn time_once<L: CheckpointLog>(rt: &HostRuntime, node: &mut Alone<L>) -> Result<u128, Error> {
    let start = Instant::now(rt)?;
    let mut right = true;
    for _ in 0..ROUNDS {
        right = node.round()? && right;
    }
    let nanos = start.elapsed(rt)?.as_nanos();
    ensure!(right, "a round has ended otherwise");
    Ok(nanos)
}

/// The least time of some rounds where so many are behind, and so many outcomes of other nodes are known. The turns of one node make few
/// rounds beside those that are behind, so that there are several nodes where few are.
fn measure(rt: &HostRuntime, behind: u32, outcomes: u32) -> Result<u128, Error> {
    let turns = (behind / ROUNDS).clamp(2, TURNS);
    let mut least = u128::MAX;
    for _ in 0..TURNS / turns {
        let mut node = filled(rt.alloc(), behind, outcomes)?;
        for _ in 0..turns {
            least = least.min(time_once(rt, &mut node)?);
        }
    }
    Ok(least)
}

/// The rounds in a second, where some take so many nanoseconds.
fn in_a_second(nanos: u128) -> u128 {
    let rounds = ROUNDS as u128;
    rounds.saturating_mul(1_000_000_000) / nanos.max(1)
}

fn main(rt: HostRuntime) -> Result<(), Error> {
    let mut first = 0u128;
    for (behind, outcomes) in [(10, 0), (1_000, 0), (10_000, 0), (10, OUTCOMES)] {
        let rounds = in_a_second(measure(&rt, behind, outcomes)?);
        if first == 0 {
            first = rounds.max(1);
        }
        let hundredths = rounds.saturating_mul(100) / first.max(1);
        println!(rt;
            "{behind} rounds behind, {outcomes} outcomes of other nodes known: {rounds} rounds a second, {hundredths} hundredths of the first"
        )?;
    }
    Ok(())
}
PROGRAM
cat > src/alone.rt <<'PROGRAM'
//! Node 1, alone: it gets its own letters back, and what node 2 would send is made here.
use anyhow::{Error, bail};
use cam_base::NoMemory;
use cam_ckpt::{CheckpointLog, Ckpt};
use cam_disk::MemoryDisk;
use cam_event::{Body, Deed, Letter, LetterId, Reply, Request, Want};
use cam_know::{Know, Outcome};
use cam_names::{Name, Part};
use cam_node::{Input, Node, Stepped};
use cam_type::{Answer, CounterServer, ObjectDecl, Objects, Op, QueueServer, RegisterServer, State};
use std::alloc::Global;

/// The node, of which one object stands elsewhere: a counter at node 2.
#[derive(Drop)]
pub struct Alone<L: CheckpointLog> {
    alloc: Global,
    node: Node<L>,
    /// How many outcomes node 2 was told.
    told: u64,
}

/// A counter at node 2.
fn one_counter(alloc: Global) -> Result<Objects, NoMemory> {
    let mut objects = Objects::new(alloc);
    objects.push(ObjectDecl {
        node: 2,
        start: State::Counter(0),
    })?;
    Ok(objects)
}

/// What an event creates, where it creates an action.
fn created(stepped: &Stepped) -> Option<Name> {
    match stepped.event.deeds.get(0) {
        Some(Deed::Create { action }) => Some(*action),
        _ => None,
    }
}

/// Whether an event commits an action.
fn commits(stepped: &Stepped, action: &Name) -> bool {
    match stepped.event.deeds.get(0) {
        Some(Deed::Commit { action: committed }) => committed == action,
        _ => false,
    }
}

fn vote(family: &Name) -> Body {
    Body::Vote {
        family: *family,
        count: 1,
        yes: true,
    }
}

/// A node over a new disk in memory.
fn formatted(alloc: Global) -> Result<Node<Ckpt<MemoryDisk>>, Error> {
    let objects = one_counter(alloc)?;
    match Node::format(alloc, 1, objects, MemoryDisk::new(alloc)) {
        Ok(node) => Ok(node),
        Err(refused) => Err(refused.fault.into()),
    }
}

/// A node with so many rounds behind, and so many aborts known of actions of node 3.
pub fn filled(
    alloc: Global,
    behind: u32,
    outcomes: u32,
) -> Result<Alone<Ckpt<MemoryDisk>>, Error> {
    let mut alone = Alone {
        alloc,
        node: formatted(alloc)?,
        told: 0,
    };
    alone.fill(behind, outcomes)?;
    Ok(alone)
}

impl<L: CheckpointLog> Alone<L> {
    /// So many aborts come to be known of actions of node 3, and then so many rounds are made.
    fn fill(&mut self, behind: u32, outcomes: u32) -> Result<(), Error> {
        self.learn(outcomes)?;
        for _ in 0..behind {
            if !self.round()? {
                bail!("a round has ended otherwise");
            }
        }
        Ok(())
    }

    /// A letter of node 2 brings the aborts of so many top actions of node 3.
    fn learn(&mut self, outcomes: u32) -> Result<(), Error> {
        let mut know = Know::new(self.alloc);
        for number in 1..=outcomes {
            if let Some(part) = Part::new(3, 1, number) {
                know.add(&Outcome::Aborted(Name::top(part)))?;
            }
        }
        self.brings(2, Body::News, know)?;
        Ok(())
    }

    /// One nested round: whether it has ended in the commit of the top action.
    pub fn round(&mut self) -> Result<bool, Error> {
        let Some(top) = created(&self.put(&Input::Begin)?) else {
            return Ok(false);
        };
        let asked = self.wants(&top, Want::Ask(1))?;
        let Some(child) = created(&self.comes_back(asked)?) else {
            return Ok(false);
        };
        let _ = self.wants(&child, Want::Call(0, Op::Add(1)))?;
        let answer = Body::Answer {
            action: child,
            number: 1,
            reply: Reply::Done(Answer::Ok),
        };
        let _ = self.comes(2, answer)?;
        let finishes = self.wants(&child, Want::Commit(1))?;
        if !commits(&self.comes_back(finishes)?, &child) {
            return Ok(false);
        }
        let finishes = self.wants(&top, Want::Commit(2))?;
        let _ = self.comes_back(finishes)?;
        let _ = self.comes(1, vote(&top))?;
        Ok(commits(&self.comes(2, vote(&top))?, &top))
    }

    /// An action of the node wants this.
    fn wants(&mut self, action: &Name, want: Want) -> Result<Stepped, Error> {
        self.put(&Input::Request(Request {
            action: *action,
            want,
        }))
    }

    /// The first letter of an event comes to the node, which sent it to itself.
    fn comes_back(&mut self, stepped: Stepped) -> Result<Stepped, Error> {
        let mut letters = stepped.letters;
        if letters.is_empty() {
            bail!("no letter was sent");
        }
        let letter = letters.remove(0);
        self.put(&Input::Letter(LetterId { event: 0, place: 0 }, letter))
    }

    /// A letter of a node comes, which brings nothing.
    fn comes(&mut self, from: u8, body: Body) -> Result<Stepped, Error> {
        self.brings(from, body, Know::new(self.alloc))
    }

    /// A letter of a node comes, which brings this, and acknowledges all that node 2 was told.
    fn brings(&mut self, from: u8, body: Body, know: Know) -> Result<Stepped, Error> {
        let letter = Letter {
            from,
            count: 1,
            to: 1,
            have: self.told,
            place: 0,
            know,
            body,
        };
        self.put(&Input::Letter(LetterId { event: 0, place: 0 }, letter))
    }

    /// Takes a step, where the input may be put to the node now.
    fn put(&mut self, input: &Input) -> Result<Stepped, Error> {
        if self.node.is_halted() {
            bail!("the node is halted");
        }
        if self.node.refusal(input).is_some() || !self.node.may_step(input) {
            bail!("the input may not be put to the node");
        }
        let mut register = RegisterServer::new();
        let mut queue = QueueServer::new(self.alloc);
        let mut counter = CounterServer::new();
        let stepped = self.node.step(input, &mut register, &mut queue, &mut counter)?;
        for letter in stepped.letters.as_slice() {
            if letter.to == 2 {
                self.told = letter.place;
            }
        }
        Ok(stepped)
    }
}
PROGRAM
if [ "${1-}" = --quick ]; then
    # That build checks each step as it runs, is some hundred times slower, and is given a minute.
    sed -i 's/TURNS: u32 = 40;/TURNS: u32 = 10;/; s/OUTCOMES: u32 = 1_000;/OUTCOMES: u32 = 100;/' src/main.rt
    sed -i 's/(1_000, 0), (10_000, 0)/(100, 0), (400, 0)/' src/main.rt
    rt try --steps 1
else
    rt run
fi
