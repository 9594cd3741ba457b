#!/bin/sh
# How long the steps of a node's parts take where 10, 1,000 and 10,000 are behind, and how much of the first number's time that is:
# actions at home (cam_tranman), calls at a site (cam_server), families in commit (cam_commit).
# Behind are, of actions, as many top actions, of which a third have ended, a third have an open child and a third an open call; of a site
# as many calls that were performed, of whose actions one half have committed and one half have aborted, which the node knows and the site
# was informed of; of families a third that are secured, a third with one vote of two and a third that committed, and as many known outcomes.
# The script fails where a step answers something else than it should.
# A figure is such a ratio: the nanoseconds are those of one machine on one day. Each time is that of four calls, the least of several rounds:
# a table that grows in some of them does not count.
# bench/parts.sh           proves the crates and the program, and runs it
# bench/parts.sh --quick   runs a build of the same sources that nothing has proved
. "$(dirname "$0")/common.sh"
make_program part_times anyhow cam_base cam_names cam_type cam_know cam_event cam_locks cam_commit cam_tranman cam_server
cat > src/main.rt <<'PROGRAM'
//! How long the steps of a node's parts take by what is behind.
#![tactic(auto)]

mod actions;
mod calls;
mod families;

use actions::Actions;
use anyhow::{Error, ensure};
use calls::Calls;
use cam_names::{Name, Part};
use families::Votes;
use std::alloc::Global;
use std::time::Instant;

const ROUNDS: u32 = 20;
const TURNS: u32 = 5;
const CALLS: u32 = 4;

/// A part of a node whose steps are measured.
pub trait Measured: Drop {
    /// What each step is.
    fn steps() -> &'static [&'static str];

    /// With this many behind.
    fn filled(alloc: Global, behind: u32) -> Result<Self, Error>;

    /// Does this step for the action of a number, and says whether it was answered as it should be. The steps of an action come in order.
    fn step(&mut self, step: usize, number: u32) -> Result<bool, Error>;
}

/// The top action of a number, of node 1.
pub fn top(number: u32) -> Name {
    Name::top(Part {
        node: 1,
        count: 1,
        number: number.clamp(1, 1_000_000_000),
    })
}

/// The first child of an action, at node 2.
pub fn child(action: &Name) -> Name {
    let part = Part {
        node: 2,
        count: 1,
        number: 1,
    };
    action.child(part).unwrap_or(*action)
}

/// The nanoseconds of one call of each step, for the next actions behind so many.
fn time_once<M: Measured>(rt: &HostRuntime, measured: &mut M, behind: u32) -> Result<Vec<u128>, Error> {
    let mut times = Vec::new(rt.alloc());
    for (step, what) in M::steps().iter().enumerate() {
        let start = Instant::now(rt)?;
        let mut right = true;
        for call in 1..=CALLS {
            right = measured.step(step, behind.saturating_add(call))? && right;
        }
        times.push(start.elapsed(rt)?.as_nanos() / CALLS as u128)?;
        ensure!(right, "{what}: answered otherwise");
    }
    Ok(times)
}

/// The lesser of both times of each step.
fn keep_least(least: &mut Vec<u128>, times: &[u128]) -> Result<(), Error> {
    if least.is_empty() {
        least.extend_from_slice(times)?;
    }
    for (one, time) in least.iter_mut().zip(times.iter()) {
        *one = (*one).min(*time);
    }
    Ok(())
}

/// The least times of some rounds. In each several actions come one after another, so that a table that grows for one of them
/// does not count.
fn measure<M: Measured>(rt: &HostRuntime, behind: u32) -> Result<Vec<u128>, Error> {
    let mut least = Vec::new(rt.alloc());
    for _ in 0..ROUNDS {
        let mut measured = M::filled(rt.alloc(), behind)?;
        for turn in 0..TURNS {
            let before = behind.saturating_add(turn.saturating_mul(CALLS));
            let times = time_once(rt, &mut measured, before)?;
            keep_least(&mut least, times.as_slice())?;
        }
    }
    Ok(least)
}

/// The times of each step, and how many hundredths of the first number's they are.
fn show<M: Measured>(rt: &HostRuntime, what: &str) -> Result<(), Error> {
    let mut first = Vec::new(rt.alloc());
    for behind in [10, 1_000, 10_000] {
        let times = measure::<M>(rt, behind)?;
        println!(rt; "{behind} {what}")?;
        if first.is_empty() {
            first = times.clone()?;
        }
        for ((step, time), base) in M::steps().iter().zip(times.iter()).zip(first.iter()) {
            let hundredths = time.saturating_mul(100) / (*base).max(1);
            println!(rt; "  {step}: {time} ns, {hundredths} hundredths of the first")?;
        }
    }
    Ok(())
}

fn main(rt: HostRuntime) -> Result<(), Error> {
    show::<Actions>(&rt, "actions behind")?;
    show::<Calls>(&rt, "calls behind")?;
    show::<Votes>(&rt, "families behind")
}
PROGRAM
cat > src/actions.rt <<'PROGRAM'
//! Actions at home: all top actions of node 1, each with a child at node 2 and a call on an object of node 3; and children that start at node 1.
ghost use Rattle.std.specs.Prelude.{◌≡◌};
ghost use Rattle.cam_tranman.specs.Tables.{answers};

use crate::{Measured, child, top};
use anyhow::Error;
use cam_event::{LineRefusal, Reply, Request, Seen, Want};
use cam_names::{Deps, Name, Part};
use cam_tranman::{Homed, Started, Taken};
use cam_type::{Answer, Op};
use std::alloc::Global;

/// The actions of node 1 at its count 1.
#[derive(Drop)]
pub struct Actions {
    homed: Homed,
    ghost home: { ((answers homed).node ≡ 1) × ((answers homed).count ≡ 1) },
}

const BEGIN: usize = 0;
const ASK: usize = 1;
const DECIDE: usize = 2;
const CALL: usize = 3;
const ANSWER: usize = 4;
const FINISH: usize = 5;
const REFUSE: usize = 6;
const START: usize = 7;
const START_AGAIN: usize = 8;

impl Measured for Actions {
    fn steps() -> &'static [&'static str] {
        &[
            "a top action begins",
            "it asks for a child",
            "the child commits",
            "it calls",
            "its call is answered",
            "it commits",
            "it asks once more, and is refused",
            "a child starts",
            "the child is started again",
        ]
    }

    fn filled(alloc: Global, behind: u32) -> Result<Actions, Error> {
        let mut actions = Actions {
            homed: Homed::new(alloc, 1, 1),
        };
        for number in 1..=behind {
            let steps = match number % 3 {
                0 => [BEGIN, ASK, DECIDE, CALL, ANSWER, FINISH].as_slice(),
                1 => [BEGIN, ASK].as_slice(),
                _ => [BEGIN, CALL].as_slice(),
            };
            for step in steps {
                actions.step(*step, number)?;
            }
        }
        Ok(actions)
    }

    fn step(&mut self, step: usize, number: u32) -> Result<bool, Error> {
        let action = top(number);
        Ok(match step {
            BEGIN => self.begin()? == Some(action),
            ASK => self.ask(&action)? == Some(child(&action)),
            DECIDE => self.decide(&child(&action)),
            CALL => self.call(&action)? == Some(1),
            ANSWER => self.answer(&action) == Taken::Got(Seen::Done(Answer::Value(6))),
            FINISH => self.finish(&action),
            REFUSE => self.refusal(&action, &Want::Ask(2)) == Some(LineRefusal::Ended),
            START => self.start(number)? == Some(Started::New),
            START_AGAIN => self.start(number)? == Some(Started::Known),
            _ => false,
        })
    }
}

impl Actions {
    /// What stands against what an action wants.
    fn refusal(&self, action: &Name, want: &Want) -> Option<LineRefusal> {
        self.homed.refusal(&Request {
            action: *action,
            want: *want,
        })
    }

    fn begin(&mut self) -> Result<Option<Name>, Error> {
        if self.homed.tops() >= 1_000_000_000 {
            return Ok(None);
        }
        Ok(Some(self.homed.begin()?))
    }

    fn ask(&mut self, action: &Name) -> Result<Option<Name>, Error> {
        let request = Request {
            action: *action,
            want: Want::Ask(2),
        };
        if self.homed.refusal(&request).is_some() || self.homed.asks(action) >= 1_000_000_000 {
            return Ok(None);
        }
        Ok(Some(self.homed.ask(action, 2, 1)?))
    }

    /// The child commits, where it is to be decided.
    fn decide(&mut self, child: &Name) -> bool {
        if !self.homed.decides(child) {
            return false;
        }
        self.homed.decide(child, &Some(Deps::none().with(2, 1)));
        true
    }

    fn call(&mut self, action: &Name) -> Result<Option<u32>, Error> {
        let request = Request {
            action: *action,
            want: Want::Call(0, Op::Read),
        };
        if self.homed.refusal(&request).is_some() || self.homed.calls(action) >= 1_000_000_000 {
            return Ok(None);
        }
        Ok(Some(self.homed.call(action, 0, &Op::Read, 3, 1)?))
    }

    fn answer(&mut self, action: &Name) -> Taken {
        self.homed.answer(action, 1, &Reply::Done(Answer::Value(6)), 1)
    }

    /// The action commits, where nothing stands against it.
    fn finish(&mut self, action: &Name) -> bool {
        let request = Request {
            action: *action,
            want: Want::Commit(0),
        };
        if self.homed.refusal(&request).is_some() {
            return false;
        }
        self.homed.finish(action, 0);
        true
    }

    /// The start of a child of an action of node 4.
    fn start(&mut self, number: u32) -> Result<Option<Started>, Error> {
        let Some(child) = child_here(number) else {
            return Ok(None);
        };
        let (node, count) = child.home();
        if node != 1 || count != 1 {
            return Ok(None);
        }
        Ok(Some(self.homed.start(&child, &Deps::none().with(4, 1))?))
    }
}

/// The child at node 1 of the top action of a number, of node 4.
fn child_here(number: u32) -> Option<Name> {
    let parent = Name::top(Part::new(4, 1, number)?);
    parent.child(Part::new(1, 1, 1)?)
}
PROGRAM
cat > src/calls.rt <<'PROGRAM'
//! Calls at a site: each of a top action of its own, on one register.
use crate::{Measured, top};
use anyhow::Error;
use cam_base::NoMemory;
use cam_event::Reply;
use cam_know::{Know, Outcome, Reason};
use cam_locks::LockTable;
use cam_names::{Deps, Name};
use cam_server::{Performed, Server};
use cam_type::{Answer, DataType, ObjectDecl, Objects, Op, RegisterServer, State};
use std::alloc::Global;

/// The site of node 1 at its count 1, and what the node knows.
#[derive(Drop)]
pub struct Calls {
    behind: u32,
    know: Know,
    server: Server,
    register: RegisterServer,
    /// Letters, each with the abort of one of the next actions.
    letters: Vec<Know>,
}

const LETTERS: u32 = 20;

impl Measured for Calls {
    fn steps() -> &'static [&'static str] {
        &[
            "a call is performed",
            "it is answered again",
            "a call finds a lock",
            "it is answered again",
            "a call comes at another count",
            "a call of an action that has committed",
            "the call of an aborted action is answered again",
            "a call of an orphan, by an abort",
            "a letter tells an abort",
            "one more call is performed",
            "its action is decided here",
        ]
    }

    fn filled(alloc: Global, behind: u32) -> Result<Calls, Error> {
        let mut calls = Calls::new(alloc, behind)?;
        for number in 1..=behind {
            calls.one_behind(number)?;
        }
        Ok(calls)
    }

    fn step(&mut self, step: usize, number: u32) -> Result<bool, Error> {
        let value = Answer::Value(self.behind as i64);
        let next = top(number);
        let other = top(number.saturating_add(1_000_000));
        let place = number.saturating_sub(self.behind);
        let committed = top(2 + place % 4 * 2);
        let aborted = top(1 + place % 4 * 2);
        Ok(match step {
            0 => self.perform(&next, 1, &Op::Read, 1)? == Some(Performed::Done(value)),
            1 => self.perform(&next, 1, &Op::Read, 1)? == Some(Performed::Again(Reply::Done(value))),
            2 => self.is_busy(&other)?,
            3 => self.is_busy_again(&other)?,
            4 => self.perform(&next, 2, &Op::Read, 2)? == Some(Performed::Missed),
            5 => self.perform(&committed, 2, &Op::Read, 1)? == Some(Performed::Ended),
            6 => {
                let again = Performed::Again(Reply::Done(Answer::Ok));
                self.perform(&aborted, 1, &Op::Write(0), 1)? == Some(again)
            }
            7 => {
                let orphan = Performed::Orphan(Reason::Abort(aborted));
                self.perform(&aborted, 2, &Op::Read, 1)? == Some(orphan)
            }
            8 => self.told(place, &next)?,
            9 => self.perform(&other, 2, &Op::Read, 1)? == Some(Performed::Done(value)),
            10 => self.aborted(&other)?,
            _ => false,
        })
    }
}

/// A register that begins with 0.
fn register(alloc: Global) -> Result<Objects, NoMemory> {
    let mut objects = Objects::new(alloc);
    objects.push(ObjectDecl {
        node: 1,
        start: State::Register(0),
    })?;
    Ok(objects)
}

fn new_table(alloc: Global) -> Result<LockTable, NoMemory> {
    let objects = register(alloc)?;
    LockTable::new(alloc, &objects, 1)
}

/// Letters, each with the abort of one of the actions that come next.
fn letters_of_aborts(alloc: Global, behind: u32) -> Result<Vec<Know>, NoMemory> {
    let mut letters = Vec::new(alloc);
    for letter in 1..=LETTERS {
        let mut news = Know::new(alloc);
        news.add(&Outcome::Aborted(top(behind.saturating_add(letter))))?;
        letters.push(news)?;
    }
    Ok(letters)
}

/// The even numbers behind commit, and the others abort.
fn outcome(number: u32) -> Outcome {
    let action = top(number);
    if number % 2 == 0 {
        Outcome::Committed(action, Deps::none().with(1, 1))
    } else {
        Outcome::Aborted(action)
    }
}

impl Calls {
    fn new(alloc: Global, behind: u32) -> Result<Calls, NoMemory> {
        let table = new_table(alloc)?;
        Ok(Calls {
            behind,
            know: Know::new(alloc),
            server: Server::new(alloc, table, 1),
            register: RegisterServer::new(),
            letters: letters_of_aborts(alloc, behind)?,
        })
    }

    /// The call of an action is performed, which is then decided.
    fn one_behind(&mut self, number: u32) -> Result<(), NoMemory> {
        if self.is_performed(number)? {
            self.decide(&outcome(number))?;
        }
        Ok(())
    }

    /// An action writes.
    fn is_performed(&mut self, number: u32) -> Result<bool, NoMemory> {
        let answer = self.perform(&top(number), 1, &Op::Write(number as i64), 1)?;
        Ok(matches!(answer, Some(Performed::Done(_))))
    }

    /// What a call is answered that comes at a count. None where no call may come so.
    fn perform(
        &mut self,
        action: &Name,
        number: u32,
        op: &Op,
        count: u32,
    ) -> Result<Option<Performed>, NoMemory> {
        let table = self.server.table();
        if !table.takes(0, op) || table.next_index() > 999_999_999 {
            return Ok(None);
        }
        if table.kind(0) != self.register.kind() {
            return Ok(None);
        }
        let visited = Deps::none().with(1, 1);
        let answer = self.server.perform(
            &self.know,
            action,
            number,
            0,
            op,
            count,
            &visited,
            &mut self.register,
        )?;
        Ok(Some(answer))
    }

    /// An action writes where others read.
    fn is_busy(&mut self, action: &Name) -> Result<bool, NoMemory> {
        let answer = self.perform(action, 1, &Op::Write(0), 1)?;
        Ok(matches!(answer, Some(Performed::Busy(_))))
    }

    fn is_busy_again(&mut self, action: &Name) -> Result<bool, NoMemory> {
        let answer = self.perform(action, 1, &Op::Write(0), 1)?;
        Ok(matches!(answer, Some(Performed::Again(Reply::Busy(_)))))
    }

    /// The letter of this place comes, and the site is informed. Whether it drops what the action did, whose abort the letter tells.
    fn told(&mut self, place: u32, action: &Name) -> Result<bool, NoMemory> {
        let Some(news) = self.letters.get(place.saturating_sub(1) as usize) else {
            return Ok(false);
        };
        let was_live = self.server.table().has_family(action);
        self.server.reserve(news.len())?;
        self.server.informed(news);
        Ok(was_live && !self.server.table().has_family(action))
    }

    /// The node decides that an action aborts, and the site is told. Whether it drops what the action did.
    fn aborted(&mut self, action: &Name) -> Result<bool, NoMemory> {
        let was_live = self.server.table().has_family(action);
        self.server.reserve(1)?;
        self.server.decided(&Outcome::Aborted(*action));
        Ok(was_live && !self.server.table().has_family(action))
    }

    fn decide(&mut self, outcome: &Outcome) -> Result<(), NoMemory> {
        self.know.add(outcome)?;
        self.server.reserve(1)?;
        self.server.decided(outcome);
        Ok(())
    }
}
PROGRAM
cat > src/families.rt <<'PROGRAM'
//! Families in commit: top actions of node 1, which depend on the nodes 1 and 2.
use crate::{Measured, top};
use anyhow::Error;
use cam_base::NoMemory;
use cam_commit::{Asked, Families, Queried, Voted};
use cam_know::{Know, Outcome};
use cam_names::{Deps, Name};
use std::alloc::Global;

/// The families of node 1 at its count 1, and what the node knows.
#[derive(Drop)]
pub struct Votes {
    know: Know,
    families: Families,
}

impl Measured for Votes {
    fn steps() -> &'static [&'static str] {
        &[
            "a family is prepared",
            "the first vote",
            "the last vote",
            "a vote that is late",
            "a site is asked to secure",
            "it secures",
            "it is asked again",
            "it is asked at an old count",
            "it is asked after one that has ended",
            "a query of an open family",
            "a query of one of an old count",
            "a query of one that has ended",
        ]
    }

    fn filled(alloc: Global, behind: u32) -> Result<Votes, Error> {
        let mut votes = Votes {
            know: Know::new(alloc),
            families: Families::new(alloc),
        };
        for number in 1..=behind {
            let family = top(number);
            if number % 3 == 0 {
                votes.secure(&family)?;
            } else {
                votes.prepare(&family)?;
                votes.vote(&family, 1)?;
                if number % 3 == 1 {
                    votes.vote(&family, 2)?;
                }
            }
            votes.know.add(&Outcome::Aborted(old(number)))?;
        }
        Ok(votes)
    }

    fn step(&mut self, step: usize, number: u32) -> Result<bool, Error> {
        let family = top(number);
        let secured = top(number.saturating_add(1_000_000));
        let ended = old(1 + number % 4);
        Ok(match step {
            0 => self.prepare(&family)?,
            1 => self.vote(&family, 1)? == Voted::Some,
            2 => self.vote(&family, 2)? == Voted::All,
            3 => self.vote(&family, 2)? == Voted::Late,
            4 => self.asked(&secured, 1, 1) == Asked::Secure,
            5 => self.secure(&secured)?,
            6 => self.asked(&secured, 1, 1) == Asked::AlreadyYes,
            7 => self.asked(&family, 1, 2) == Asked::Refuse,
            8 => self.asked(&ended, 1, 1) == Asked::Late,
            9 => self.families.query(&family, 1, &self.know) == Queried::StillOpen,
            10 => self.families.query(&family, 2, &self.know) == Queried::Abort,
            11 => self.families.query(&ended, 2, &self.know) == Queried::Tell,
            _ => false,
        })
    }
}

/// A family of node 1 that has ended.
fn old(number: u32) -> Name {
    top(number.saturating_add(100_000))
}

impl Votes {
    /// The family is prepared, where it was not.
    fn prepare(&mut self, family: &Name) -> Result<bool, NoMemory> {
        self.families.reserve()?;
        if self.families.is_preparing(family) {
            return Ok(false);
        }
        self.families.prepare(family);
        Ok(true)
    }

    /// A node votes yes for a family.
    fn vote(&mut self, family: &Name, node: u8) -> Result<Voted, NoMemory> {
        let deps = Deps::none().with(1, 1).with(2, 1);
        self.families.reserve()?;
        Ok(self.families.vote(family, node, 1, true, &deps))
    }

    fn secure(&mut self, family: &Name) -> Result<bool, NoMemory> {
        self.families.reserve()?;
        self.families.secured(family);
        Ok(true)
    }

    fn asked(&self, family: &Name, count: u32, present: u32) -> Asked {
        self.families.asked(family, count, present, &self.know)
    }
}
PROGRAM
if [ "${1-}" = --quick ]; then
    # That build checks each step as it runs, and is some hundred times slower.
    sed -i 's/ROUNDS: u32 = 20;/ROUNDS: u32 = 1;/; s/\[10, 1_000, 10_000\]/[10, 200]/' src/main.rt
    rt try --steps 1
else
    rt run
fi
