//! One state at all members of a group. A program takes this beside the client: `mod castd; mod replica;`.
#![allow(dead_code)] // A program may use a part of this module.
use super::castd::{Code, Command, Error, Kind, Process, Push, Session, View};
use std::collections::{BTreeMap, BTreeSet, VecDeque};

// How payloads begin: an operation; who lacks the state (and the view); a part of it (the view, its number, the count).
// Any other payload is passed over.
const OPERATION: u8 = 0;
const LACKS: u8 = 1;
const PART: u8 = 2;
const MOST_PART: usize = 16_000;

/// The state of a program. `apply` does an operation of a process; the same ones in the same order must give the same
/// state everywhere. What it returns is for that process alone. `restore` takes over a state that `snapshot` gave.
pub trait Machine {
    type Output;
    fn apply(&mut self, process: Process, operation: &[u8]) -> Self::Output;
    fn snapshot(&self) -> Vec<u8>;
    fn restore(&mut self, state: &[u8]);
}

/// Is told what an own operation with a tag gave when it was done here. `Refused`: it was not cast. `Ended`: whether it
/// was done is not known here, as with what nothing was told of when the session ended.
pub type Tell<'a, T> = &'a mut dyn FnMut(u32, Result<T, Error>);

/// The copy of a member, which is given all pushes of its session. At each view those that lack the state say so, and take
/// it from one member: the holder that the view names, unless that says so too, and else the least member that does not.
/// This one ABCASTs it. The others keep the operations of the view until then, and do them behind it. If all lack it, all
/// begin with the state that their machines had at first. All members are to be replicas, since one that says nothing may
/// be waited for. A program that left the group needs a new replica.
pub struct Replica<M> {
    group: u16,
    machine: M,
    initial: Vec<u8>,
    has_state: bool,
    /// Those that have the state, where it is here.
    holders: BTreeSet<Process>,
    round: Round,
    /// The tags of what is not answered, and whether it is an operation; and of operations that are not yet delivered.
    asked: BTreeMap<u32, bool>,
    cast: VecDeque<u32>,
}

/// A view, and what came in it: whether the state is still to come to a member, and from whom, the first of `sources`; what
/// each member has sent of it; and the operations before it, the own with their tags.
#[derive(Default)]
struct Round {
    view: [u8; 4],
    members: BTreeSet<Process>,
    is_awaited: bool,
    sources: Vec<Process>,
    states: BTreeMap<Process, State>,
    kept: Vec<(Process, Vec<u8>, Option<u32>)>,
}

/// What a member has sent of the state, and of how many parts.
#[derive(Default)]
struct State {
    parts: u32,
    count: u32,
    bytes: Vec<u8>,
}

impl State {
    /// Takes a part behind its head. One that is not the next is passed over.
    fn add(&mut self, number: u32, count: u32, part: &[u8]) {
        if self.parts == 0 {
            self.count = count;
        }
        if number == self.parts && count == self.count && number < count {
            self.parts += 1;
            self.bytes.extend(part);
        }
    }

    fn is_whole(&self) -> bool {
        self.count > 0 && self.parts == self.count
    }
}

impl Round {
    /// Takes a payload that is no operation. Returns the state once it has come, or all lack it and begin with this one.
    fn take(&mut self, process: Process, payload: &[u8], initial: &[u8]) -> Option<Vec<u8>> {
        let number = |bytes: &[u8]| u32::from_be_bytes(bytes.try_into().expect("four bytes"));
        match payload.split_first() {
            Some((&LACKS, view)) if view == self.view => self.sources.retain(|&it| it != process),
            Some((&PART, rest)) if rest.len() >= 12 && rest[..4] == self.view => {
                let state = self.states.entry(process).or_default();
                state.add(number(&rest[4..8]), number(&rest[8..12]), &rest[12..]);
            }
            _ => {}
        }
        let Some(source) = self.sources.first() else {
            return Some(initial.to_vec());
        };
        self.states.get(source).filter(|it| it.is_whole()).map(|it| it.bytes.clone())
    }
}

impl<M: Machine> Replica<M> {
    /// The replica of a machine that has the state with which all begin.
    pub fn new(group: u16, machine: M) -> Self {
        let (holders, round, asked, cast) = Default::default();
        Replica { group, initial: machine.snapshot(), machine, has_state: false, holders, round, asked, cast }
    }

    /// The machine, if it has the state of the group.
    pub fn machine(&self) -> Option<&M> {
        self.has_state.then_some(&self.machine)
    }

    /// Sends an operation of at most 16,383 bytes, and returns its tag. Fails as [`Session::send`].
    pub fn operation(&mut self, session: &mut Session, operation: &[u8]) -> Result<u32, Error> {
        self.send(session, &[&[OPERATION], operation].concat())
    }

    /// Takes a push, and returns whether it was an affair of the replica alone.
    pub fn take(&mut self, session: &mut Session, push: &Push, tell: Tell<M::Output>) -> bool {
        match *push {
            Push::Reply { tag, code } => {
                let asked = self.asked.remove(&tag);
                match (asked, code) {
                    (Some(true), Code::Done) => self.cast.push_back(tag),
                    (Some(true), refusal) => tell(tag, Err(Error::Refused(refusal))),
                    _ => {}
                }
                return asked.is_some();
            }
            Push::View(ref view) if view.group == self.group => self.begin(session, view, tell),
            Push::Ejected { group, .. } if group == self.group => self.has_state = false,
            Push::Deliver { group, kind: Kind::Atomic, process, ref payload, .. } if group == self.group => {
                self.deliver(process, process == session.process(), payload, tell);
                return true;
            }
            _ => {}
        }
        false
    }

    fn send(&mut self, session: &mut Session, payload: &[u8]) -> Result<u32, Error> {
        let tag = session.send(Command::Cast { group: self.group, kind: Kind::Atomic, payload })?;
        self.asked.insert(tag, payload.first() == Some(&OPERATION));
        Ok(tag)
    }

    fn begin(&mut self, session: &mut Session, view: &View, tell: Tell<M::Output>) {
        let (number, members) = (view.view.to_be_bytes(), view.members.iter().copied().collect());
        self.holders = &self.holders & &members;
        let is_awaited = !self.has_state || self.holders != members;
        let mut sources = view.members.clone();
        sources.sort_by_key(|&it| (Some(it) != view.holder, it));
        let round = Round { view: number, members, is_awaited, sources, ..Round::default() };
        let last = std::mem::replace(&mut self.round, round);
        // The state that comes now has what was kept. What is not delivered was cast before this process was ejected.
        let lost = self.cast.drain(..).chain(last.kept.iter().filter_map(|it| it.2));
        lost.for_each(|tag| tell(tag, Err(Error::Ended { may_be_done: true, code: None })));
        // Sending fails where the session is over, which `read` tells.
        let first = self.round.sources.iter().copied().find(|it| self.holders.contains(it));
        if !self.has_state {
            let _ = self.send(session, &[&[LACKS][..], &number].concat());
        } else if is_awaited && first == Some(session.process()) {
            let state = self.machine.snapshot();
            let count = state.len().div_ceil(MOST_PART).max(1) as u32;
            for (part, place) in state.chunks(MOST_PART).chain([&[][..]]).zip(0..count) {
                let head = [&[PART][..], &number, &place.to_be_bytes(), &count.to_be_bytes()].concat();
                let _ = self.send(session, &[&head, part].concat());
            }
        }
    }

    fn deliver(&mut self, process: Process, is_own: bool, payload: &[u8], tell: Tell<M::Output>) {
        if let Some((&OPERATION, operation)) = payload.split_first() {
            self.round.kept.push((process, operation.to_vec(), is_own.then(|| self.cast.pop_front()).flatten()));
        } else if self.round.is_awaited {
            if let Some(state) = self.round.take(process, payload, &self.initial) {
                self.have(&state);
            }
        }
        let ready = if self.has_state { self.round.kept.len() } else { 0 };
        for (process, operation, tag) in self.round.kept.drain(..ready) {
            let output = self.machine.apply(process, &operation);
            if let Some(tag) = tag {
                tell(tag, Ok(output));
            }
        }
    }

    /// All members have the state from here on. It is this one, where it was not here.
    fn have(&mut self, state: &[u8]) {
        self.round.is_awaited = false;
        self.round.states.clear();
        self.holders = self.round.members.clone();
        if !std::mem::replace(&mut self.has_state, true) {
            self.machine.restore(state);
        }
    }
}
