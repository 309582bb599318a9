//! A client of castd, the group communication daemon. A program takes this file as a module: `mod castd;`.
//!
//! The commands of a session stand in one queue, in the order of the calls, and only the first is at the daemon. A cast
//! or pass that the daemon refuses for now (`Flushing`, `OwnAbcast`, `HeldFull`) stays first and is sent again. A cast
//! that was done is delivered to its sender too, unless the sender leaves, is ejected or ends first. One that failed,
//! but not with `may_be_done`, was not cast, and may be cast again.
//!
//! Nothing moves but in calls: a program that has sent must read, and is closed with `Slow` if too many pushes wait.
#![allow(dead_code)] // A program may use a part of this module.

use std::io::{ErrorKind, Read, Write};
use std::os::fd::{AsFd, AsRawFd, BorrowedFd, RawFd};
use std::os::unix::net::UnixStream;
use std::time::{Duration, Instant};
use std::{collections::VecDeque, fmt, mem, net::Shutdown, path::Path, str::FromStr, sync::mpsc, thread};

/// The most bytes of a payload.
pub const MOST_PAYLOAD: usize = 16_384;
const MOST_FRAME: usize = 20_000;
const MOST_MEMBERS: usize = 64;
const CAST: u8 = 3;
/// A cast or pass that is refused so is sent again, after this time at the latest.
const EARLY: [Code; 3] = [Code::Flushing, Code::OwnAbcast, Code::HeldFull];
const PAUSE: Duration = Duration::from_millis(20);
const BAD_FRAME: Error = Error::BadFrame { may_be_done: false };

/// One connection of a program, as text `site.serial`. Both numbers are at least 1.
#[derive(Clone, Copy, Debug, PartialEq, Eq, PartialOrd, Ord, Hash)]
#[rustfmt::skip]
pub struct Process { pub site: u16, pub serial: u32 }

impl fmt::Display for Process {
    fn fmt(&self, f: &mut fmt::Formatter) -> fmt::Result {
        write!(f, "{}.{}", self.site, self.serial)
    }
}

impl FromStr for Process {
    type Err = std::num::ParseIntError;
    fn from_str(text: &str) -> Result<Self, Self::Err> {
        let (site, serial) = text.split_once('.').unwrap_or((text, ""));
        Ok(Process { site: site.parse()?, serial: serial.parse()? })
    }
}

/// How a message is cast: in causal order, or also in one order at all members.
#[derive(Clone, Copy, Debug, PartialEq, Eq, Hash)]
#[rustfmt::skip]
pub enum Kind { Causal = 1, Atomic = 2 }

macro_rules! codes {
    ($($code:ident)*) => {
        /// What a command was answered, or why a session was closed. Its text is its name here.
        #[derive(Clone, Copy, Debug, PartialEq, Eq, Hash)]
        pub enum Code { $($code),* }
        const CODES: &[Code] = &[$(Code::$code),*];
    };
}
codes!(Done BadFrame NotOpen TooManySessions NoGroup NotMember AlreadyMember Flushing
    OwnAbcast HeldFull TooLong NotHolder Slow Halted GroupFull OutOfRange);

impl fmt::Display for Code {
    fn fmt(&self, f: &mut fmt::Formatter) -> fmt::Result {
        write!(f, "{self:?}")
    }
}

/// What a program asks of the daemon.
#[derive(Clone, Copy, Debug, PartialEq, Eq)]
pub enum Command<'a> {
    Join { group: u16 },
    Leave { group: u16 },
    Cast { group: u16, kind: Kind, payload: &'a [u8] },
    Pass { group: u16, process: Process },
}

/// The bytes of a command's frame. Fails with `Refused` as `TooLong`, or as `OutOfRange` where a number is 0.
pub fn encode(command: &Command, tag: u32) -> Result<Vec<u8>, Error> {
    let (kind, group, rest) = match *command {
        Command::Join { group } => (1, group, vec![]),
        Command::Leave { group } => (2, group, vec![]),
        Command::Cast { payload, .. } if payload.len() > MOST_PAYLOAD => return Err(Error::Refused(Code::TooLong)),
        Command::Cast { group, kind, payload } => (CAST, group, [&[kind as u8], payload].concat()),
        Command::Pass { process: Process { site: 0, .. } | Process { serial: 0, .. }, .. } => (4, 0, vec![]),
        Command::Pass { group, process: it } => {
            (4, group, [&it.site.to_be_bytes()[..], &it.serial.to_be_bytes()].concat())
        }
    };
    let length = 11 + rest.len() as u32;
    let frame = [&length.to_be_bytes()[..], &[kind], &tag.to_be_bytes(), &group.to_be_bytes(), &rest].concat();
    (group > 0).then_some(frame).ok_or(Error::Refused(Code::OutOfRange))
}

/// A view of a group. Its members rise. The holder has the token at first; a view without members has none.
#[derive(Clone, Debug, PartialEq, Eq)]
#[rustfmt::skip]
pub struct View { pub group: u16, pub view: u32, pub members: Vec<Process>, pub holder: Option<Process> }

/// What the daemon tells. `Opened` is the first, `Closed` the last. `Reply` answers the command with its tag. `Deliver`
/// has a message of a process, whose `count` rises with each in the view. After `Ejected`, and after `Denied`, which
/// refuses a join, the own process may join again.
#[derive(Clone, Debug, PartialEq, Eq)]
pub enum Push {
    Opened(Process),
    Reply { tag: u32, code: Code },
    View(View),
    Deliver { group: u16, view: u32, process: Process, count: u32, kind: Kind, payload: Vec<u8> },
    Ejected { group: u16, view: u32 },
    Denied { group: u16, code: Code },
    Closed(Code),
}

/// The push at the front of these bytes, and how many it has. `None` where more must come; `BadFrame` where it is none.
pub fn decode(bytes: &[u8]) -> Result<Option<(Push, usize)>, Error> {
    let Some(length) = number::<usize>(&mut &*bytes, 4, 0) else { return Ok(None) };
    match bytes.get(4..length) {
        _ if !(5..=MOST_FRAME).contains(&length) => Err(BAD_FRAME),
        None => Ok(None),
        Some(frame) => push_of(frame).map(|push| Some((push, length))).ok_or(BAD_FRAME),
    }
}

/// Takes a number of so many bytes off the front. `None` where it is missing or out of range.
fn number<T: TryFrom<u32>>(rest: &mut &[u8], bytes: usize, least: u32) -> Option<T> {
    let number = rest.split_off(..bytes)?.iter().fold(0, |high, &low| high << 8 | u32::from(low));
    T::try_from(number).ok().filter(|_| number >= least)
}

fn process(rest: &mut &[u8]) -> Option<Process> {
    Some(Process { site: number(rest, 2, 1)?, serial: number(rest, 4, 1)? })
}

/// The push that a frame is, without its length.
fn push_of(mut frame: &[u8]) -> Option<Push> {
    let rest = &mut frame;
    let push = match number(rest, 1, 0)? {
        65 => Push::Opened(process(rest)?),
        66 => Push::Reply { tag: number(rest, 4, 0)?, code: *CODES.get(number::<usize>(rest, 1, 0)?)? },
        67 => {
            let (group, view, count) = (number(rest, 2, 1)?, number(rest, 4, 1)?, number::<usize>(rest, 1, 0)?);
            let members = (0..count).map(|_| process(rest)).collect::<Option<Vec<_>>>()?;
            let holder = if count > 0 { Some(*members.get(number::<usize>(rest, 1, 0)?)?) } else { None };
            let is_right = count <= MOST_MEMBERS && members.is_sorted_by(|one, next| one < next);
            Push::View(is_right.then_some(View { group, view, members, holder })?)
        }
        68 => {
            let (group, view, process) = (number(rest, 2, 1)?, number(rest, 4, 1)?, process(rest)?);
            let (count, kind) = (number(rest, 4, 1)?, number::<usize>(rest, 1, 1)?);
            let kind = *[Kind::Causal, Kind::Atomic].get(kind - 1)?;
            let payload = Some(mem::take(rest)).filter(|it| it.len() <= MOST_PAYLOAD)?.to_vec();
            Push::Deliver { group, view, process, count, kind, payload }
        }
        69 => Push::Ejected { group: number(rest, 2, 1)?, view: number(rest, 4, 1)? },
        70 => Push::Denied { group: number(rest, 2, 1)?, code: *CODES.get(number::<usize>(rest, 1, 1)?)? },
        71 => Push::Closed(*CODES.get(number::<usize>(rest, 1, 1)?)?),
        _ => return None,
    };
    rest.is_empty().then_some(push)
}

/// Why a call failed. After the last three the session is over.
#[derive(Clone, Copy, Debug, PartialEq, Eq)]
pub enum Error {
    /// The command was not done, or the daemon takes no session.
    Refused(Code),
    /// The deadline passed.
    Late { may_be_done: bool },
    /// The stream ended, or was closed with this code.
    Ended { may_be_done: bool, code: Option<Code> },
    /// The daemon sent what is no push, or a Reply to no command.
    BadFrame { may_be_done: bool },
    /// The system could not connect.
    Io(ErrorKind),
}

impl fmt::Display for Error {
    fn fmt(&self, f: &mut fmt::Formatter) -> fmt::Result {
        match self {
            Error::Refused(code) => write!(f, "refused: {code}"),
            Error::Late { .. } => write!(f, "the deadline passed"),
            Error::Ended { code: Some(code), .. } => write!(f, "closed: {code}"),
            Error::Ended { .. } => write!(f, "the stream ended"),
            Error::BadFrame { .. } => write!(f, "the daemon sent a wrong frame"),
            Error::Io(kind) => write!(f, "{kind}"),
        }
    }
}

impl std::error::Error for Error {}

/// A command in the queue. It is at the daemon once a byte is written since its last answer, which refused it for now.
struct Queued {
    tag: u32,
    frame: Vec<u8>,
    written: usize,
    refused: Option<Code>,
    due: Instant,
    is_given_up: bool,
}

/// One connection to a domain, which is one process of it. Dropping it closes the connection. A deadline is a time from
/// the call on, after which it fails with `Late`, or as the daemon refused it for now; without one it waits for ever. A
/// call keeps the pushes that come meanwhile, and `read` gives them.
pub struct Session {
    stream: UnixStream,
    process: Process,
    bytes: VecDeque<u8>,
    kept: VecDeque<Push>,
    queue: VecDeque<Queued>,
    tag: u32,
    over: Option<Error>,
}

impl Session {
    /// Connects to the socket of a domain. `Refused` is `TooManySessions` or `Halted`.
    pub fn connect(path: impl AsRef<Path>, deadline: Option<Duration>) -> Result<Session, Error> {
        let (begun, path, (done, connected)) = (Instant::now(), path.as_ref().to_owned(), mpsc::channel());
        let io = |error: std::io::Error| Error::Io(error.kind());
        // The system's call has no deadline, so a thread makes it. A connection that comes too late is dropped.
        thread::Builder::new().spawn(move || done.send(UnixStream::connect(path))).map_err(io)?;
        let connected = connected.recv_timeout(deadline.unwrap_or(Duration::MAX));
        let stream = connected.map_err(|_| Error::Late { may_be_done: false })?.map_err(io)?;
        let (process, kept, queue) = (Process { site: 0, serial: 0 }, VecDeque::new(), VecDeque::new());
        let mut it = Session { stream, process, bytes: VecDeque::new(), kept, queue, tag: 0, over: None };
        match it.wait(deadline.map(|it| it.saturating_sub(begun.elapsed())), |_| true)? {
            Push::Opened(process) => Ok(Session { process, kept: [Push::Opened(process)].into(), ..it }),
            Push::Closed(code) => Err(Error::Refused(code)),
            _ => Err(BAD_FRAME),
        }
    }

    /// The own process.
    pub fn process(&self) -> Process {
        self.process
    }

    /// Joins a group. Waits for the view that begins the membership, or for `Denied`, which `read` gives too.
    pub fn join(&mut self, group: u16, deadline: Option<Duration>) -> Result<View, Error> {
        let (begun, own) = (Instant::now(), self.process);
        self.call(Command::Join { group }, deadline)?;
        let is_last = |push: &Push| match push {
            Push::View(view) => view.group == group && view.members.contains(&own),
            Push::Denied { group: of, .. } => *of == group,
            _ => false,
        };
        let left = deadline.map(|it| it.saturating_sub(begun.elapsed()));
        let push = self.wait(left, is_last).map_err(|error| self.give_up(error))?;
        self.kept.push_back(push.clone());
        match push {
            Push::View(view) => Ok(view),
            Push::Denied { code, .. } => Err(Error::Refused(code)),
            _ => unreachable!(),
        }
    }

    /// Leaves a group at once.
    pub fn leave(&mut self, group: u16, deadline: Option<Duration>) -> Result<(), Error> {
        self.call(Command::Leave { group }, deadline)
    }

    /// Casts a payload in causal order.
    pub fn cast(&mut self, group: u16, payload: &[u8], deadline: Option<Duration>) -> Result<(), Error> {
        self.call(Command::Cast { group, kind: Kind::Causal, payload }, deadline)
    }

    /// Casts a payload in the one order of all members.
    pub fn abcast(&mut self, group: u16, payload: &[u8], deadline: Option<Duration>) -> Result<(), Error> {
        self.call(Command::Cast { group, kind: Kind::Atomic, payload }, deadline)
    }

    /// Hands the token to another member.
    pub fn pass(&mut self, group: u16, process: Process, deadline: Option<Duration>) -> Result<(), Error> {
        self.call(Command::Pass { group, process }, deadline)
    }

    /// Puts a command into the queue, and does not wait. `read` gives its final Reply, which bears the returned tag.
    pub fn send(&mut self, command: Command) -> Result<u32, Error> {
        let (tag, due) = (self.tag.wrapping_add(1), Instant::now());
        let frame = self.over.map_or_else(|| encode(&command, tag), Err)?;
        self.tag = tag;
        self.queue.push_back(Queued { tag, frame, written: 0, refused: None, due, is_given_up: false });
        self.transmit();
        Ok(tag)
    }

    /// The next push, or `None` where none comes in time.
    pub fn read(&mut self, deadline: Option<Duration>) -> Result<Option<Push>, Error> {
        match self.kept.pop_front().map_or_else(|| self.wait(deadline, |_| true), Ok) {
            Err(Error::Late { .. }) => Ok(None),
            push => push.map(Some),
        }
    }

    /// For event loops: `read` until `None` when the socket is readable, after this time, and after each other call.
    pub fn due(&self) -> Option<Duration> {
        let first = self.queue.front().filter(|it| it.written < it.frame.len())?;
        Some(first.due.saturating_duration_since(Instant::now()))
    }

    fn call(&mut self, command: Command, deadline: Option<Duration>) -> Result<(), Error> {
        let own = self.send(command)?;
        match self.wait(deadline, |push| matches!(push, Push::Reply { tag, .. } if *tag == own)) {
            Ok(Push::Reply { code, .. }) if code != Code::Done => Err(Error::Refused(code)),
            Ok(_) => Ok(()),
            Err(error) => Err(self.give_up(error)),
        }
    }

    /// How a call fails whose command is the last of the queue, or was answered.
    fn give_up(&mut self, error: Error) -> Error {
        let unsent = self.queue.back().is_some_and(|it| it.written == 0).then(|| self.queue.pop_back()).flatten();
        let may_be_done = unsent.is_none();
        self.queue.iter_mut().for_each(|it| it.is_given_up |= may_be_done);
        match error {
            Error::Late { .. } => unsent.and_then(|it| it.refused).map_or(Error::Late { may_be_done }, Error::Refused),
            Error::Ended { code, .. } => Error::Ended { may_be_done, code },
            Error::BadFrame { .. } => Error::BadFrame { may_be_done },
            _ => error,
        }
    }

    /// Waits for a push that is wanted, and keeps all others.
    fn wait(&mut self, deadline: Option<Duration>, is_wanted: impl Fn(&Push) -> bool) -> Result<Push, Error> {
        let (begun, mut left) = (Instant::now(), None);
        loop {
            self.over.map_or(Ok(()), Err)?;
            self.transmit();
            match decode(self.bytes.make_contiguous()) {
                Ok(Some((push, length))) => {
                    self.bytes.drain(..length);
                    let seen = self.settle(push);
                    self.transmit();
                    match seen {
                        Some(push) if is_wanted(&push) => return Ok(push),
                        seen => self.kept.extend(seen),
                    }
                }
                Ok(None) if left == Some(Duration::ZERO) => return Err(Error::Late { may_be_done: false }),
                Ok(None) => {
                    left = deadline.map(|it| it.saturating_sub(begun.elapsed()));
                    self.fill(left.into_iter().chain(self.due()).min());
                }
                Err(error) => self.over = Some(error),
            }
        }
    }

    /// Reads what comes within this time.
    fn fill(&mut self, wait: Option<Duration>) {
        let mut bytes = [0; 65_536];
        let set = self.stream.set_nonblocking(wait == Some(Duration::ZERO));
        let set = set.and_then(|()| self.stream.set_read_timeout(wait.filter(|it| !it.is_zero())));
        match set.and_then(|()| self.stream.read(&mut bytes)) {
            Ok(count @ 1..) => self.bytes.extend(&bytes[..count]),
            Err(error) if matches!(error.kind(), ErrorKind::WouldBlock | ErrorKind::Interrupted) => {}
            _ => self.over = Some(Error::Ended { may_be_done: false, code: None }),
        }
    }

    /// Moves the queue on as a push says. Returns the push if the program sees it.
    fn settle(&mut self, push: Push) -> Option<Push> {
        let (first, now) = (self.queue.front_mut(), Instant::now());
        match push {
            Push::Reply { tag, code } => match first.filter(|it| it.tag == tag && it.written == it.frame.len()) {
                Some(first) if EARLY.contains(&code) && first.frame[4] >= CAST && !first.is_given_up => {
                    (first.written, first.refused, first.due) = (0, Some(code), now + PAUSE);
                    return None;
                }
                Some(_) => return self.queue.pop_front().filter(|it| !it.is_given_up).map(|_| push),
                None => self.over = Some(BAD_FRAME),
            },
            Push::Closed(code) => self.over = Some(Error::Ended { may_be_done: false, code: Some(code) }),
            Push::Opened(_) if self.process.site > 0 => self.over = Some(BAD_FRAME),
            Push::Opened(_) | Push::Denied { .. } => {}
            Push::Deliver { kind, process, .. } if kind == Kind::Causal || process != self.process => {}
            _ => first.into_iter().for_each(|it| it.due = now),
        }
        (self.over != Some(BAD_FRAME)).then_some(push)
    }

    /// Writes what is due of the first command, as far as the socket takes it.
    fn transmit(&mut self) {
        let Some(first) = self.queue.front_mut().filter(|_| self.over.is_none()) else { return };
        while first.written < first.frame.len() && first.due <= Instant::now() {
            let _ = self.stream.set_nonblocking(true);
            match self.stream.write(&first.frame[first.written..]) {
                Ok(count) => first.written += count,
                // Nobody reads the stream any more. What has come of it can still be read, then it ends.
                Err(it) if it.kind() == ErrorKind::BrokenPipe => return drop(self.stream.shutdown(Shutdown::Read)),
                Err(_) => first.due = Instant::now() + PAUSE,
            }
        }
    }
}

#[rustfmt::skip]
impl AsFd for Session { fn as_fd(&self) -> BorrowedFd<'_> { self.stream.as_fd() } }

#[rustfmt::skip]
impl AsRawFd for Session { fn as_raw_fd(&self) -> RawFd { self.stream.as_raw_fd() } }
