//! A member of group 1 that keeps a log of bytes by `Replica`, for `test_rust_client.py`.
//!
//! usage: log SOCKET BEGIN
//!
//! The log begins with the text BEGIN. A line `add TEXT COUNT` adds the text so many times, and is answered with `tag N`. What became of it is a line
//! `told N RESULT`. `state` is answered with the length and the FNV-1a hash of the log, or `none`.

#[path = "../clients/rust/castd.rs"]
mod castd;
#[path = "../clients/rust/replica.rs"]
mod replica;

use castd::{Command, Process, Session};
use replica::{Machine, Replica};
use std::io;
use std::sync::mpsc;
use std::time::Duration;

struct Log(Vec<u8>);

impl Machine for Log {
    type Output = usize;

    fn apply(&mut self, _: Process, operation: &[u8]) -> usize {
        self.0.extend(operation);
        self.0.len()
    }

    fn snapshot(&self) -> Vec<u8> {
        self.0.clone()
    }

    fn restore(&mut self, state: &[u8]) {
        self.0 = state.to_vec();
    }
}

fn main() -> Result<(), castd::Error> {
    let words: Vec<String> = std::env::args().collect();
    let [_, path, begin] = &words[..] else { panic!("usage: log SOCKET BEGIN") };
    let mut session = Session::connect(path, None)?;
    let mut replica = Replica::new(1, Log(begin.clone().into_bytes()));
    session.send(Command::Join { group: 1 })?;
    let (sender, lines) = mpsc::channel();
    std::thread::spawn(move || io::stdin().lines().try_for_each(|line| sender.send(line.expect("text"))));
    loop {
        match lines.try_recv() {
            Ok(line) => println!("{}", answer(&mut session, &mut replica, &line)?),
            Err(mpsc::TryRecvError::Disconnected) => return Ok(()),
            Err(mpsc::TryRecvError::Empty) => {}
        }
        if let Some(push) = session.read(Some(Duration::from_millis(5)))? {
            let mut tell = |tag, result| println!("told {tag} {result:?}");
            replica.take(&mut session, &push, &mut tell);
        }
    }
}

fn answer(session: &mut Session, replica: &mut Replica<Log>, line: &str) -> Result<String, castd::Error> {
    let words: Vec<&str> = line.split(' ').collect();
    if let [_, text, count] = words[..] {
        let operation = text.repeat(count.parse().expect("a number"));
        return Ok(format!("tag {}", replica.operation(session, operation.as_bytes())?));
    }
    let hash = |log: &[u8]| {
        log.iter().fold(0xcbf29ce484222325u64, |it, &byte| (it ^ u64::from(byte)).wrapping_mul(0x100000001b3))
    };
    Ok(replica.machine().map_or("none".to_string(), |log| format!("{} {:x}", log.0.len(), hash(&log.0))))
}
