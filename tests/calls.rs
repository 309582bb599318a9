//! Makes the calls of the Rust client that lines name, for `client_cases.py`, and prints what comes of each.
//!
//! usage: calls SOCKET SECONDS
//!
//! A line is `SECONDS CALL`, or `send COMMAND`. SECONDS is the deadline; `-` is none.

#[path = "../clients/rust/castd.rs"]
mod castd;

use castd::{Command, Error, Kind, Push, Session, View};
use std::io::{self, BufRead};
use std::time::Duration;

fn main() {
    let words: Vec<String> = std::env::args().collect();
    let mut session = match Session::connect(&words[1], deadline_of(&words[2])) {
        Ok(session) => session,
        Err(error) => return println!("{}", failure(error)),
    };
    println!("connected {}", session.process());
    for line in io::stdin().lock().lines() {
        let line = line.expect("a line of text");
        let (how, call) = line.split_once(' ').expect("two words");
        println!("{}", answer(&mut session, how, call).unwrap_or_else(failure));
    }
}

fn answer(session: &mut Session, how: &str, call: &str) -> Result<String, Error> {
    let mut words = call.splitn(3, ' ');
    let (word, group, rest) = (words.next().unwrap(), words.next().unwrap_or("0"), words.next().unwrap_or(""));
    let (group, payload) = (group.parse().expect("a group"), rest.as_bytes());
    let process = || rest.parse().expect("a process");
    if how == "send" {
        let command = match word {
            "join" => Command::Join { group },
            "leave" => Command::Leave { group },
            "cast" => Command::Cast { group, kind: Kind::Causal, payload },
            "abcast" => Command::Cast { group, kind: Kind::Atomic, payload },
            _ => Command::Pass { group, process: process() },
        };
        return Ok(format!("tag {}", session.send(command)?));
    }
    let deadline = deadline_of(how);
    match word {
        "read" => return Ok(session.read(deadline)?.map_or("none".to_string(), text_of)),
        "join" => return Ok(text_of(Push::View(session.join(group, deadline)?))),
        "leave" => session.leave(group, deadline)?,
        "cast" => session.cast(group, payload, deadline)?,
        "abcast" => session.abcast(group, payload, deadline)?,
        _ => session.pass(group, process(), deadline)?,
    }
    Ok("done".to_string())
}

fn deadline_of(word: &str) -> Option<Duration> {
    (word != "-").then(|| Duration::from_secs_f64(word.parse().expect("seconds")))
}

fn text_of(push: Push) -> String {
    match push {
        Push::Opened(process) => format!("opened {process}"),
        Push::Reply { tag, code } => format!("reply {tag} {code}"),
        Push::View(View { group, view, members, .. }) => {
            let members: Vec<String> = members.iter().map(ToString::to_string).collect();
            format!("view {group} {view} {}", members.join(" "))
        }
        Push::Deliver { payload, .. } => format!("deliver {}", String::from_utf8_lossy(&payload)),
        Push::Ejected { group, view } => format!("ejected {group} {view}"),
        Push::Denied { group, code } => format!("denied {group} {code}"),
        Push::Closed(code) => format!("closed {code}"),
    }
}

fn failure(error: Error) -> String {
    let doubt = |may_be_done| if may_be_done { ", may be done" } else { "" };
    match error {
        Error::Refused(code) => format!("refused {code}"),
        Error::Late { may_be_done } => format!("late{}", doubt(may_be_done)),
        Error::Ended { may_be_done, code: None } => format!("ended{}", doubt(may_be_done)),
        Error::Ended { may_be_done, code: Some(code) } => format!("ended {code}{}", doubt(may_be_done)),
        Error::BadFrame { may_be_done } => format!("bad frame{}", doubt(may_be_done)),
        Error::Io(_) => "failed".to_string(),
    }
}
