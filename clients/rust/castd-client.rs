//! The line tool of castd: commands in, pushes out. With `--vectors` it computes what stands in clients/vectors.

mod castd;

use castd::{Code, Command, Kind, Process, Push, Session};
use std::error::Error;
use std::ffi::{OsStr, OsString};
use std::io::{self, BufRead, Write};
use std::process::ExitCode;
use std::str::FromStr;
use std::time::{Duration, Instant};

const USAGE: &str = "usage: castd-client SOCKET\n       castd-client --vectors";

type Done = Result<(), Box<dyn Error>>;

fn main() -> ExitCode {
    let words: Vec<OsString> = std::env::args_os().skip(1).collect();
    let done = match &words[..] {
        [word] if word == "--help" => print(USAGE.as_bytes()).map_err(Into::into),
        [word] if word == "--vectors" => compute_vectors().map_err(Into::into),
        [path] => talk(path),
        _ => {
            eprintln!("{USAGE}");
            return ExitCode::from(2);
        }
    };
    match done {
        Ok(()) => ExitCode::SUCCESS,
        Err(error) => {
            eprintln!("castd-client: {error}");
            ExitCode::FAILURE
        }
    }
}

fn print(line: &[u8]) -> io::Result<()> {
    let mut output = io::stdout().lock();
    output.write_all(line)?;
    output.write_all(b"\n")?;
    output.flush()
}

fn complain(line: &[u8]) -> io::Result<()> {
    io::stderr().write_all(&[b"unknown: ", line, b"\n"].concat())
}

/// Connects, and does what the lines of the input say, up to the end of the input or of the session.
fn talk(path: &OsStr) -> Done {
    let session = Session::connect(path, None).map_err(|error| format!("{}: {error}", path.display()))?;
    match obey(session) {
        Err(error) if matches!(error.downcast_ref(), Some(castd::Error::Ended { .. })) => Ok(()),
        done => done,
    }
}

fn obey(mut session: Session) -> Done {
    show(&mut session, Some(Duration::ZERO), |_| false)?;
    for line in io::stdin().lock().split(b'\n') {
        let line = line?;
        if let Some(time) = time_of(&line) {
            show(&mut session, Some(time), |_| false)?;
        } else if let Some(command) = command_of(&line) {
            give(&mut session, command)?;
        } else if !line.is_empty() {
            complain(&line)?;
        }
        show(&mut session, Some(Duration::ZERO), |_| false)?;
    }
    Ok(())
}

/// Gives a command, and shows what is pushed up to its end.
fn give(session: &mut Session, command: Command) -> Done {
    let own = session.process();
    let awaited = match command {
        Command::Join { group } => Some(group),
        _ => None,
    };
    let tag = session.send(command)?;
    show(session, None, |push| match push {
        Push::Reply { tag: of, code } => *of == tag && (*code != Code::Done || awaited.is_none()),
        Push::View(view) => awaited == Some(view.group) && view.members.contains(&own),
        Push::Denied { group, .. } => awaited == Some(*group),
        _ => false,
    })
}

/// Prints what is pushed within this time, up to the push that is the last to wait for.
fn show(session: &mut Session, time: Option<Duration>, is_last: impl Fn(&Push) -> bool) -> Done {
    let begun = Instant::now();
    while let Some(push) = session.read(time.map(|it| it.saturating_sub(begun.elapsed())))? {
        print(&line_of(&push))?;
        if is_last(&push) {
            break;
        }
    }
    Ok(())
}

/// The time of a line such as `wait 0.5`.
fn time_of(line: &[u8]) -> Option<Duration> {
    let seconds = std::str::from_utf8(line.strip_prefix(b"wait ")?).ok()?.parse().ok()?;
    Duration::try_from_secs_f64(seconds).ok()
}

/// The command of a line such as `cast 1 hello`.
fn command_of(line: &[u8]) -> Option<Command<'_>> {
    let mut words = line.splitn(3, |&byte| byte == b' ');
    let (word, group, rest) = (words.next()?, number_of(words.next()?)?, words.next());
    let payload = rest.unwrap_or_default();
    let command = match (word, rest) {
        (b"join", None) => Command::Join { group },
        (b"leave", None) => Command::Leave { group },
        (b"cast", _) => Command::Cast { group, kind: Kind::Causal, payload },
        (b"abcast", _) => Command::Cast { group, kind: Kind::Atomic, payload },
        (b"pass", Some(process)) => Command::Pass { group, process: number_of::<Process>(process)? },
        _ => return None,
    };
    castd::encode(&command, 0).is_ok().then_some(command)
}

/// A number, or a process, in its one spelling: without signs and leading zeros.
fn number_of<T: FromStr + ToString>(text: &[u8]) -> Option<T> {
    let text = std::str::from_utf8(text).ok()?;
    text.parse().ok().filter(|it: &T| it.to_string() == text)
}

/// A push as one line.
fn line_of(push: &Push) -> Vec<u8> {
    let text = match push {
        Push::Opened(process) => format!("opened {process}"),
        Push::Reply { tag, code } => format!("reply {tag} {}", text_of(*code)),
        Push::View(it) => {
            let holder = it.holder.map_or(String::new(), |holder| format!(" holder {holder}"));
            let members: String = it.members.iter().map(|member| format!(" {member}")).collect();
            format!("view {} {}{holder} members{members}", it.group, it.view)
        }
        Push::Deliver { group, view, process, count, kind, payload } => {
            let kind = if *kind == Kind::Atomic { "atomic" } else { "causal" };
            let mut line = format!("deliver {group}/{view}/{process}/{count} {kind}").into_bytes();
            line.extend(if payload.is_empty() { None } else { Some(b' ') });
            payload.iter().for_each(|&byte| match byte {
                0..32 | 127 | b'\\' => line.extend(format!("\\x{byte:02x}").into_bytes()),
                _ => line.push(byte),
            });
            return line;
        }
        Push::Ejected { group, view } => format!("ejected {group} {view}"),
        Push::Denied { group, code } => format!("denied {group} {}", text_of(*code)),
        Push::Closed(code) => format!("closed {}", text_of(*code)),
    };
    text.into_bytes()
}

/// The number of a code, and its name where it is a refusal.
fn text_of(code: Code) -> String {
    match code {
        Code::Done => "0".to_string(),
        _ => format!("{} {code}", code as u8),
    }
}

/// Prints each line of clients/vectors with what is computed here behind its equals sign.
fn compute_vectors() -> io::Result<()> {
    for line in io::stdin().lock().split(b'\n') {
        let line = line?;
        if line.is_empty() || line[0] == b'#' {
            continue;
        }
        let sign = line.windows(3).rposition(|it| it == b" = ");
        match sign.and_then(|at| Some((&line[..at], computed(&line[..at])?))) {
            Some((left, right)) => print(&[left, b" = ", &right].concat())?,
            None => complain(&line)?,
        }
    }
    Ok(())
}

fn computed(left: &[u8]) -> Option<Vec<u8>> {
    if let Some(frame) = left.strip_prefix(b"push ") {
        return Some(match castd::decode(&bytes_of(frame)?) {
            Ok(Some((push, _))) => line_of(&push),
            Ok(None) => b"more".to_vec(),
            Err(_) => b"fault".to_vec(),
        });
    }
    let mut words = left.strip_prefix(b"command ")?.splitn(2, |&byte| byte == b' ');
    let (tag, command) = (number_of(words.next()?)?, command_of(words.next()?)?);
    let frame = castd::encode(&command, tag).ok()?;
    Some(frame.iter().flat_map(|byte| format!("{byte:02x}").into_bytes()).collect())
}

/// The bytes of hexadecimal digits. Spaces are passed over.
fn bytes_of(hex: &[u8]) -> Option<Vec<u8>> {
    let digits = hex.iter().filter(|&&byte| byte != b' ').map(|&byte| char::from(byte).to_digit(16));
    let digits: Vec<u32> = digits.collect::<Option<_>>()?;
    Some(digits.chunks(2).map(|pair| pair.iter().fold(0, |high, &low| high << 4 | low as u8)).collect())
}
