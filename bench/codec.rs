//! The plain Rust that the codec of `cast_frame` is measured against: the same frames, the same tests of every field, no
//! crates. `codec FILE ROUNDS` prints the nanoseconds of ROUNDS decodings of the file's bytes, and of ROUNDS encodings.
//! `codec frames FOLDER` writes the frames that are measured.

use std::hint::black_box;
use std::sync::Arc;
use std::time::Instant;
use std::{env, fs, process};

#[derive(Debug)]
enum Fault {
    Short,
    Magic,
    Version,
    WrongType,
    Length,
    NotSorted,
    Range,
}

#[derive(Clone, Copy, PartialEq, Eq, PartialOrd, Ord)]
struct Proc {
    site: u16,
    serial: u32,
}

struct Uid {
    group: u16,
    view: u32,
    proc: Proc,
    count: u32,
}

type Entry = (Proc, u32);

struct Clock {
    group: u16,
    view: u32,
    counts: Vec<Entry>,
}

enum Body {
    Causal(Arc<[u8]>),
    Atomic(Arc<[u8]>),
}

struct Message {
    id: Uid,
    times: Vec<Clock>,
    body: Body,
}

struct Flushed {
    group: u16,
    view: u32,
    counts: Vec<Entry>,
    start: u32,
    tail: Vec<Entry>,
    kept: Vec<(Entry, bool)>,
}

enum Frame {
    Data(Message),
    Flushed(Flushed),
}

// What is left to read.
struct Reader<'a> {
    bytes: &'a [u8],
}

impl<'a> Reader<'a> {
    fn take(&mut self, count: usize) -> Result<&'a [u8], Fault> {
        if self.bytes.len() < count {
            return Err(Fault::Short);
        }
        let (front, rest) = self.bytes.split_at(count);
        self.bytes = rest;
        Ok(front)
    }

    fn byte(&mut self, low: u8, high: u8) -> Result<u8, Fault> {
        let number = self.take(1)?[0];
        if number < low || number > high {
            return Err(Fault::Range);
        }
        Ok(number)
    }

    fn short(&mut self, low: u16, high: u16) -> Result<u16, Fault> {
        let front = self.take(2)?;
        let number = u16::from_be_bytes([front[0], front[1]]);
        if number < low || number > high {
            return Err(Fault::Range);
        }
        Ok(number)
    }

    fn word(&mut self, low: u32, high: u32) -> Result<u32, Fault> {
        let front = self.take(4)?;
        let number = u32::from_be_bytes([front[0], front[1], front[2], front[3]]);
        if number < low || number > high {
            return Err(Fault::Range);
        }
        Ok(number)
    }

    fn proc(&mut self) -> Result<Proc, Fault> {
        let site = self.short(1, u16::MAX)?;
        let serial = self.word(1, u32::MAX)?;
        Ok(Proc { site, serial })
    }

    fn entry(&mut self) -> Result<Entry, Fault> {
        Ok((self.proc()?, self.word(1, u32::MAX)?))
    }

    fn uid(&mut self) -> Result<Uid, Fault> {
        let group = self.short(1, u16::MAX)?;
        let view = self.word(1, u32::MAX)?;
        let proc = self.proc()?;
        let count = self.word(1, u32::MAX)?;
        Ok(Uid { group, view, proc, count })
    }

    fn counts(&mut self) -> Result<Vec<Entry>, Fault> {
        let count = self.byte(0, 64)?;
        let mut entries: Vec<Entry> = Vec::with_capacity(usize::from(count));
        for _ in 0..count {
            let proc = self.proc()?;
            if entries.last().is_some_and(|last| last.0 >= proc) {
                return Err(Fault::NotSorted);
            }
            entries.push((proc, self.word(1, u32::MAX)?));
        }
        Ok(entries)
    }

    fn times(&mut self) -> Result<Vec<Clock>, Fault> {
        let count = self.byte(1, 32)?;
        let mut clocks: Vec<Clock> = Vec::with_capacity(usize::from(count));
        for _ in 0..count {
            let group = self.short(1, u16::MAX)?;
            if clocks.last().is_some_and(|last| last.group >= group) {
                return Err(Fault::NotSorted);
            }
            let view = self.word(1, u32::MAX)?;
            let counts = self.counts()?;
            clocks.push(Clock { group, view, counts });
        }
        Ok(clocks)
    }

    fn payload(&mut self) -> Result<Arc<[u8]>, Fault> {
        let len = self.short(0, 16_384)?;
        Ok(Arc::from(self.take(usize::from(len))?))
    }

    fn message(&mut self) -> Result<Message, Fault> {
        let id = self.uid()?;
        let kind = self.byte(1, 2)?;
        let times = self.times()?;
        let payload = self.payload()?;
        let body = if kind == 1 { Body::Causal(payload) } else { Body::Atomic(payload) };
        Ok(Message { id, times, body })
    }

    fn tail(&mut self) -> Result<(u32, Vec<Entry>), Fault> {
        let start = self.word(0, 4_000_000_000)?;
        let count = self.short(0, 512)?;
        let mut ids = Vec::with_capacity(usize::from(count));
        for _ in 0..count {
            ids.push(self.entry()?);
        }
        Ok((start, ids))
    }

    fn kept(&mut self) -> Result<Vec<(Entry, bool)>, Fault> {
        let count = self.short(0, 2_048)?;
        let mut kept: Vec<(Entry, bool)> = Vec::with_capacity(usize::from(count));
        for _ in 0..count {
            let entry = self.entry()?;
            if kept.last().is_some_and(|last| last.0 >= entry) {
                return Err(Fault::NotSorted);
            }
            kept.push((entry, self.byte(0, 1)? == 1));
        }
        Ok(kept)
    }

    fn flushed(&mut self) -> Result<Flushed, Fault> {
        let group = self.short(1, u16::MAX)?;
        let view = self.word(1, u32::MAX)?;
        let counts = self.counts()?;
        let (start, tail) = self.tail()?;
        let kept = self.kept()?;
        Ok(Flushed { group, view, counts, start, tail, kept })
    }
}

fn decode(bytes: &[u8]) -> Result<(u8, u16, Frame), Fault> {
    if bytes.len() > 60_000 {
        return Err(Fault::Length);
    }
    let mut reader = Reader { bytes };
    if reader.short(0, u16::MAX)? != 0x4344 {
        return Err(Fault::Magic);
    }
    if reader.byte(0, u8::MAX)? != 1 {
        return Err(Fault::Version);
    }
    let frame_type = reader.byte(0, u8::MAX)?;
    if frame_type != 1 && frame_type != 7 {
        return Err(Fault::WrongType);
    }
    let domain = reader.byte(1, u8::MAX)?;
    let site = reader.short(1, u16::MAX)?;
    let frame = if frame_type == 1 {
        Frame::Data(reader.message()?)
    } else {
        Frame::Flushed(reader.flushed()?)
    };
    if !reader.bytes.is_empty() {
        return Err(Fault::Length);
    }
    Ok((domain, site, frame))
}

fn put_proc(out: &mut Vec<u8>, proc: Proc) {
    out.extend_from_slice(&proc.site.to_be_bytes());
    out.extend_from_slice(&proc.serial.to_be_bytes());
}

fn put_entry(out: &mut Vec<u8>, entry: &Entry) {
    put_proc(out, entry.0);
    out.extend_from_slice(&entry.1.to_be_bytes());
}

fn put_counts(out: &mut Vec<u8>, counts: &[Entry]) {
    out.push(counts.len() as u8);
    for entry in counts {
        put_entry(out, entry);
    }
}

fn put_message(out: &mut Vec<u8>, message: &Message) {
    out.extend_from_slice(&message.id.group.to_be_bytes());
    out.extend_from_slice(&message.id.view.to_be_bytes());
    put_proc(out, message.id.proc);
    out.extend_from_slice(&message.id.count.to_be_bytes());
    let (kind, payload) = match &message.body {
        Body::Causal(payload) => (1, payload),
        Body::Atomic(payload) => (2, payload),
    };
    out.push(kind);
    out.push(message.times.len() as u8);
    for clock in &message.times {
        out.extend_from_slice(&clock.group.to_be_bytes());
        out.extend_from_slice(&clock.view.to_be_bytes());
        put_counts(out, &clock.counts);
    }
    out.extend_from_slice(&(payload.len() as u16).to_be_bytes());
    out.extend_from_slice(payload);
}

fn put_flushed(out: &mut Vec<u8>, flushed: &Flushed) {
    out.extend_from_slice(&flushed.group.to_be_bytes());
    out.extend_from_slice(&flushed.view.to_be_bytes());
    put_counts(out, &flushed.counts);
    out.extend_from_slice(&flushed.start.to_be_bytes());
    out.extend_from_slice(&(flushed.tail.len() as u16).to_be_bytes());
    for id in &flushed.tail {
        put_entry(out, id);
    }
    out.extend_from_slice(&(flushed.kept.len() as u16).to_be_bytes());
    for (id, mark) in &flushed.kept {
        put_entry(out, id);
        out.push(u8::from(*mark));
    }
}

fn encode(domain: u8, site: u16, frame: &Frame) -> Vec<u8> {
    let mut out = Vec::with_capacity(512);
    out.extend_from_slice(&0x4344_u16.to_be_bytes());
    out.push(1);
    out.push(if matches!(frame, Frame::Data(_)) { 1 } else { 7 });
    out.push(domain);
    out.extend_from_slice(&site.to_be_bytes());
    match frame {
        Frame::Data(message) => put_message(&mut out, message),
        Frame::Flushed(flushed) => put_flushed(&mut out, flushed),
    }
    out
}

// What a frame adds to the sum that is printed, so that no call can be left out.
fn weight(frame: &Frame) -> usize {
    match frame {
        Frame::Data(message) => match &message.body {
            Body::Causal(payload) | Body::Atomic(payload) => payload.len(),
        },
        Frame::Flushed(flushed) => flushed.kept.len(),
    }
}

fn measure(file: &str, rounds: u32) -> Result<(), Fault> {
    let bytes = fs::read(file).expect("the file can be read");
    let start = Instant::now();
    let mut sum: usize = 0;
    for _ in 0..rounds {
        let (_, _, frame) = decode(black_box(&bytes))?;
        sum = sum.wrapping_add(weight(&frame));
    }
    println!("decode {} {sum}", start.elapsed().as_nanos());
    let (domain, site, frame) = decode(&bytes)?;
    let start = Instant::now();
    let mut sum: usize = 0;
    for _ in 0..rounds {
        sum = sum.wrapping_add(encode(domain, site, black_box(&frame)).len());
    }
    println!("encode {} {sum}", start.elapsed().as_nanos());
    Ok(())
}

// A message of a view of eight members, each of which has sent.
fn data(payload: usize) -> Frame {
    let counts = (1..=8).map(|serial| (Proc { site: 1, serial }, serial)).collect();
    Frame::Data(Message {
        id: Uid { group: 1, view: 2, proc: Proc { site: 1, serial: 8 }, count: 8 },
        times: vec![Clock { group: 1, view: 2, counts }],
        body: Body::Causal(Arc::from(vec![7; payload])),
    })
}

// The largest Flushed: 64 counts, 512 ids of the order, 2,048 kept messages.
fn flushed() -> Frame {
    let id = |serial, count| (Proc { site: 1, serial }, count);
    Frame::Flushed(Flushed {
        group: 1,
        view: 2,
        counts: (1..=64).map(|serial| id(serial, 32)).collect(),
        start: 100,
        tail: (1..=512).map(|count| id(1, count)).collect(),
        kept: (1..=64).flat_map(|s| (1..=32).map(move |c| (id(s, c), c % 2 == 0))).collect(),
    })
}

fn write_frames(folder: &str) {
    for (name, frame) in [
        ("data-16", data(16)),
        ("data-1024", data(1_024)),
        ("data-16384", data(16_384)),
        ("flushed", flushed()),
    ] {
        fs::write(format!("{folder}/{name}"), encode(1, 1, &frame)).expect("the file can be written");
    }
}

fn main() {
    let words: Vec<String> = env::args().collect();
    match words.as_slice() {
        [_, word, folder] if word == "frames" => write_frames(folder),
        [_, file, rounds] => {
            let rounds = rounds.parse().expect("ROUNDS is a number");
            if let Err(fault) = measure(file, rounds) {
                eprintln!("the bytes are no frame: {fault:?}");
                process::exit(1);
            }
        }
        _ => {
            eprintln!("usage: codec FILE ROUNDS, or codec frames FOLDER");
            process::exit(2);
        }
    }
}
