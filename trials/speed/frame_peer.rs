//! The frames of `frame_codec.rt.txt` as one would read and spell them in Rust without proofs: checks, verdicts and
//! changes of policies, with names that own their bytes. The peer that the speed of frames is measured against. For
//! timing alone.
#![allow(dead_code)]
use std::collections::VecDeque;
use std::env;
use std::io::{self, Read};
use std::time::Instant;

const PIECE: usize = 65_536;
const MOST_LENGTH: usize = 1_048_576;

type Text = Box<[u8]>;

struct Row {
    client: Text,
    user: Text,
    privilege: Text,
}

enum Change {
    Set { bucket: Text, key: Row, kind: u16, metadata: Text },
    Delete { bucket: Text, key: Row },
}

enum Message {
    Check { question: Row },
    SetPolicies { changes: Vec<Change> },
    Judged { commit: u64, kind: u16, metadata: Text, bucket: Text, row: Option<Row> },
}

struct Framed {
    sequence: u16,
    message: Message,
}

#[derive(Clone, Copy, Debug)]
enum Refusal {
    Length(u32),
    Operation(u8),
    Field(usize),
    Trailing(usize),
}

struct Fields<'a> {
    end: usize,
    rest: &'a [u8],
}

impl<'a> Fields<'a> {
    fn place(&self) -> usize {
        self.end - self.rest.len()
    }

    fn number<const N: usize>(&mut self) -> Result<[u8; N], Refusal> {
        let place = self.place();
        let (bytes, rest) = self.rest.split_first_chunk::<N>().ok_or(Refusal::Field(place))?;
        self.rest = rest;
        Ok(*bytes)
    }

    fn tested(&mut self, test: fn(&[u8]) -> bool) -> Result<Text, Refusal> {
        let place = self.place();
        let count = u16::from_be_bytes(self.number()?) as usize;
        let text = self.rest.get(..count).ok_or(Refusal::Field(place))?;
        self.rest = &self.rest[count..];
        if test(text) { Ok(text.into()) } else { Err(Refusal::Field(place)) }
    }

    fn flag(&mut self) -> Result<bool, Refusal> {
        let place = self.place();
        match self.number::<1>()? {
            [0] => Ok(false),
            [1] => Ok(true),
            _ => Err(Refusal::Field(place)),
        }
    }

    fn row(&mut self, test: fn(&[u8]) -> bool) -> Result<Row, Refusal> {
        Ok(Row { client: self.tested(test)?, user: self.tested(test)?, privilege: self.tested(test)? })
    }

    fn ruling(&mut self) -> Result<(u16, Text), Refusal> {
        let kind = u16::from_be_bytes(self.number()?);
        let place = self.place();
        let metadata = self.tested(is_metadata)?;
        let carried = match kind {
            0 | 1 | 65535 => metadata.is_empty(),
            65534 => is_bucket(&metadata),
            _ => true,
        };
        if carried { Ok((kind, metadata)) } else { Err(Refusal::Field(place)) }
    }

    fn change(&mut self) -> Result<Change, Refusal> {
        let sets = self.flag()?;
        let bucket = self.tested(is_bucket)?;
        let key = self.row(is_field)?;
        if sets {
            let (kind, metadata) = self.ruling()?;
            Ok(Change::Set { bucket, key, kind, metadata })
        } else {
            Ok(Change::Delete { bucket, key })
        }
    }
}

fn is_visible(byte: &u8) -> bool {
    (33..127).contains(byte) && *byte != b';'
}

fn is_name(text: &[u8]) -> bool {
    (1..=255).contains(&text.len()) && text.iter().all(is_visible) && text != b"*" && text != b"#"
}

fn is_field(text: &[u8]) -> bool {
    text == b"*" || is_name(text)
}

fn is_metadata(text: &[u8]) -> bool {
    text.len() <= 255 && text.iter().all(is_visible)
}

fn is_bucket(text: &[u8]) -> bool {
    text.len() <= 64 && text.iter().all(|byte| byte.is_ascii_alphanumeric() || matches!(byte, b'_' | b'-'))
}

fn decode(operations: &[u8], frame: &[u8]) -> Result<Framed, Refusal> {
    let mut fields = Fields { end: frame.len(), rest: &frame[4..] };
    let sequence = u16::from_be_bytes(fields.number()?);
    let [operation] = fields.number()?;
    if !operations.contains(&operation) {
        return Err(Refusal::Operation(operation));
    }
    let message = match operation {
        0x01 => Message::Check { question: fields.row(is_name)? },
        0x12 => {
            let count = u32::from_be_bytes(fields.number()?);
            let mut changes = Vec::new();
            for _ in 0..count {
                changes.push(fields.change()?);
            }
            Message::SetPolicies { changes }
        }
        _ => {
            let commit = u64::from_be_bytes(fields.number()?);
            let (kind, metadata) = fields.ruling()?;
            let bucket = fields.tested(is_bucket)?;
            let row = if fields.flag()? { Some(fields.row(is_field)?) } else { None };
            Message::Judged { commit, kind, metadata, bucket, row }
        }
    };
    if fields.rest.is_empty() { Ok(Framed { sequence, message }) } else { Err(Refusal::Trailing(fields.place())) }
}

fn put_text(out: &mut Vec<u8>, text: &[u8]) {
    out.extend_from_slice(&(text.len() as u16).to_be_bytes());
    out.extend_from_slice(text);
}

fn put_row(out: &mut Vec<u8>, row: &Row) {
    put_text(out, &row.client);
    put_text(out, &row.user);
    put_text(out, &row.privilege);
}

fn encode_into(out: &mut Vec<u8>, framed: &Framed) -> Result<(), Refusal> {
    out.clear();
    out.extend_from_slice(&[0; 4]);
    out.extend_from_slice(&framed.sequence.to_be_bytes());
    match &framed.message {
        Message::Check { question } => {
            out.push(0x01);
            put_row(out, question);
        }
        Message::SetPolicies { changes } => {
            out.push(0x12);
            out.extend_from_slice(&(changes.len() as u32).to_be_bytes());
            for change in changes {
                match change {
                    Change::Set { bucket, key, kind, metadata } => {
                        out.push(1);
                        put_text(out, bucket);
                        put_row(out, key);
                        out.extend_from_slice(&kind.to_be_bytes());
                        put_text(out, metadata);
                    }
                    Change::Delete { bucket, key } => {
                        out.push(0);
                        put_text(out, bucket);
                        put_row(out, key);
                    }
                }
            }
        }
        Message::Judged { commit, kind, metadata, bucket, row } => {
            out.push(0x81);
            out.extend_from_slice(&commit.to_be_bytes());
            out.extend_from_slice(&kind.to_be_bytes());
            put_text(out, metadata);
            put_text(out, bucket);
            out.push(row.is_some() as u8);
            if let Some(row) = row {
                put_row(out, row);
            }
        }
    }
    let length = out.len() - 4;
    if length > MOST_LENGTH {
        out.clear();
        return Err(Refusal::Length(length as u32));
    }
    out[..4].copy_from_slice(&(length as u32).to_be_bytes());
    Ok(())
}

/// Frames that come in pieces; each byte is copied once.
struct Feeder<'a> {
    operations: &'a [u8],
    partial: Vec<u8>,
    waiting: VecDeque<Framed>,
}

impl Feeder<'_> {
    fn feed(&mut self, mut piece: &[u8]) -> Result<(), Refusal> {
        while !piece.is_empty() {
            let wanted = match self.partial.first_chunk::<4>() {
                None => 4 - self.partial.len(),
                Some(length) => u32::from_be_bytes(*length) as usize + 4 - self.partial.len(),
            };
            let (front, rest) = piece.split_at(wanted.min(piece.len()));
            self.partial.extend_from_slice(front);
            piece = rest;
            let Some(length) = self.partial.first_chunk::<4>() else { continue };
            let length = u32::from_be_bytes(*length);
            if length < 3 || length as usize > MOST_LENGTH {
                return Err(Refusal::Length(length));
            }
            if self.partial.len() == length as usize + 4 {
                let framed = decode(self.operations, &self.partial)?;
                self.partial.clear();
                self.waiting.push_back(framed);
            }
        }
        Ok(())
    }
}

fn hear(operations: &[u8], bytes: &[u8], most: usize) -> Result<u64, Refusal> {
    let mut feeder = Feeder { operations, partial: Vec::new(), waiting: VecDeque::new() };
    let mut count = 0;
    for piece in bytes.chunks(most) {
        feeder.feed(piece)?;
        while let Some(_framed) = feeder.waiting.pop_front() {
            count += 1;
        }
    }
    Ok(count)
}

fn main() -> io::Result<()> {
    let words: Vec<String> = env::args().collect();
    let operations: &[u8] = match words[2].as_str() {
        "client" => &[0x01],
        "admin" => &[0x12],
        _ => &[0x81],
    };
    let times: u32 = words[3].parse().unwrap();
    let mut bytes = Vec::new();
    io::stdin().read_to_end(&mut bytes)?;
    let mut feeder = Feeder { operations, partial: Vec::new(), waiting: VecDeque::new() };
    feeder.feed(&bytes).unwrap();
    let mut buffer = Vec::new();
    let most = if words[1] == "bytes" { 1 } else { PIECE };
    let mut count = 0;
    let start = Instant::now();
    for _ in 0..times {
        if words[1] == "spell" {
            for framed in &feeder.waiting {
                encode_into(&mut buffer, framed).unwrap();
                count += 1;
            }
        } else {
            count += hear(operations, &bytes, most).unwrap();
        }
    }
    println!("{count} {}", start.elapsed().as_nanos());
    Ok(())
}
