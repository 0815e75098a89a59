//! `local` and `smack-access` as one would write them in Rust without proofs, for inputs without a fault. The peer that
//! the program's speed is measured against.
use std::collections::HashMap;
use std::env;
use std::io::{self, BufRead, BufWriter, Read, Write};

type Key = [Vec<u8>; 3];

fn key(words: &[&[u8]]) -> Key {
    [words[0].to_vec(), words[1].to_vec(), words[2].to_vec()]
}

/// The policies of the root bucket, in order of key, with the rank of the result: deny, none, allow.
type Policies = Vec<(Key, u8)>;

fn rank(word: &[u8]) -> u8 {
    [b"deny".as_slice(), b"none", b"allow"].iter().position(|result| *result == word).unwrap() as u8
}

/// One change: a key that gets a result, or none.
fn change(words: &[&[u8]]) -> (Key, Option<u8>) {
    (key(&words[2..5]), words.get(5).map(|word| rank(word)))
}

/// Makes the changes, the last of a key counting, by std's stable sort and one merge.
fn merge(policies: &mut Policies, mut changes: Vec<(Key, Option<u8>)>) {
    changes.sort_by(|one, other| one.0.cmp(&other.0));
    let mut merged = Vec::with_capacity(policies.len() + changes.len());
    let mut old = std::mem::take(policies).into_iter().peekable();
    let mut new = changes.into_iter().peekable();
    while let Some((key, result)) = new.next() {
        if new.peek().is_some_and(|next| next.0 == key) {
            continue;
        }
        while let Some(policy) = old.next_if(|policy| policy.0 < key) {
            merged.push(policy);
        }
        old.next_if(|policy| policy.0 == key);
        merged.extend(result.map(|rank| (key, rank)));
    }
    merged.extend(old);
    *policies = merged;
}

fn set(policies: &mut Policies, (key, result): (Key, Option<u8>)) {
    match (policies.binary_search_by(|policy| policy.0.cmp(&key)), result) {
        (Ok(place), Some(rank)) => policies[place].1 = rank,
        (Ok(place), None) => drop(policies.remove(place)),
        (Err(place), Some(rank)) => policies.insert(place, (key, rank)),
        (Err(_), None) => (),
    }
}

fn local(input: impl BufRead, mut output: impl Write) -> io::Result<()> {
    let mut policies = Policies::new();
    let mut batch = None;
    let mut commit = 0;
    for line in input.split(b'\n') {
        let line = line?;
        let words: Vec<&[u8]> = line.split(|byte| *byte == b' ').collect();
        match (words[0], &mut batch) {
            (b"batch", _) => batch = Some(Vec::new()),
            (b"set" | b"unset", Some(changes)) => changes.push(change(&words)),
            (b"set" | b"unset", None) => {
                set(&mut policies, change(&words));
                commit += 1;
                writeln!(output, "ok {commit}")?;
            }
            (b"end", _) => {
                merge(&mut policies, batch.take().unwrap());
                commit += 1;
                writeln!(output, "ok {commit}")?;
            }
            _ => check(&policies, commit, &words[1..], &mut output)?,
        }
    }
    Ok(())
}

fn check(policies: &Policies, commit: u64, question: &[&[u8]], output: &mut impl Write) -> io::Result<()> {
    let speaks = |key: &Key| key.iter().zip(question).all(|(own, asked)| own == b"*" || own == asked);
    match policies.iter().filter(|(key, rank)| *rank != 1 && speaks(key)).min_by_key(|(_, rank)| *rank) {
        Some((key, rank)) => {
            write!(output, "{} {commit} . ", if *rank == 0 { "deny" } else { "allow" })?;
            output.write_all(&key.join(b" ".as_slice()))?;
            output.write_all(b"\n")
        }
        None => writeln!(output, "deny {commit} . default"),
    }
}

fn modes(word: &[u8]) -> u8 {
    let bits = word.iter().filter_map(|byte| b"rwxatlb".iter().position(|letter| letter.eq_ignore_ascii_case(byte)));
    bits.fold(0, |set, bit| set | 1 << bit)
}

fn smack_access(words: &[String], mut input: impl Read, mut output: impl Write) -> io::Result<()> {
    let mut text = Vec::new();
    input.read_to_end(&mut text)?;
    let mut table: HashMap<(Vec<u8>, Vec<u8>), u8> = HashMap::new();
    for line in text.split(|byte| *byte == b'\n') {
        let parts: Vec<&[u8]> = line.split(|byte| *byte == b' ' || *byte == b'\t').filter(|word| !word.is_empty()).collect();
        if let [subject, object, first, deny @ ..] = parts.as_slice() {
            let granted = table.entry((subject.to_vec(), object.to_vec())).or_default();
            *granted = deny.first().map_or(modes(first), |deny| (*granted | modes(first)) & !modes(deny));
        }
    }
    let granted = table.get(&(words[0].clone().into_bytes(), words[1].clone().into_bytes())).copied().unwrap_or(0);
    let granted = granted | if granted & 2 != 0 { 32 } else { 0 };
    let allowed = modes(words[2].as_bytes()) & !granted == 0;
    writeln!(output, "{}", if allowed { "access allow 6" } else { "access deny 7" })
}

fn main() -> io::Result<()> {
    let words: Vec<String> = env::args().skip(1).collect();
    let output = BufWriter::with_capacity(1 << 18, io::stdout().lock());
    match words[0].as_str() {
        "local" => local(io::BufReader::with_capacity(1 << 18, io::stdin().lock()), output),
        _ => smack_access(&words[1..], io::stdin().lock(), output),
    }
}
