//! A policy state as a set of files, and back, as one would write it in Rust without proofs, with the same tests. The
//! peer that the speed of `set_text` is measured against: it takes the input of `set_text_files.rt.txt` and writes the
//! same lines.
use std::collections::{BTreeMap, BTreeSet, HashMap};
use std::env;
use std::io::{self, Read, Write};
use std::time::Instant;

type Text = Vec<u8>;
type Files = BTreeMap<Text, Text>;
/// A file, and a line of it, or 0.
type Fault = (Text, usize);
type Key = [Text; 3];

const DENY: u16 = 0;
const NONE: u16 = 1;
const BUCKET: u16 = 65534;
const ALLOW: u16 = 65535;
const TYPES: [&[u8]; 4] = [b"system", b"admin", b"normal", b"guest"];
const TYPE_BUCKETS: [&[u8]; 4] = [b"USER_TYPE_SYSTEM", b"USER_TYPE_ADMIN", b"USER_TYPE_NORMAL", b"USER_TYPE_GUEST"];
const OTHER_BUILT_IN: [&[u8]; 3] = [b"MAIN", b"MANIFESTS", b"ADMIN"];
const MODES: &[u8] = b"rwxatlb";

#[derive(PartialEq)]
struct Outcome {
    kind: u16,
    metadata: Text,
}

#[derive(PartialEq)]
struct Policy {
    key: Key,
    outcome: Outcome,
}

struct Bucket {
    name: Text,
    fallback: Outcome,
    policies: Vec<Policy>,
}

struct User {
    uid: u32,
    kind: usize,
}

struct Install {
    package: Text,
    author: Text,
    app: Text,
    /// None is everyone.
    scope: Option<u32>,
    privileges: Vec<Text>,
}

struct Rule {
    labels: [Text; 2],
    /// Sets of modes, a bit for each letter.
    modes: Vec<u8>,
}

struct Desk {
    commit: u64,
    buckets: Vec<Bucket>,
    users: Vec<User>,
    installs: Vec<Install>,
    template: Vec<Rule>,
}

// ---- parts of lines

fn fields<const N: usize>(line: &[u8]) -> Option<[&[u8]; N]> {
    let mut parts = line.split(|byte| *byte == b';');
    let mut found = [&[][..]; N];
    for place in &mut found {
        *place = parts.next()?;
    }
    parts.next().is_none().then_some(found)
}

fn is_printable(text: &[u8]) -> bool {
    text.len() <= 255 && text.iter().all(|byte| (0x21..=0x7e).contains(byte) && *byte != b';')
}

fn is_name(text: &[u8]) -> bool {
    !text.is_empty() && text != b"*" && text != b"#" && is_printable(text)
}

fn is_bucket(text: &[u8]) -> bool {
    text.len() <= 64 && text.iter().all(|byte| byte.is_ascii_alphanumeric() || b"_-".contains(byte))
}

fn is_ident(text: &[u8]) -> bool {
    let is_word = text.iter().all(|byte| byte.is_ascii_alphanumeric() || b"._-".contains(byte));
    is_word && text.len() <= 100 && !matches!(text.first(), None | Some(b'.' | b'-'))
}

fn is_label(text: &[u8]) -> bool {
    let is_plain = (1..=255).contains(&text.len())
        && text.iter().all(|byte| (0x21..=0x7e).contains(byte) && !b"/\\'\"".contains(byte));
    is_plain && text[0] != b'-' && text != b"@" && text != b"?"
}

fn number(text: &[u8], most: u64) -> Option<u64> {
    let is_decimal = text.iter().all(u8::is_ascii_digit) && (text == b"0" || text.first() != Some(&b'0'));
    let number = std::str::from_utf8(text).ok()?.parse().ok()?;
    (is_decimal && number <= most).then_some(number)
}

fn scope(text: &[u8]) -> Option<Option<u32>> {
    if text == b"*" {
        Some(None)
    } else {
        Some(Some(number(text, u32::MAX as u64)? as u32))
    }
}

fn outcome(kind: &[u8], metadata: &[u8]) -> Option<Outcome> {
    let digits = kind.strip_prefix(b"0x")?;
    let is_spelt = digits.iter().all(|byte| matches!(byte, b'0'..=b'9' | b'a'..=b'f'))
        && (digits == b"0" || digits.first() != Some(&b'0'));
    let kind = u16::from_str_radix(std::str::from_utf8(digits).ok()?, 16).ok()?;
    let is_right = match kind {
        DENY | NONE | ALLOW => metadata.is_empty(),
        BUCKET => is_bucket(metadata),
        _ => is_printable(metadata),
    };
    (is_spelt && is_right).then(|| Outcome { kind, metadata: metadata.to_vec() })
}

fn modes(word: &[u8]) -> Option<u8> {
    let set = (0..7).filter(|bit| word.contains(&MODES[*bit])).fold(0, |set, bit| set | 1 << bit);
    let mut text = Text::new();
    push_modes(&mut text, set);
    (text == word).then_some(set)
}

fn push_modes(text: &mut Text, set: u8) {
    if set == 0 {
        text.push(b'-');
    }
    text.extend((0..7).filter(|bit| set & 1 << bit != 0).map(|bit| MODES[bit]));
}

fn rule(line: &[u8]) -> Option<Rule> {
    let words: Vec<&[u8]> = line.split(|byte| *byte == b' ').collect();
    let [subject, object, rest @ ..] = words.as_slice() else { return None };
    let is_right = |label: &[u8]| {
        is_label(label)
            && (label[0] != b'~' || [&b"~PROCESS~"[..], b"~PATH_RW~", b"~PATH_RO~", b"~AUTHOR~"].contains(&label))
    };
    let modes = rest.iter().map(|word| modes(word)).collect::<Option<Vec<_>>>()?;
    let is_whole = is_right(subject) && is_right(object) && (1..=2).contains(&modes.len());
    is_whole.then(|| Rule { labels: [subject.to_vec(), object.to_vec()], modes })
}

// ---- reading

fn each_line(files: &Files, name: &[u8], mut take: impl FnMut(&[u8]) -> Option<()>) -> Result<(), Fault> {
    let text = files.get(name).ok_or((name.to_vec(), 0))?;
    for (at, line) in text.split_inclusive(|byte| *byte == b'\n').enumerate() {
        line.strip_suffix(b"\n").and_then(&mut take).ok_or((name.to_vec(), at + 1))?;
    }
    Ok(())
}

fn expect(holds: bool, name: &[u8], line: usize) -> Result<(), Fault> {
    if holds {
        Ok(())
    } else {
        Err((name.to_vec(), line))
    }
}

fn named(start: &[u8], name: &[u8]) -> Text {
    [start, name].concat()
}

fn read(files: &Files) -> Result<Desk, Fault> {
    let fixed = [&b"apps"[..], b"buckets", b"stamp", b"template", b"users"];
    let is_bucket_file = |name: &[u8]| name.strip_prefix(b"_").is_some_and(is_bucket);
    let is_load_file = |name: &[u8]| name.strip_prefix(b"r.").is_some_and(is_ident);
    expect_names(files, |name| !is_bucket_file(name) && !is_load_file(name), fixed.iter().map(|name| name.to_vec()))?;
    let mut commit = None;
    each_line(files, b"stamp", |line| commit.replace(number(line, u64::MAX)?).is_none().then_some(()))?;
    let commit = commit.ok_or((b"stamp".to_vec(), 1))?;
    let mut buckets = read_buckets(files)?;
    expect_names(files, is_bucket_file, buckets.iter().map(|bucket| named(b"_", &bucket.name)))?;
    read_policies(files, &mut buckets)?;
    let mut users: Vec<User> = Vec::new();
    each_line(files, b"users", |line| {
        let [uid, kind] = fields(line)?;
        let user =
            User { uid: number(uid, u32::MAX as u64)? as u32, kind: TYPES.iter().position(|word| *word == kind)? };
        let is_next = users.last().is_none_or(|last| last.uid < user.uid) && users.len() < 64;
        users.push(user);
        is_next.then_some(())
    })?;
    let (installs, authors) = read_installs(files, &users)?;
    expect_names(files, is_load_file, authors.keys().map(|package| named(b"r.", package)))?;
    let mut template = Vec::new();
    each_line(files, b"template", |line| {
        template.push(rule(line)?);
        (template.len() <= 64).then_some(())
    })?;
    let desk = Desk { commit, buckets, users, installs, template };
    test_together(&desk)?;
    for (package, author) in &authors {
        let name = named(b"r.", package);
        expect(files[&name] == load_text(&desk, package, author), &name, 0)?;
    }
    Ok(desk)
}

fn expect_names(
    files: &Files,
    is_sort: impl Fn(&[u8]) -> bool,
    needed: impl Iterator<Item = Text>,
) -> Result<(), Fault> {
    let found: BTreeSet<&[u8]> = files.keys().map(Vec::as_slice).filter(|name| is_sort(name)).collect();
    let needed: Vec<Text> = needed.collect();
    let needed: BTreeSet<&[u8]> = needed.iter().map(Vec::as_slice).collect();
    match found.symmetric_difference(&needed).next() {
        Some(name) => Err((name.to_vec(), 0)),
        None => Ok(()),
    }
}

fn read_buckets(files: &Files) -> Result<Vec<Bucket>, Fault> {
    let mut buckets: Vec<Bucket> = Vec::new();
    each_line(files, b"buckets", |line| {
        let [name, kind, metadata] = fields(line)?;
        let fallback = outcome(kind, metadata)?;
        let is_next = buckets.last().map_or(name.is_empty(), |last| last.name.as_slice() < name) && buckets.len() < 256;
        let is_right = is_bucket(name) && fallback.kind != BUCKET && !(name.is_empty() && fallback.kind == NONE);
        buckets.push(Bucket { name: name.to_vec(), fallback, policies: Vec::new() });
        (is_next && is_right).then_some(())
    })?;
    expect(!buckets.is_empty(), b"buckets", 1)?;
    Ok(buckets)
}

fn read_policies(files: &Files, buckets: &mut [Bucket]) -> Result<(), Fault> {
    let names: Vec<Text> = buckets.iter().map(|bucket| bucket.name.clone()).collect();
    let mut count = 0;
    for bucket in buckets {
        each_line(files, &named(b"_", &bucket.name), |line| {
            let [client, user, privilege, kind, metadata] = fields(line)?;
            let outcome = outcome(kind, metadata)?;
            let texts = [client, user, privilege];
            let is_key = texts.iter().all(|text| *text == b"*" || is_name(text));
            let is_next = bucket.policies.last().is_none_or(|last| last.key.iter().map(Vec::as_slice).lt(texts));
            let is_there = outcome.kind != BUCKET || names.binary_search(&outcome.metadata).is_ok();
            bucket.policies.push(Policy { key: texts.map(<[u8]>::to_vec), outcome });
            count += 1;
            (is_key && is_next && is_there && count <= 65_536).then_some(())
        })?;
    }
    Ok(())
}

fn read_installs(files: &Files, users: &[User]) -> Result<(Vec<Install>, BTreeMap<Text, Text>), Fault> {
    let (mut installs, mut authors): (Vec<Install>, BTreeMap<Text, Text>) = (Vec::new(), BTreeMap::new());
    let (mut packages, mut grants): (HashMap<Text, Text>, usize) = (HashMap::new(), 0);
    each_line(files, b"apps", |line| {
        let mut parts = line.split(|byte| *byte == b';');
        let [package, author, app] = [parts.next()?, parts.next()?, parts.next()?];
        let scope = scope(parts.next()?)?;
        let privileges: Vec<Text> = parts.map(<[u8]>::to_vec).collect();
        let is_form = is_ident(package) && (author.is_empty() || is_ident(author)) && is_ident(app);
        let is_set = privileges.iter().all(|name| is_name(name)) && privileges.is_sorted_by(|one, next| one < next);
        let is_user = scope.is_none_or(|uid| users.binary_search_by_key(&uid, |user| user.uid).is_ok());
        let is_next = installs
            .last()
            .is_none_or(|last| (last.package.as_slice(), last.app.as_slice(), last.scope) < (package, app, scope));
        let is_own = packages.entry(app.to_vec()).or_insert_with(|| package.to_vec()) == package;
        let is_by = authors.entry(package.to_vec()).or_insert_with(|| author.to_vec()) == author;
        grants += privileges.len();
        installs.push(Install {
            package: package.to_vec(),
            author: author.to_vec(),
            app: app.to_vec(),
            scope,
            privileges,
        });
        let is_within = authors.len() <= 1_024 && installs.len() <= 8_192 && grants <= 65_536;
        (is_form && is_set && is_user && is_next && is_own && is_by && is_within).then_some(())
    })?;
    Ok((installs, authors))
}

fn test_together(desk: &Desk) -> Result<(), Fault> {
    let bucket = |name: &[u8]| desk.buckets.iter().find(|bucket| bucket.name == name);
    let built_in = OTHER_BUILT_IN.iter().chain(&TYPE_BUCKETS).filter(|name| bucket(name).is_some()).count();
    let is_bare = desk.users.is_empty() && desk.installs.is_empty();
    expect(!has_cycle(desk) && (built_in == 7 || built_in == 0 && is_bare), b"buckets", 0)?;
    let (Some(main), Some(manifests)) = (bucket(b"MAIN"), bucket(b"MANIFESTS")) else { return Ok(()) };
    expect(main.policies == main_rows(&desk.users), b"_MAIN", 0)?;
    expect(manifests.policies == manifest_rows(&desk.installs), b"_MANIFESTS", 0)?;
    expect(main.fallback.kind == DENY && manifests.fallback.kind == DENY, b"buckets", 0)
}

// A bucket to which none of those that are left points is on no cycle.
fn has_cycle(desk: &Desk) -> bool {
    let place = |name: &Text| desk.buckets.binary_search_by(|bucket| bucket.name.cmp(name)).unwrap();
    let links = |bucket: &Bucket| -> BTreeSet<usize> {
        let links = bucket.policies.iter().filter(|policy| policy.outcome.kind == BUCKET);
        links.map(|policy| place(&policy.outcome.metadata)).collect()
    };
    let links: Vec<BTreeSet<usize>> = desk.buckets.iter().map(links).collect();
    let mut counts = vec![0; links.len()];
    links.iter().flatten().for_each(|target| counts[*target] += 1);
    let mut free: Vec<usize> = (0..links.len()).filter(|bucket| counts[*bucket] == 0).collect();
    let mut left = links.len();
    while let Some(bucket) = free.pop() {
        left -= 1;
        for target in &links[bucket] {
            counts[*target] -= 1;
            free.extend((counts[*target] == 0).then_some(*target));
        }
    }
    left > 0
}

fn main_rows(users: &[User]) -> Vec<Policy> {
    let link = |user: &[u8], to: &[u8]| Policy {
        key: [b"*".to_vec(), user.to_vec(), b"*".to_vec()],
        outcome: Outcome { kind: BUCKET, metadata: to.to_vec() },
    };
    let mut rows: Vec<Policy> =
        users.iter().map(|user| link(user.uid.to_string().as_bytes(), TYPE_BUCKETS[user.kind])).collect();
    rows.push(link(b"*", b"MANIFESTS"));
    rows.sort_by(|one, other| one.key.cmp(&other.key));
    rows
}

fn manifest_rows(installs: &[Install]) -> Vec<Policy> {
    let mut keys: Vec<Key> = Vec::new();
    for install in installs {
        let (label, scope) = (named(b"User::Pkg::", &install.package), scope_text(install.scope));
        keys.extend(install.privileges.iter().map(|privilege| [label.clone(), scope.clone(), privilege.clone()]));
    }
    keys.sort_unstable();
    keys.dedup();
    keys.into_iter().map(|key| Policy { key, outcome: Outcome { kind: ALLOW, metadata: Text::new() } }).collect()
}

// ---- writing

fn scope_text(scope: Option<u32>) -> Text {
    scope.map_or(b"*".to_vec(), |uid| uid.to_string().into_bytes())
}

fn push(text: &mut Text, parts: &[&[u8]], mark: u8) {
    for part in parts {
        text.extend_from_slice(part);
        text.push(mark);
    }
    text.pop();
}

fn push_rule(text: &mut Text, labels: [&[u8]; 2], modes: &[u8]) {
    push(text, &labels, b' ');
    for set in modes {
        text.push(b' ');
        push_modes(text, *set);
    }
    text.push(b'\n');
}

fn load_text(desk: &Desk, package: &[u8], author: &[u8]) -> Text {
    let (own, by) = (named(b"User::Pkg::", package), named(b"User::Author::", author));
    let read_only = [own.as_slice(), b"::RO"].concat();
    let mut text = Text::new();
    for rule in &desk.template {
        let labels = rule.labels.each_ref().map(|label| match label.as_slice() {
            b"~PROCESS~" | b"~PATH_RW~" => own.as_slice(),
            b"~PATH_RO~" => &read_only,
            b"~AUTHOR~" => &by,
            label => label,
        });
        if !author.is_empty() || !rule.labels.iter().any(|label| label == b"~AUTHOR~") {
            push_rule(&mut text, labels, &rule.modes);
        }
    }
    text
}

fn push_outcome(text: &mut Text, outcome: &Outcome) {
    write!(text, ";{:#x};", outcome.kind).unwrap();
    text.extend_from_slice(&outcome.metadata);
    text.push(b'\n');
}

fn write(desk: &Desk) -> Files {
    let (mut buckets, mut users, mut apps, mut template, mut files) =
        (Text::new(), Text::new(), Text::new(), Text::new(), Files::new());
    for bucket in &desk.buckets {
        buckets.extend_from_slice(&bucket.name);
        push_outcome(&mut buckets, &bucket.fallback);
        let mut text = Text::new();
        for policy in &bucket.policies {
            push(&mut text, &policy.key.each_ref().map(Vec::as_slice), b';');
            push_outcome(&mut text, &policy.outcome);
        }
        files.insert(named(b"_", &bucket.name), text);
    }
    for user in &desk.users {
        push(&mut users, &[user.uid.to_string().as_bytes(), TYPES[user.kind]], b';');
        users.push(b'\n');
    }
    for install in &desk.installs {
        push(&mut apps, &[&install.package, &install.author, &install.app, &scope_text(install.scope)], b';');
        for privilege in &install.privileges {
            apps.push(b';');
            apps.extend_from_slice(privilege);
        }
        apps.push(b'\n');
        let name = named(b"r.", &install.package);
        files.entry(name).or_insert_with(|| load_text(desk, &install.package, &install.author));
    }
    for rule in &desk.template {
        push_rule(&mut template, rule.labels.each_ref().map(Vec::as_slice), &rule.modes);
    }
    let stamp = format!("{}\n", desk.commit).into_bytes();
    files.extend([
        (b"stamp".to_vec(), stamp),
        (b"buckets".to_vec(), buckets),
        (b"users".to_vec(), users),
        (b"apps".to_vec(), apps),
        (b"template".to_vec(), template),
    ]);
    files
}

// ---- the input

fn measure(files: &Files, times: u32) {
    match read(files) {
        Ok(desk) => println!("desk {}", if write(&desk) == *files { "same" } else { "other" }),
        Err((name, line)) => println!("damaged {} {line}", String::from_utf8_lossy(&name)),
    }
    let (mut reading, mut writing) = (u128::MAX, u128::MAX);
    for _ in 0..times {
        let start = Instant::now();
        let Ok(desk) = read(files) else { return };
        reading = reading.min(start.elapsed().as_micros());
        let start = Instant::now();
        let again = write(&desk);
        writing = writing.min(start.elapsed().as_micros());
        drop(again);
    }
    if times > 0 {
        println!("read {reading} write {writing}");
    }
}

fn main() -> io::Result<()> {
    let times = env::args().nth(1).map_or(0, |word| word.parse().unwrap());
    let (mut input, mut files, mut name) = (Text::new(), Files::new(), Text::new());
    io::stdin().read_to_end(&mut input)?;
    for line in input.split(|byte| *byte == b'\n') {
        match line.split_first() {
            Some((b'=', text)) => {
                name = text.to_vec();
                files.insert(name.clone(), Text::new());
            }
            Some((b'.', _)) => measure(&std::mem::take(&mut files), times),
            Some((mark, text)) => {
                let file = files.get_mut(&name).unwrap();
                file.extend_from_slice(text);
                file.extend((*mark == b'-').then_some(b'\n'));
            }
            None => (),
        }
    }
    Ok(())
}
