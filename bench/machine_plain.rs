//! Part of what `covisor replay POLICY` does, in plain Rust, for `bench/machine_run`: FLOW_MODs over three policies of
//! examples/, each of two members on one virtual switch that is a whole switch.
//!
//!     machine_plain POLICY [LINES]      POLICY is monitor, firewall or balancer; the script is on standard input
//!
//! It does `up NAME`, the switch once and first, and `from NAME HEX` with one FLOW_MOD of a member: ADD, MODIFY_STRICT
//! or DELETE_STRICT. It keeps the members' tables and levels, composes what descends from a changed entry, and reports
//! what `s1` is put. At other lines and messages it panics, and at an ADD that is refused since it overlaps, or no room
//! or level is left for it. It judges no grants, and keeps no counts, timeouts, barriers or rounds. With LINES it
//! writes on standard error how many seconds the lines behind so many took, with their report.
use std::collections::{BTreeMap, HashMap};
use std::hash::{BuildHasherDefault, Hasher};
use std::io::{self, BufRead, StdoutLock, Write};
use std::rc::Rc;
use std::time::Instant;
use std::{array, env, mem};

// ---- policies

#[derive(Clone, Copy, PartialEq)]
enum Op {
    Par,
    Seq,
    Over,
}

/// A member as the policy has it.
struct Item {
    name: &'static str,
    bits: u32,
    entries: usize,
    misses: bool,
}

fn policy(name: &str) -> (Op, [Item; 2]) {
    let item = |name, bits, entries, misses| Item { name, bits, entries, misses };
    match name {
        "monitor" => (Op::Par, [item("monitor@v1", 4, 256, false), item("router@v1", 6, 1024, true)]),
        "firewall" => (Op::Over, [item("firewall@v1", 3, 1024, false), item("router@v1", 8, 1024, true)]),
        "balancer" => (Op::Seq, [item("balancer@v1", 4, 1024, true), item("router@v1", 6, 1024, true)]),
        _ => panic!("no policy {name}"),
    }
}

const NORMAL: u16 = 0xfffa;
const CONTROLLER: u16 = 0xfffd;
const ADD: u16 = 0;
const MODIFY_STRICT: u16 = 2;
const DELETE: u16 = 3;
const DELETE_STRICT: u16 = 4;

// ---- matches

/// The 40 bytes of a match, in words.
type Words = [u64; 5];

const NO_BITS: Words = [0; 5];

/// The words whose bits are set in these bytes.
const fn span(start: usize, length: usize) -> Words {
    let mut words = NO_BITS;
    let mut at = start;
    while at < start + length {
        words[at / 8] |= 0xff << (56 - 8 * (at % 8));
        at += 1;
    }
    words
}

fn and(a: &Words, b: &Words) -> Words {
    array::from_fn(|at| a[at] & b[at])
}

fn or(a: &Words, b: &Words) -> Words {
    array::from_fn(|at| a[at] | b[at])
}

fn without(a: &Words, b: &Words) -> Words {
    array::from_fn(|at| a[at] & !b[at])
}

/// Whether words agree in some bits.
fn alike(a: &Words, b: &Words, bits: &Words) -> bool {
    (0..5).fold(0, |differ, at| differ | (a[at] ^ b[at]) & bits[at]) == 0
}

fn words(bytes: &[u8]) -> Words {
    array::from_fn(|at| bytes[8 * at..8 * at + 8].iter().fold(0, |n, b| n << 8 | u64::from(*b)))
}

fn bytes_of(words: &Words) -> [u8; 40] {
    let mut bytes = [0; 40];
    let places = bytes.chunks_exact_mut(8).zip(words);
    places.for_each(|(place, word)| place.copy_from_slice(&word.to_be_bytes()));
    bytes
}

fn short(bytes: &[u8], at: usize) -> u16 {
    u16::from_be_bytes([bytes[at], bytes[at + 1]])
}

/// Where a field begins, how long it is, and its bit of the wildcards. VLANs and TOS are granted by no policy here.
const FIELDS: [(usize, usize, u32); 7] =
    [(4, 2, 0), (6, 6, 2), (12, 6, 3), (22, 2, 4), (25, 1, 5), (36, 2, 6), (38, 2, 7)];
/// The fields that actions set, in the order of the actions' types from 4.
const SETS: [(usize, usize); 7] = [(6, 6), (12, 6), (28, 4), (32, 4), (24, 1), (36, 2), (38, 2)];
const ETHERNET: Words = span(6, 12);
const NETWORK: Words = [0, 0, 0, 0xff00_0000_ffff_ffff, 0xffff_ffff_0000_0000];
const TRANSPORT: Words = span(36, 4);

/// The bits that a match asks for, or that a rewrite sets; the others of `value` are zero.
#[derive(Clone, Copy, Default, PartialEq, Eq, Hash)]
struct Match {
    mask: Words,
    value: Words,
}

type Rewrite = Match;

impl Match {
    fn read(bytes: &[u8]) -> Match {
        let all = words(bytes);
        let wild = (all[0] >> 32) as u32;
        let named = |bit: u32| wild >> bit & 1 == 0;
        assert!(!named(1) && !named(20) && !named(21), "fields that no policy here grants");
        let kind = if named(4) { short(bytes, 22) } else { 0 };
        let network = matches!(kind, 0x0800 | 0x0806);
        let transport = kind == 0x0800 && named(5) && matches!(bytes[25], 1 | 6 | 17);
        let fits = |bit: u32| (bit != 5 || network) && (bit != 6 && bit != 7 || transport);
        let mut mask = NO_BITS;
        for (start, length, _) in FIELDS.into_iter().filter(|field| named(field.2) && fits(field.2)) {
            mask = or(&mask, &span(start, length));
        }
        let prefix = |shift: u32| u64::from(u32::MAX.checked_shl(wild >> shift & 63).unwrap_or(0));
        if network {
            mask[3] |= prefix(8);
            mask[4] |= prefix(14) << 32;
        }
        Match { mask, value: and(&all, &mask) }
    }

    /// The words of the match's bytes.
    fn written(&self) -> Words {
        let mut wild = 1 << 1 | 1 << 20 | 1 << 21;
        wild |= u64::from((!self.mask[3] as u32).count_ones()) << 8;
        wild |= u64::from((!self.mask[4] >> 32).count_ones()) << 14;
        for (start, _, bit) in FIELDS {
            wild |= (!self.mask[start / 8] >> (56 - 8 * (start % 8)) & 1) << bit;
        }
        let mut words = self.value;
        words[0] |= wild << 32;
        words
    }

    fn meet(&self, other: &Match) -> Option<Match> {
        let met = || Match { mask: or(&self.mask, &other.mask), value: or(&self.value, &other.value) };
        alike(&self.value, &other.value, &and(&self.mask, &other.mask)).then(met)
    }

    fn in_port(&self) -> Option<u16> {
        (self.mask[0] as u32 >> 16 != 0).then_some((self.value[0] >> 16) as u16)
    }

    /// What a rewrite sets in the headers of this match.
    fn set_by(&self, rewrite: &Rewrite) -> Words {
        let is_ip = self.value[2] as u16 == 0x0800;
        let has_ports = is_ip && matches!(self.value[3] >> 48 & 0xff, 6 | 17);
        let fields = or(&ETHERNET, if is_ip { &NETWORK } else { &NO_BITS });
        and(&rewrite.mask, &or(&fields, if has_ports { &TRANSPORT } else { &NO_BITS }))
    }

    /// The match whose headers come into this one once they are rewritten.
    fn pull(&self, rewrite: &Rewrite) -> Option<Match> {
        let set = self.set_by(rewrite);
        let pulled = || Match { mask: without(&self.mask, &set), value: without(&self.value, &set) };
        alike(&self.value, &rewrite.value, &and(&self.mask, &set)).then(pulled)
    }

    /// A match that holds what this one holds, rewritten.
    fn image(&self, rewrite: &Rewrite) -> Match {
        let set = self.set_by(rewrite);
        self.then(&Match { mask: set, value: and(&rewrite.value, &set) })
    }

    /// What two rewrites set, one after the other.
    fn then(&self, next: &Rewrite) -> Rewrite {
        let value = or(&without(&self.value, &next.mask), &next.value);
        Match { mask: or(&self.mask, &next.mask), value }
    }
}

/// A quick hash, without a defence against chosen keys.
#[derive(Default)]
struct Mix(u64);

impl Hasher for Mix {
    fn finish(&self) -> u64 {
        self.0 ^ self.0 >> 32
    }

    fn write(&mut self, bytes: &[u8]) {
        for part in bytes.chunks(8) {
            let mut word = [0; 8];
            word[..part.len()].copy_from_slice(part);
            self.0 = (self.0.rotate_left(5) ^ u64::from_le_bytes(word)).wrapping_mul(0x517c_c1b7_2722_0a95);
            self.0 ^= self.0 >> 29;
        }
    }
}

type Map<K, V> = HashMap<K, V, BuildHasherDefault<Mix>>;

/// Ids by their matches: by the bits that these ask for, and then by what these are.
#[derive(Default)]
struct Index {
    groups: Map<Words, Map<Words, Vec<usize>>>,
}

impl Index {
    fn insert(&mut self, m: &Match, id: usize) {
        self.groups.entry(m.mask).or_default().entry(m.value).or_default().push(id);
    }

    fn remove(&mut self, m: &Match, id: usize) {
        let group = self.groups.get_mut(&m.mask).expect("a group");
        let bucket = group.get_mut(&m.value).expect("a bucket");
        bucket.retain(|other| *other != id);
        if bucket.is_empty() {
            group.remove(&m.value);
        }
        if group.is_empty() {
            self.groups.remove(&m.mask);
        }
    }

    fn meeting(&self, m: &Match, mut found: impl FnMut(usize)) {
        for (mask, group) in &self.groups {
            if without(mask, &m.mask) == NO_BITS {
                let bucket = group.get(&and(&m.value, mask));
                bucket.into_iter().flatten().for_each(|id| found(*id));
                continue;
            }
            let common = and(mask, &m.mask);
            for (_, bucket) in group.iter().filter(|(value, _)| alike(value, &m.value, &common)) {
                bucket.iter().for_each(|id| found(*id));
            }
        }
    }
}

// ---- members

/// A port where a packet leaves, rewritten.
type Out = (Rewrite, u16);

/// What an action list does: what it sends out, and the rewrite with which it passes packets on.
struct Effects {
    outs: Vec<Out>,
    pass: Option<Rewrite>,
}

impl Effects {
    fn read(mut list: &[u8]) -> Effects {
        let mut found = Effects { outs: Vec::new(), pass: None };
        let mut rewrite = Rewrite::default();
        while !list.is_empty() {
            match (short(list, 0), short(list, 4)) {
                (0, NORMAL) => found.pass = Some(rewrite),
                (0, port) => found.outs.push((rewrite, port)),
                (kind, _) => {
                    let (start, size) = SETS[usize::from(kind) - 4];
                    let mut bytes = [0; 40];
                    bytes[start..start + size].copy_from_slice(&list[4..4 + size]);
                    rewrite = rewrite.then(&Match { mask: span(start, size), value: words(&bytes) });
                }
            }
            list = &list[usize::from(short(list, 2))..];
        }
        found
    }
}

/// The bytes of an action list that does outs in order, the latter ones of packets that are rewritten first.
fn action_list(in_port: Option<u16>, outs: &[Out], first: &Rewrite, more: &[Out]) -> Rc<[u8]> {
    let mut list = Vec::with_capacity(32);
    let all = outs.iter().copied().chain(more.iter().map(|(rewrite, port)| (first.then(rewrite), *port)));
    if all.clone().any(|(_, port)| port == CONTROLLER) {
        list.extend([0, 0, 0, 8, 0xff, 0xfd, 0xff, 0xff]);
    }
    let mut now = Rewrite::default();
    for (rewrite, port) in all.filter(|(_, port)| *port != CONTROLLER && Some(*port) != in_port) {
        for (kind, (start, size)) in (4..).zip(SETS) {
            let field = and(&span(start, size), &rewrite.mask);
            let stands = without(&field, &now.mask) == NO_BITS && alike(&now.value, &rewrite.value, &field);
            if field != NO_BITS && !stands {
                let length = if size == 6 { 16 } else { 8 };
                let end = list.len() + length;
                list.extend([0, kind, 0, length as u8]);
                list.extend(&bytes_of(&rewrite.value)[start..start + size]);
                list.resize(end, 0);
            }
        }
        now = now.then(&rewrite);
        list.extend([0, 0, 0, 8, (port >> 8) as u8, port as u8, 0, 0]);
    }
    list.into()
}

/// A rule of a member: of an entry of its table, or, of rank MISS, of what it has no entry for.
struct Rule {
    m: Match,
    rank: u32,
    level: u32,
    effects: Effects,
    /// The actions where nothing else is done.
    alone: Rc<[u8]>,
}

const MISS: u32 = u32::MAX;

impl Rule {
    fn new(m: Match, rank: u32, level: u32, effects: Effects) -> Rule {
        let alone = action_list(m.in_port(), &effects.outs, &Rewrite::default(), &[]);
        Rule { m, rank, level, effects, alone }
    }
}

/// The entries of a priority.
struct Rank {
    level: u32,
    index: Index,
}

struct Member {
    item: Item,
    op: Op,
    side: usize,
    /// By the order in which they came, of which the first is what it has no entry for.
    rules: Vec<Option<Box<Rule>>>,
    ids: Map<(u32, Match), usize>,
    ranks: BTreeMap<u32, Rank>,
    /// By what the other member's rules have to meet.
    reached: Index,
}

impl Member {
    fn new(op: Op, side: usize, item: Item) -> Member {
        let told = item.misses.then_some((Rewrite::default(), CONTROLLER));
        let effects = Effects { outs: told.into_iter().collect(), pass: None };
        let (rules, ids, ranks, reached) = Default::default();
        let mut member = Member { item, op, side, rules, ids, ranks, reached };
        member.rules.push(None);
        member.put(0, Rule::new(Match::default(), MISS, 1, effects));
        member
    }

    fn rule(&self, id: usize) -> &Rule {
        self.rules[id].as_ref().expect("a rule")
    }

    /// What the other member's rules have to meet, where they are joined with this one.
    fn reach(&self, rule: &Rule) -> Option<Match> {
        match (self.op, self.side, &rule.effects.pass) {
            (Op::Over, ..) | (Op::Seq, 0, None) => None,
            (Op::Seq, 0, Some(rewrite)) => Some(rule.m.image(rewrite)),
            _ => Some(rule.m),
        }
    }

    fn put(&mut self, id: usize, rule: Rule) {
        if let Some(m) = self.reach(&rule) {
            self.reached.insert(&m, id);
        }
        self.rules[id] = Some(Box::new(rule));
    }

    fn take(&mut self, id: usize) -> Box<Rule> {
        let rule = self.rules[id].take().expect("a rule");
        if let Some(m) = self.reach(&rule) {
            self.reached.remove(&m, id);
        }
        rule
    }

    fn add(&mut self, m: Match, rank: u32, effects: Effects) -> usize {
        let id = self.rules.len();
        self.rules.push(None);
        let held = self.ranks.get_mut(&rank).expect("a rank");
        held.index.insert(&m, id);
        self.ids.insert((rank, m), id);
        let level = held.level;
        self.put(id, Rule::new(m, rank, level, effects));
        id
    }

    /// Takes an entry out of the table, but leaves its rank.
    fn forget(&mut self, id: usize) {
        let Rule { m, rank, .. } = *self.take(id);
        self.ids.remove(&(rank, m));
        self.ranks.get_mut(&rank).expect("a rank").index.remove(&m, id);
    }

    /// An ADD that comes in isn't refused.
    fn check(&self, m: &Match, rank: u32) {
        let same = self.ids.get(&(rank, *m));
        match self.ranks.get(&rank) {
            None => assert!(self.ranks.len() < (1 << self.item.bits) - 2, "no level is left"),
            Some(held) => held.index.meeting(m, |id| assert!(same == Some(&id), "an entry overlaps")),
        }
        assert!(self.ids.len() < self.item.entries || same.is_some(), "no room is left");
    }

    /// Gives a new rank a level. Where none is left between its neighbours', ranks are moved: their entries are told.
    fn place(&mut self, rank: u32) -> Vec<(usize, u32)> {
        let mut moved = Vec::new();
        if self.ranks.contains_key(&rank) {
            return moved;
        }
        let size = 1 << self.item.bits;
        let low = self.ranks.range(..rank).next_back().map_or(1, |(_, held)| held.level);
        let high = self.ranks.range(rank..).next().map_or(size, |(_, held)| held.level);
        self.ranks.insert(rank, Rank { level: low + (high - low) / 2, index: Index::default() });
        if high - low < 2 {
            let parts = self.ranks.len() as u32 + 1;
            for (at, held) in (1..).zip(self.ranks.values_mut()) {
                let level = 1 + at * (size - 1) / parts;
                if mem::replace(&mut held.level, level) != level {
                    held.index.meeting(&Match::default(), |id| moved.push((id, level)));
                }
            }
        }
        moved
    }
}

// ---- the switch

/// By priority, and then by the bytes of the match.
type Key = (u16, Words);
/// The leaves of which a rule is made: 1 and up of the left member, and SECOND and up of the right one.
type Ancestry = [u64; 2];
type Entry = (Ancestry, Rc<[u8]>);
/// An entry that goes, or that comes with its actions.
type Change = (Key, Ancestry, Option<Rc<[u8]>>);

const SECOND: u64 = 1 << 32;

/// The entries of a key, of which that of the least ancestry stands.
#[derive(Default)]
struct Slot {
    stands: Option<Entry>,
    others: Vec<Entry>,
    cookie: u64,
}

impl Slot {
    fn remove(&mut self, ancestry: &Ancestry) {
        if self.stands.as_ref().is_some_and(|entry| entry.0 == *ancestry) {
            let least = (0..self.others.len()).min_by_key(|at| self.others[*at].0);
            self.stands = least.map(|at| self.others.swap_remove(at));
        } else {
            self.others.retain(|entry| entry.0 != *ancestry);
        }
    }

    fn insert(&mut self, mut entry: Entry) {
        if let Some(stands) = self.stands.as_mut() {
            if entry.0 < stands.0 {
                mem::swap(stands, &mut entry);
            }
            return self.others.push(entry);
        }
        self.stands = Some(entry);
    }
}

struct Machine {
    members: [Member; 2],
    slots: Map<Key, Slot>,
    xid: u32,
    cookie: u64,
    report: Vec<u8>,
    out: StdoutLock<'static>,
}

impl Machine {
    fn new(name: &str) -> Machine {
        let (op, [left, right]) = policy(name);
        let members = [Member::new(op, 0, left), Member::new(op, 1, right)];
        let (slots, out) = (Map::default(), io::stdout().lock());
        Machine { members, slots, xid: 0, cookie: 0, report: Vec::new(), out }
    }

    fn flush(&mut self, most: usize) -> io::Result<()> {
        if self.report.len() > most {
            self.out.write_all(&self.report)?;
            self.report.clear();
        }
        self.out.flush()
    }

    fn put(&mut self, kind: u8, body: &[u8], more: &[u8]) {
        self.xid += 1;
        let length = (8 + body.len() + more.len()) as u64;
        let head = (1 << 24 | u64::from(kind) << 16 | length) << 32 | u64::from(self.xid);
        self.report.extend(b"to s1 ");
        for part in [&head.to_be_bytes()[..], body, more] {
            let start = self.report.len();
            self.report.resize(start + 2 * part.len(), 0);
            for (digits, byte) in self.report[start..].chunks_exact_mut(2).zip(part) {
                let digit = |half: u8| b"0123456789abcdef"[usize::from(half)];
                digits.copy_from_slice(&[digit(byte >> 4), digit(byte & 15)]);
            }
        }
        self.report.push(b'\n');
    }

    fn put_flow_mod(&mut self, key: &Key, cookie: u64, command: u16, actions: &[u8]) {
        let mut body = [0; 64];
        body[..40].copy_from_slice(&bytes_of(&key.1));
        body[40..48].copy_from_slice(&cookie.to_be_bytes());
        body[48..50].copy_from_slice(&command.to_be_bytes());
        body[54..56].copy_from_slice(&key.0.to_be_bytes());
        body[56..62].fill(0xff);
        body[63] = u8::from(command == ADD);
        self.put(14, &body, actions);
    }

    /// The entries that are made of a rule of a member, and go or come with it.
    fn made(&self, side: usize, id: usize, comes: bool, changes: &mut Vec<Change>) {
        let (member, other) = (&self.members[side], &self.members[1 - side]);
        let (rule, size) = (member.rule(id), 1 << self.members[1].item.bits);
        if let Some(m) = member.reach(rule) {
            return other.reached.meeting(&m, |partner| {
                let (a, b) = if side == 0 { (id, partner) } else { (partner, id) };
                changes.extend(self.joined(a, b, size, comes));
            });
        }
        let (level, leaf) = match (member.op, side) {
            (Op::Over, 0) if rule.rank == MISS => return,
            (Op::Over, 0) => (size + rule.level, 1 + id as u64),
            (Op::Over, _) => (rule.level, SECOND + id as u64),
            _ => (rule.level * size, 1 + id as u64),
        };
        let key = (level as u16 + 1, rule.m.written());
        changes.push((key, [leaf, 0], comes.then(|| rule.alone.clone())));
    }

    fn joined(&self, left: usize, right: usize, size: u32, comes: bool) -> Option<Change> {
        let (a, b, none) = (self.members[0].rule(left), self.members[1].rule(right), Rewrite::default());
        let (m, level, rewrite) = match (self.members[0].op, &a.effects.pass) {
            (Op::Seq, Some(rewrite)) => (a.m.meet(&b.m.pull(rewrite)?)?, a.level * size + b.level, rewrite),
            _ => (a.m.meet(&b.m)?, a.level + b.level, &none),
        };
        let is_alone = a.effects.outs.is_empty() && rewrite.mask == NO_BITS && m.in_port() == b.m.in_port();
        let list = || match is_alone {
            true => b.alone.clone(),
            false => action_list(m.in_port(), &a.effects.outs, rewrite, &b.effects.outs),
        };
        let key = (level as u16 + 1, m.written());
        Some((key, [1 + left as u64, SECOND + right as u64], comes.then(list)))
    }

    /// Does changes to the entries, and puts the switch what they come to.
    fn change(&mut self, mut changes: Vec<Change>) {
        changes.sort_unstable_by(|a, b| a.0.cmp(&b.0).then(a.2.is_some().cmp(&b.2.is_some())));
        let mut batch = [(DELETE_STRICT, Vec::new()), (ADD, Vec::new())];
        for group in changes.chunk_by_mut(|a, b| a.0 == b.0) {
            let key = group[0].0;
            let slot = self.slots.entry(key).or_default();
            let before = slot.stands.clone();
            for (_, ancestry, actions) in group {
                match actions.take() {
                    None => slot.remove(ancestry),
                    Some(actions) => slot.insert((*ancestry, actions)),
                }
            }
            if before != slot.stands {
                if before.is_some() {
                    batch[0].1.push((key, slot.cookie, None));
                }
                if let Some((_, actions)) = &slot.stands {
                    self.cookie += 1;
                    slot.cookie = self.cookie;
                    batch[1].1.push((key, slot.cookie, Some(actions.clone())));
                }
            }
            if slot.stands.is_none() {
                self.slots.remove(&key);
            }
        }
        for (command, messages) in batch.iter().filter(|(_, messages)| !messages.is_empty()) {
            for (key, cookie, actions) in messages {
                self.put_flow_mod(key, *cookie, *command, actions.as_deref().unwrap_or(&[]));
            }
            self.put(18, &[], &[]);
        }
    }

    fn comes_up(&mut self) {
        assert_eq!(self.xid, 0, "the switch comes up once");
        self.put(9, &[0, 0, 0xff, 0xff], &[]);
        self.put_flow_mod(&(0, Match::default().written()), 0, DELETE, &[]);
        self.put(18, &[], &[]);
        let mut changes = Vec::new();
        self.made(if self.members[0].op == Op::Over { 1 } else { 0 }, 0, true, &mut changes);
        self.change(changes);
    }

    fn flow_mod(&mut self, side: usize, frame: &[u8]) {
        assert!(frame[1] == 14 && usize::from(short(frame, 2)) == frame.len(), "a FLOW_MOD");
        let (m, rank, command) = (Match::read(&frame[8..48]), u32::from(short(frame, 62)), short(frame, 56));
        let same = self.members[side].ids.get(&(rank, m)).copied();
        let mut changes = Vec::new();
        match (command, same) {
            (DELETE_STRICT, None) => (),
            (DELETE_STRICT, Some(id)) => {
                self.made(side, id, false, &mut changes);
                let member = &mut self.members[side];
                member.forget(id);
                if member.ranks[&rank].index.groups.is_empty() {
                    member.ranks.remove(&rank);
                }
            }
            (MODIFY_STRICT, Some(id)) => {
                self.made(side, id, false, &mut changes);
                let level = self.members[side].take(id).level;
                self.members[side].put(id, Rule::new(m, rank, level, Effects::read(&frame[72..])));
                self.made(side, id, true, &mut changes);
            }
            (ADD | MODIFY_STRICT, _) => self.add(side, m, rank, Effects::read(&frame[72..]), &mut changes),
            _ => panic!("a command {command} isn't done"),
        }
        self.change(changes);
    }

    fn add(&mut self, side: usize, m: Match, rank: u32, effects: Effects, changes: &mut Vec<Change>) {
        self.members[side].check(&m, rank);
        if let Some(id) = self.members[side].ids.get(&(rank, m)).copied() {
            self.made(side, id, false, changes);
            self.members[side].forget(id);
        }
        for (id, level) in self.members[side].place(rank) {
            self.made(side, id, false, changes);
            self.members[side].rules[id].as_mut().expect("a rule").level = level;
            self.made(side, id, true, changes);
        }
        let id = self.members[side].add(m, rank, effects);
        self.made(side, id, true, changes);
    }
}

fn main() -> io::Result<()> {
    let words: Vec<String> = env::args().skip(1).collect();
    let mut machine = Machine::new(&words[0]);
    let before: Option<u64> = words.get(1).map(|word| word.parse().expect("a number"));
    let (mut input, mut line, mut lines, mut start) = (io::stdin().lock(), Vec::new(), 0, Instant::now());
    let digit = |byte: u8| (byte as char).to_digit(16).expect("a digit") as u8;
    loop {
        if before == Some(lines) {
            machine.flush(0)?;
            start = Instant::now();
        }
        line.clear();
        if input.read_until(b'\n', &mut line)? == 0 {
            break;
        }
        lines += 1;
        let text = std::str::from_utf8(&line).expect("text").trim_end_matches('\n');
        let words: Vec<&str> = text.split(' ').collect();
        let side = machine.members.iter().position(|member| words.get(1) == Some(&member.item.name));
        match (&words[..], side) {
            (["up", "s1"], _) => machine.comes_up(),
            (["up", _], Some(_)) if machine.xid > 0 => (),
            (["from", _, digits], Some(side)) if machine.xid > 0 => {
                let pairs = digits.as_bytes().chunks_exact(2);
                let frame: Vec<u8> = pairs.map(|pair| digit(pair[0]) << 4 | digit(pair[1])).collect();
                machine.flow_mod(side, &frame);
            }
            _ => assert!(text.is_empty() || text.starts_with('#'), "a line that isn't done: {text}"),
        }
        machine.flush(1 << 16)?;
    }
    writeln!(machine.report, "end lines={lines}")?;
    machine.flush(0)?;
    if before.is_some() {
        eprintln!("{}", start.elapsed().as_secs_f64());
    }
    Ok(())
}
