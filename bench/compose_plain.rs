//! The same job as the part `compose` of `crates/bench_parts`, in plain Rust: the rules of two members are
//! composed, and kept as entries of the left member come and go.
use std::collections::{BTreeSet, HashMap};
use std::env;

#[derive(Clone, Copy, PartialEq, Eq, PartialOrd, Ord, Hash)]
struct Prefix {
    addr: u32,
    len: u8,
}

#[derive(Clone, Copy, Default, PartialEq, Eq, PartialOrd, Ord, Hash)]
struct Match {
    in_port: Option<u16>,
    dl_src: Option<u64>,
    dl_dst: Option<u64>,
    dl_vlan: Option<u16>,
    dl_vlan_pcp: Option<u8>,
    dl_type: Option<u16>,
    nw_tos: Option<u8>,
    nw_proto: Option<u8>,
    nw_src: Option<Prefix>,
    nw_dst: Option<Prefix>,
    tp_src: Option<u16>,
    tp_dst: Option<u16>,
}

fn top(addr: u32, len: u8) -> u32 {
    if len == 0 { 0 } else { addr >> (32 - u32::from(len)) }
}

/// The narrower of two fields, or none where they differ.
fn both<T: Copy + PartialEq>(a: Option<T>, b: Option<T>) -> Option<Option<T>> {
    match (a, b) {
        (Some(x), Some(y)) if x != y => None,
        (a, b) => Some(a.or(b)),
    }
}

fn longer(a: Option<Prefix>, b: Option<Prefix>) -> Option<Option<Prefix>> {
    match (a, b) {
        (Some(p), Some(q)) => {
            let len = p.len.min(q.len);
            if top(p.addr, len) != top(q.addr, len) {
                return None;
            }
            Some(Some(if q.len >= p.len { q } else { p }))
        }
        (a, b) => Some(a.or(b)),
    }
}

impl Match {
    fn meet(&self, other: &Match) -> Option<Match> {
        Some(Match {
            in_port: both(self.in_port, other.in_port)?,
            dl_src: both(self.dl_src, other.dl_src)?,
            dl_dst: both(self.dl_dst, other.dl_dst)?,
            dl_vlan: both(self.dl_vlan, other.dl_vlan)?,
            dl_vlan_pcp: both(self.dl_vlan_pcp, other.dl_vlan_pcp)?,
            dl_type: both(self.dl_type, other.dl_type)?,
            nw_tos: both(self.nw_tos, other.nw_tos)?,
            nw_proto: both(self.nw_proto, other.nw_proto)?,
            nw_src: longer(self.nw_src, other.nw_src)?,
            nw_dst: longer(self.nw_dst, other.nw_dst)?,
            tp_src: both(self.tp_src, other.tp_src)?,
            tp_dst: both(self.tp_dst, other.tp_dst)?,
        })
    }

    fn overlaps(&self, other: &Match) -> bool {
        self.meet(other).is_some()
    }

    /// Which fields are named, and how long the prefixes are.
    fn shape(&self) -> Shape {
        let bit = |place: u32, named: bool| u16::from(named) << place;
        Shape {
            named: bit(0, self.in_port.is_some())
                | bit(1, self.dl_src.is_some())
                | bit(2, self.dl_dst.is_some())
                | bit(3, self.dl_vlan.is_some())
                | bit(4, self.dl_vlan_pcp.is_some())
                | bit(5, self.dl_type.is_some())
                | bit(6, self.nw_tos.is_some())
                | bit(7, self.nw_proto.is_some())
                | bit(8, self.tp_src.is_some())
                | bit(9, self.tp_dst.is_some()),
            src: self.nw_src.map_or(0, |p| p.len),
            dst: self.nw_dst.map_or(0, |p| p.len),
        }
    }
}

#[derive(Clone, Copy, PartialEq, Eq, Hash)]
struct Shape {
    named: u16,
    src: u8,
    dst: u8,
}

fn cut(prefix: Option<Prefix>, len: u8) -> Option<Option<Prefix>> {
    if len == 0 {
        return Some(None);
    }
    let p = prefix?;
    if p.len < len {
        return None;
    }
    let addr = top(p.addr, len) << (32 - u32::from(len));
    Some(Some(Prefix { addr, len }))
}

impl Shape {
    /// What a match names of the shape, where it names all of it.
    fn keep(&self, m: &Match) -> Option<Match> {
        let has = |place: u32| self.named >> place & 1 == 1;
        fn part<T: Copy>(wanted: bool, field: Option<T>) -> Option<Option<T>> {
            match (wanted, field) {
                (false, _) => Some(None),
                (true, None) => None,
                (true, field) => Some(field),
            }
        }
        Some(Match {
            in_port: part(has(0), m.in_port)?,
            dl_src: part(has(1), m.dl_src)?,
            dl_dst: part(has(2), m.dl_dst)?,
            dl_vlan: part(has(3), m.dl_vlan)?,
            dl_vlan_pcp: part(has(4), m.dl_vlan_pcp)?,
            dl_type: part(has(5), m.dl_type)?,
            nw_tos: part(has(6), m.nw_tos)?,
            nw_proto: part(has(7), m.nw_proto)?,
            nw_src: cut(m.nw_src, self.src)?,
            nw_dst: cut(m.nw_dst, self.dst)?,
            tp_src: part(has(8), m.tp_src)?,
            tp_dst: part(has(9), m.tp_dst)?,
        })
    }
}

/// Matches under ids, by their shapes.
#[derive(Default)]
struct Index {
    held: HashMap<usize, Match>,
    groups: HashMap<Shape, HashMap<Match, Vec<usize>>>,
}

impl Index {
    fn insert(&mut self, id: usize, m: Match) {
        self.held.insert(id, m);
        self.groups.entry(m.shape()).or_default().entry(m).or_default().push(id);
    }

    fn remove(&mut self, id: usize) {
        let Some(m) = self.held.remove(&id) else {
            return;
        };
        let shape = m.shape();
        let group = self.groups.get_mut(&shape).unwrap();
        let bucket = group.get_mut(&m).unwrap();
        let place = bucket.iter().position(|other| *other == id).unwrap();
        bucket.swap_remove(place);
        if bucket.is_empty() {
            group.remove(&m);
        }
        if group.is_empty() {
            self.groups.remove(&shape);
        }
    }

    fn meeting(&self, m: &Match) -> Vec<usize> {
        let mut ids = Vec::new();
        for (shape, group) in &self.groups {
            match shape.keep(m) {
                Some(key) => ids.extend(group.get(&key).into_iter().flatten()),
                None => {
                    for (other, bucket) in group {
                        if other.overlaps(m) {
                            ids.extend(bucket);
                        }
                    }
                }
            }
        }
        ids.sort();
        ids
    }
}

#[derive(Clone, Copy, PartialEq, Eq, PartialOrd, Ord)]
struct Leaf {
    member: u32,
    kind: u64,
}

#[derive(Clone, Copy, PartialEq, Eq, Default)]
struct Rewrite {
    dl_src: Option<u64>,
    dl_dst: Option<u64>,
    nw_src: Option<u32>,
    nw_dst: Option<u32>,
    nw_tos: Option<u8>,
    tp_src: Option<u16>,
    tp_dst: Option<u16>,
}

impl Rewrite {
    fn then(&self, next: &Rewrite) -> Rewrite {
        Rewrite {
            dl_src: next.dl_src.or(self.dl_src),
            dl_dst: next.dl_dst.or(self.dl_dst),
            nw_src: next.nw_src.or(self.nw_src),
            nw_dst: next.nw_dst.or(self.nw_dst),
            nw_tos: next.nw_tos.or(self.nw_tos),
            tp_src: next.tp_src.or(self.tp_src),
            tp_dst: next.tp_dst.or(self.tp_dst),
        }
    }
}

#[derive(Clone, Copy, PartialEq, Eq)]
struct Out {
    rewrite: Rewrite,
    v: u32,
    port: u16,
}

#[derive(Clone, Copy, PartialEq, Eq)]
enum Tail {
    Nothing,
    Pass(Rewrite),
}

#[derive(Clone, PartialEq, Eq)]
struct Rule {
    m: Match,
    level: u64,
    touched: bool,
    outs: Vec<Out>,
    tail: Tail,
    ancestry: Vec<Leaf>,
}

#[derive(Clone, Copy, PartialEq)]
enum Op {
    Par,
    Seq,
    Over,
}

/// How many levels a member has.
const SIZE: u64 = 0x2_0000;

fn joined<T: Clone>(a: &[T], b: &[T]) -> Vec<T> {
    let mut list = Vec::with_capacity(a.len() + b.len());
    list.extend_from_slice(a);
    list.extend_from_slice(b);
    list
}

/// A field that a rewrite sets is no longer asked for, where it fits.
fn pulled<T: PartialEq>(sets: bool, to: Option<T>, asked: Option<T>) -> Option<Option<T>> {
    match (sets, to, asked) {
        (true, Some(to), Some(asked)) if to != asked => None,
        (true, Some(_), _) => Some(None),
        (_, _, asked) => Some(asked),
    }
}

fn pulled_prefix(sets: bool, to: Option<u32>, asked: Option<Prefix>) -> Option<Option<Prefix>> {
    match (sets, to, asked) {
        (true, Some(to), Some(p)) if top(p.addr, p.len) != top(to, p.len) => None,
        (true, Some(_), _) => Some(None),
        (_, _, asked) => Some(asked),
    }
}

/// The match whose headers come into this one once they are rewritten.
fn pull(r: &Rewrite, m: &Match) -> Option<Match> {
    let ip = m.dl_type == Some(0x0800);
    let ports = ip && matches!(m.nw_proto, Some(6 | 17));
    Some(Match {
        dl_src: pulled(true, r.dl_src, m.dl_src)?,
        dl_dst: pulled(true, r.dl_dst, m.dl_dst)?,
        nw_src: pulled_prefix(ip, r.nw_src, m.nw_src)?,
        nw_dst: pulled_prefix(ip, r.nw_dst, m.nw_dst)?,
        nw_tos: pulled(ip, r.nw_tos, m.nw_tos)?,
        tp_src: pulled(ports, r.tp_src, m.tp_src)?,
        tp_dst: pulled(ports, r.tp_dst, m.tp_dst)?,
        ..*m
    })
}

fn set<T>(sets: bool, to: Option<T>, asked: Option<T>) -> Option<T> {
    if sets { to.or(asked) } else { asked }
}

/// A match that holds what this one holds, rewritten.
fn image(r: &Rewrite, m: &Match) -> Match {
    let ip = m.dl_type == Some(0x0800);
    let ports = ip && matches!(m.nw_proto, Some(6 | 17));
    let whole = |to: Option<u32>| to.map(|addr| Prefix { addr, len: 32 });
    Match {
        dl_src: set(true, r.dl_src, m.dl_src),
        dl_dst: set(true, r.dl_dst, m.dl_dst),
        nw_src: set(ip, whole(r.nw_src), m.nw_src),
        nw_dst: set(ip, whole(r.nw_dst), m.nw_dst),
        nw_tos: set(ip, r.nw_tos, m.nw_tos),
        tp_src: set(ports, r.tp_src, m.tp_src),
        tp_dst: set(ports, r.tp_dst, m.tp_dst),
        ..*m
    }
}

fn join(op: Op, a: &Rule, b: &Rule) -> Option<Rule> {
    let (m, level, touched, outs, tail) = match (op, &a.tail) {
        (Op::Par, _) => {
            (a.m.meet(&b.m)?, a.level + b.level, a.touched | b.touched, joined(&a.outs, &b.outs), b.tail)
        }
        (Op::Seq, Tail::Pass(r)) => {
            let m = a.m.meet(&pull(r, &b.m)?)?;
            let mut outs = Vec::with_capacity(a.outs.len() + b.outs.len());
            outs.extend_from_slice(&a.outs);
            outs.extend(b.outs.iter().map(|out| Out { rewrite: r.then(&out.rewrite), ..*out }));
            let tail = match &b.tail {
                Tail::Pass(s) => Tail::Pass(r.then(s)),
                Tail::Nothing => Tail::Nothing,
            };
            (m, a.level * SIZE + b.level, a.touched, outs, tail)
        }
        _ => return None,
    };
    Some(Rule { m, level, touched, outs, tail, ancestry: joined(&a.ancestry, &b.ancestry) })
}

fn joins(op: Op, a: &Rule) -> bool {
    matches!((op, &a.tail), (Op::Par, _) | (Op::Seq, Tail::Pass(_)))
}

fn lone_left(op: Op, a: &Rule) -> Option<Rule> {
    let level = match op {
        Op::Seq => a.level * SIZE,
        Op::Over if a.touched => SIZE + a.level,
        _ => return None,
    };
    Some(Rule { level, ..a.clone() })
}

/// What a left rule asks of right ones.
fn reach(op: Op, a: &Rule) -> Option<Match> {
    match (op, &a.tail) {
        (Op::Par, _) => Some(a.m),
        (Op::Seq, Tail::Pass(r)) => Some(image(r, &a.m)),
        _ => None,
    }
}

/// What a right rule asks of left ones.
fn asked(op: Op, b: &Rule) -> Option<Match> {
    match op {
        Op::Over => None,
        _ => Some(b.m),
    }
}

/// What a rule is made of.
#[derive(Clone, Copy, PartialEq, Eq, PartialOrd, Ord)]
enum Origin {
    Leaf(Leaf),
    Rule { operand: u32, id: usize },
}

struct Made {
    rule: Rule,
    origins: Vec<Origin>,
}

/// Rules under ids, found by what they are made of.
#[derive(Default)]
struct Store {
    slots: Vec<Option<Made>>,
    free: Vec<usize>,
    links: BTreeSet<(Origin, usize)>,
}

impl Store {
    fn add(&mut self, made: Made) -> usize {
        let id = self.free.pop().unwrap_or(self.slots.len());
        for origin in &made.origins {
            self.links.insert((*origin, id));
        }
        if id == self.slots.len() {
            self.slots.push(Some(made));
        } else {
            self.slots[id] = Some(made);
        }
        id
    }

    fn remove(&mut self, id: usize) -> Made {
        let made = self.slots[id].take().unwrap();
        for origin in &made.origins {
            self.links.remove(&(*origin, id));
        }
        self.free.push(id);
        made
    }

    fn get(&self, id: usize) -> &Rule {
        &self.slots[id].as_ref().unwrap().rule
    }

    fn ids(&self) -> Vec<usize> {
        (0..self.slots.len()).filter(|id| self.slots[*id].is_some()).collect()
    }

    fn made_of(&self, origins: &[Origin]) -> Vec<usize> {
        let mut ids = Vec::new();
        for origin in origins {
            ids.extend(self.links.range((*origin, 0)..=(*origin, usize::MAX)).map(|(_, id)| *id));
        }
        ids.sort();
        ids.dedup();
        ids
    }
}

/// The rules of two members, and those that an operator makes of them.
struct Node {
    op: Op,
    left: Store,
    right: Store,
    lefts: Index,
    rights: Index,
    made: Store,
}

fn member(rules: Vec<Rule>) -> Store {
    let mut store = Store::default();
    for rule in rules {
        store.add(by_leaves(rule));
    }
    store
}

fn by_leaves(rule: Rule) -> Made {
    let origins = rule.ancestry.iter().map(|leaf| Origin::Leaf(*leaf)).collect();
    Made { rule, origins }
}

impl Node {
    fn build(op: Op, lefts: Vec<Rule>, rights: Vec<Rule>) -> Node {
        let mut node = Node {
            op,
            left: member(lefts),
            right: member(rights),
            lefts: Index::default(),
            rights: Index::default(),
            made: Store::default(),
        };
        for id in node.right.ids() {
            if let Some(m) = asked(op, node.right.get(id)) {
                node.rights.insert(id, m);
            }
        }
        let mut fresh = Vec::new();
        for id in node.left.ids() {
            node.make_by_left(id, &mut fresh);
            if let Some(m) = reach(op, node.left.get(id)) {
                node.lefts.insert(id, m);
            }
        }
        if op == Op::Over {
            for id in node.right.ids() {
                let origins = vec![Origin::Rule { operand: 1, id }];
                fresh.push(Made { rule: node.right.get(id).clone(), origins });
            }
        }
        for made in fresh {
            node.made.add(made);
        }
        node
    }

    /// What a rule of the left makes.
    fn make_by_left(&self, id: usize, fresh: &mut Vec<Made>) {
        let a = self.left.get(id);
        let left = Origin::Rule { operand: 0, id };
        if joins(self.op, a) {
            let Some(m) = reach(self.op, a) else {
                return;
            };
            for other in self.rights.meeting(&m) {
                if let Some(rule) = join(self.op, a, self.right.get(other)) {
                    fresh.push(Made { rule, origins: vec![left, Origin::Rule { operand: 1, id: other }] });
                }
            }
        } else if let Some(rule) = lone_left(self.op, a) {
            fresh.push(Made { rule, origins: vec![left] });
        }
    }

    /// Rules of these leaves leave the left member, and others come. What is told is what went and came.
    fn apply(&mut self, gone: &[Leaf], come: Vec<Rule>) -> (Vec<Rule>, Vec<Rule>) {
        let leaves: Vec<Origin> = gone.iter().map(|leaf| Origin::Leaf(*leaf)).collect();
        let lost = self.left.made_of(&leaves);
        let came: Vec<usize> = come.into_iter().map(|rule| self.left.add(by_leaves(rule))).collect();
        let mut fresh = Vec::new();
        for id in &came {
            self.make_by_left(*id, &mut fresh);
        }
        let origins: Vec<Origin> = lost.iter().map(|id| Origin::Rule { operand: 0, id: *id }).collect();
        let goes = self.made.made_of(&origins);
        let comes: Vec<usize> = fresh.into_iter().map(|made| self.made.add(made)).collect();
        let told = comes.iter().map(|id| self.made.get(*id).clone()).collect();
        for id in &lost {
            self.lefts.remove(*id);
        }
        for id in &came {
            if let Some(m) = reach(self.op, self.left.get(*id)) {
                self.lefts.insert(*id, m);
            }
        }
        let left = goes.iter().map(|id| self.made.remove(*id).rule).collect();
        for id in &lost {
            self.left.remove(*id);
        }
        (left, told)
    }
}

fn spread(number: u32) -> u32 {
    number.wrapping_mul(0x9e37_79b1)
}

fn address(number: u32) -> u32 {
    0x0a00_0000 + spread(number) / 256
}

/// The match of the entry of this number.
fn entry_match(kind: &str, member: u32, number: u32) -> Match {
    let ip = Match { dl_type: Some(0x0800), ..Match::default() };
    let addr = address(number);
    match kind {
        "exact" => Match {
            nw_proto: Some(6),
            nw_src: Some(Prefix { addr: 0x0b00_0000 + number, len: 32 }),
            nw_dst: Some(Prefix { addr, len: 32 }),
            tp_src: Some(1024),
            tp_dst: Some(80),
            ..ip
        },
        "prefix" => {
            let len = 12 + (number % 21) as u8;
            Match { nw_dst: Some(Prefix { addr: top(addr, len) << (32 - u32::from(len)), len }), ..ip }
        }
        _ if member == 0 && number % 64 == 0 => Match { nw_proto: Some((number / 64 % 200) as u8), ..ip },
        _ => Match { nw_proto: Some(6), nw_dst: Some(Prefix { addr, len: 32 }), ..ip },
    }
}

fn leaf(member: u32, number: u32) -> Leaf {
    Leaf { member, kind: 3 + u64::from(number) }
}

fn entry(op: Op, kind: &str, member: u32, number: u32) -> Rule {
    let (outs, tail) = if op == Op::Seq && member == 0 {
        (Vec::new(), Tail::Pass(Rewrite { nw_dst: Some(address(number)), ..Rewrite::default() }))
    } else {
        (vec![Out { rewrite: Rewrite::default(), v: 0, port: 1 + (number % 4) as u16 }], Tail::Nothing)
    };
    Rule {
        m: entry_match(kind, member, number),
        level: 2 + u64::from(number),
        touched: true,
        outs,
        tail,
        ancestry: vec![leaf(member, number)],
    }
}

/// The rules of a member with so many entries.
fn rules(op: Op, kind: &str, member: u32, count: u32) -> Vec<Rule> {
    let miss = Rule {
        m: Match::default(),
        level: 1,
        touched: false,
        outs: Vec::new(),
        tail: Tail::Nothing,
        ancestry: vec![Leaf { member, kind: 1 }],
    };
    let mut rules = vec![miss];
    rules.extend((0..count).map(|number| entry(op, kind, member, number)));
    rules
}

fn built(op: Op, kind: &str, count: u32) -> Node {
    Node::build(op, rules(op, kind, 0, count), rules(op, kind, 1, count))
}

fn main() {
    let words: Vec<String> = env::args().skip(1).collect();
    let op = match words[0].as_str() {
        "seq" => Op::Seq,
        "over" => Op::Over,
        _ => Op::Par,
    };
    let kind = words[1].as_str();
    let count: u32 = words[2].parse().unwrap();
    let phase = words[3].as_str();
    let turns: u32 = words[4].parse().unwrap();
    let mut node = built(op, kind, count);
    let (mut came, mut went) = (0, 0);
    match phase {
        "count" => came = node.made.ids().len(),
        "anew" => (0..turns).for_each(|_| drop(built(op, kind, count))),
        _ => {
            for turn in 0..turns {
                let (gone, come) = node.apply(&[], vec![entry(op, kind, 0, count + turn)]);
                came += come.len();
                went += gone.len();
            }
        }
    }
    if phase == "both" {
        for turn in 0..turns {
            let (gone, come) = node.apply(&[leaf(0, count + turn)], Vec::new());
            came += come.len();
            went += gone.len();
        }
    }
    println!("came={came} went={went}");
}
