//! Part of what `covisor replay POLICY` does, in plain Rust, for `bench/replay_run`: it reads a policy and a script,
//! cuts what sessions send into messages, keeps the members' tables, follows each PACKET_IN through the expressions and
//! links, and reports what members and switches are put: answers to ECHO_REQUEST, GET_CONFIG_REQUEST and
//! BARRIER_REQUEST, and PACKET_INs with their bytes rewritten and checksums mended. It composes no tables, so FLOW_MODs
//! and `up` report nothing; it judges no grants but region and ports, and keeps no counts, timeouts or audit.
use std::collections::HashMap;
use std::env;
use std::fs;
use std::io::{self, BufRead, BufWriter, Write};

// ---- policies

#[derive(Clone, Debug)]
enum Toml {
    Text(String),
    Number(u64),
    Bool(bool),
    List(Vec<Toml>),
    Table(Vec<(String, Toml)>),
}

struct Reader<'a> {
    bytes: &'a [u8],
    at: usize,
}

impl Reader<'_> {
    fn peek(&self) -> u8 {
        self.bytes.get(self.at).copied().unwrap_or(0)
    }

    fn skip(&mut self) {
        while self.at < self.bytes.len() {
            match self.peek() {
                b'#' => {
                    while self.at < self.bytes.len() && self.peek() != b'\n' {
                        self.at += 1;
                    }
                }
                b' ' | b'\t' | b'\n' | b'\r' | b',' => self.at += 1,
                _ => break,
            }
        }
    }

    fn word(&mut self) -> String {
        let start = self.at;
        while self.peek().is_ascii_alphanumeric() || self.peek() == b'_' {
            self.at += 1;
        }
        String::from_utf8_lossy(&self.bytes[start..self.at]).into_owned()
    }

    fn pair(&mut self) -> (String, Toml) {
        let key = self.word();
        self.skip();
        assert_eq!(self.peek(), b'=', "a key without a value");
        self.at += 1;
        self.skip();
        (key, self.value())
    }

    fn value(&mut self) -> Toml {
        match self.peek() {
            b'"' => {
                let start = self.at + 1;
                let length = self.bytes[start..].iter().position(|b| *b == b'"').expect("a quote");
                self.at = start + length + 1;
                Toml::Text(String::from_utf8_lossy(&self.bytes[start..start + length]).into_owned())
            }
            b'[' => {
                self.at += 1;
                let mut items = Vec::new();
                self.skip();
                while self.peek() != b']' {
                    items.push(self.value());
                    self.skip();
                }
                self.at += 1;
                Toml::List(items)
            }
            b'{' => {
                self.at += 1;
                let mut pairs = Vec::new();
                self.skip();
                while self.peek() != b'}' {
                    pairs.push(self.pair());
                    self.skip();
                }
                self.at += 1;
                Toml::Table(pairs)
            }
            _ => match self.word().as_str() {
                "true" => Toml::Bool(true),
                "false" => Toml::Bool(false),
                digits => Toml::Number(digits.parse().expect("a number")),
            },
        }
    }
}

type Item = HashMap<String, Toml>;

/// The sections of a policy, the top keys first, under no name.
fn sections(text: &str) -> Vec<(String, Item)> {
    let mut reader = Reader { bytes: text.as_bytes(), at: 0 };
    let mut sections = vec![(String::new(), Item::new())];
    loop {
        reader.skip();
        if reader.at == text.len() {
            return sections;
        }
        if reader.peek() == b'[' {
            reader.at += 2;
            let name = reader.word();
            reader.at += 2;
            sections.push((name, Item::new()));
        } else {
            let (key, value) = reader.pair();
            sections.last_mut().expect("the top").1.insert(key, value);
        }
    }
}

fn text(item: &Item, key: &str) -> String {
    match &item[key] {
        Toml::Text(text) => text.clone(),
        _ => panic!("{key} is no text"),
    }
}

fn list(item: &Item, key: &str) -> Vec<Toml> {
    match item.get(key) {
        Some(Toml::List(items)) => items.clone(),
        _ => Vec::new(),
    }
}

fn place(text: &str) -> (String, u16) {
    let (name, port) = text.split_once(':').expect("a place");
    (name.to_string(), port.parse().expect("a port"))
}

enum Expr {
    Member(usize),
    Par(Box<Expr>, Box<Expr>),
    Seq(Box<Expr>, Box<Expr>),
    Over(Box<Expr>, Box<Expr>),
}

/// Reads operators of one level and all that bind more strongly; 0 is `|>`, 1 `+`, 2 `>>`, 3 a name or parentheses.
fn expr(bytes: &[u8], at: &mut usize, level: usize, member: &dyn Fn(&str) -> usize) -> Expr {
    let skip = |at: &mut usize| {
        while bytes.get(*at) == Some(&b' ') {
            *at += 1;
        }
    };
    skip(at);
    if level == 3 {
        if bytes[*at] == b'(' {
            *at += 1;
            let inner = expr(bytes, at, 0, member);
            skip(at);
            *at += 1;
            return inner;
        }
        let start = *at;
        while *at < bytes.len() && (bytes[*at].is_ascii_alphanumeric() || bytes[*at] == b'_') {
            *at += 1;
        }
        return Expr::Member(member(std::str::from_utf8(&bytes[start..*at]).expect("a name")));
    }
    let operator: &[u8] = [&b"|>"[..], b"+", b">>"][level];
    let mut left = expr(bytes, at, level + 1, member);
    loop {
        skip(at);
        if !bytes[*at..].starts_with(operator) {
            return left;
        }
        *at += operator.len();
        let right = Box::new(expr(bytes, at, level + 1, member));
        left = match level {
            0 => Expr::Over(Box::new(left), right),
            1 => Expr::Par(Box::new(left), right),
            _ => Expr::Seq(Box::new(left), right),
        };
    }
}

// ---- headers, matches, actions

#[derive(Clone, Copy, Default)]
struct Header {
    in_port: u16,
    dl_src: u64,
    dl_dst: u64,
    dl_vlan: u16,
    dl_vlan_pcp: u8,
    dl_type: u16,
    nw_tos: u8,
    nw_proto: u8,
    nw_src: u32,
    nw_dst: u32,
    tp_src: u16,
    tp_dst: u16,
}

#[derive(Clone, Copy, Default, PartialEq)]
struct Match {
    in_port: Option<u16>,
    dl_src: Option<u64>,
    dl_dst: Option<u64>,
    dl_vlan: Option<u16>,
    dl_vlan_pcp: Option<u8>,
    dl_type: Option<u16>,
    nw_tos: Option<u8>,
    nw_proto: Option<u8>,
    nw_src: Option<(u32, u8)>,
    nw_dst: Option<(u32, u8)>,
    tp_src: Option<u16>,
    tp_dst: Option<u16>,
}

fn number(bytes: &[u8], at: usize, length: usize) -> u64 {
    bytes[at..at + length].iter().fold(0, |n, b| n << 8 | u64::from(*b))
}

fn short(bytes: &[u8], at: usize) -> u16 {
    number(bytes, at, 2) as u16
}

fn top_bits(addr: u32, len: u8) -> u32 {
    if len == 0 { 0 } else { addr & u32::MAX << (32 - len) }
}

fn within(prefix: Option<(u32, u8)>, addr: u32) -> bool {
    prefix.is_none_or(|(at, len)| top_bits(addr, len) == at)
}

impl Match {
    fn read(b: &[u8]) -> Match {
        let wild = number(b, 0, 4) as u32;
        fn named<T>(wild: u32, bit: u32, value: T) -> Option<T> {
            if wild >> bit & 1 == 0 { Some(value) } else { None }
        }
        let prefix = |shift: u32, at: usize| {
            let len = 32u32.saturating_sub(wild >> shift & 63) as u8;
            if len == 0 { None } else { Some((top_bits(number(b, at, 4) as u32, len), len)) }
        };
        let dl_type = named(wild, 4, short(b, 22));
        let ip = dl_type == Some(0x0800);
        let nw = ip || dl_type == Some(0x0806);
        let nw_proto = named(wild, 5, b[25]).filter(|_| nw);
        let tp = ip && matches!(nw_proto, Some(1 | 6 | 17));
        let dl_vlan = named(wild, 1, short(b, 18)).map(|v| if v == 0xffff { v } else { v & 0xfff });
        Match {
            in_port: named(wild, 0, short(b, 4)),
            dl_src: named(wild, 2, number(b, 6, 6)),
            dl_dst: named(wild, 3, number(b, 12, 6)),
            dl_vlan,
            dl_vlan_pcp: named(wild, 20, b[20] & 7).filter(|_| dl_vlan.is_some_and(|v| v != 0xffff)),
            dl_type,
            nw_tos: named(wild, 21, b[24] & 0xfc).filter(|_| ip),
            nw_proto,
            nw_src: prefix(8, 28).filter(|_| nw),
            nw_dst: prefix(14, 32).filter(|_| nw),
            tp_src: named(wild, 6, short(b, 36)).filter(|_| tp),
            tp_dst: named(wild, 7, short(b, 38)).filter(|_| tp),
        }
    }

    fn of_region(region: &Toml) -> Match {
        let Toml::Table(pairs) = region else { panic!("a region that is no table") };
        let mut m = Match::default();
        let prefix = |value: &Toml| {
            let Toml::Text(text) = value else { panic!("no prefix") };
            let (addr, len) = text.split_once('/').expect("a prefix");
            let addr = addr.split('.').fold(0, |n, b| n << 8 | b.parse::<u32>().expect("an address"));
            (addr, len.parse::<u8>().expect("a length"))
        };
        for (key, value) in pairs {
            let n = if let Toml::Number(n) = value { *n } else { 0 };
            match key.as_str() {
                "dl_type" => m.dl_type = Some(n as u16),
                "nw_proto" => m.nw_proto = Some(n as u8),
                "tp_src" => m.tp_src = Some(n as u16),
                "tp_dst" => m.tp_dst = Some(n as u16),
                "nw_src" => m.nw_src = Some(prefix(value)),
                "nw_dst" => m.nw_dst = Some(prefix(value)),
                other => panic!("a region of {other} is not read here"),
            }
        }
        m
    }

    fn holds(&self, h: &Header) -> bool {
        self.in_port.is_none_or(|f| f == h.in_port)
            && self.dl_src.is_none_or(|f| f == h.dl_src)
            && self.dl_dst.is_none_or(|f| f == h.dl_dst)
            && self.dl_vlan.is_none_or(|f| f == h.dl_vlan)
            && self.dl_vlan_pcp.is_none_or(|f| f == h.dl_vlan_pcp)
            && self.dl_type.is_none_or(|f| f == h.dl_type)
            && self.nw_tos.is_none_or(|f| f == h.nw_tos)
            && self.nw_proto.is_none_or(|f| f == h.nw_proto)
            && within(self.nw_src, h.nw_src)
            && within(self.nw_dst, h.nw_dst)
            && self.tp_src.is_none_or(|f| f == h.tp_src)
            && self.tp_dst.is_none_or(|f| f == h.tp_dst)
    }

    fn covers(&self, m: &Match) -> bool {
        fn one<T: PartialEq>(wide: Option<T>, narrow: Option<T>) -> bool {
            wide.is_none() || wide == narrow
        }
        let prefix = |wide: Option<(u32, u8)>, narrow: Option<(u32, u8)>| match (wide, narrow) {
            (None, _) => true,
            (Some((_, len)), Some((addr, more))) => len <= more && within(wide, addr),
            _ => false,
        };
        one(self.in_port, m.in_port)
            && one(self.dl_src, m.dl_src)
            && one(self.dl_dst, m.dl_dst)
            && one(self.dl_vlan, m.dl_vlan)
            && one(self.dl_vlan_pcp, m.dl_vlan_pcp)
            && one(self.dl_type, m.dl_type)
            && one(self.nw_tos, m.nw_tos)
            && one(self.nw_proto, m.nw_proto)
            && prefix(self.nw_src, m.nw_src)
            && prefix(self.nw_dst, m.nw_dst)
            && one(self.tp_src, m.tp_src)
            && one(self.tp_dst, m.tp_dst)
    }
}

/// Where the layers of a frame begin.
struct Layers {
    header: Header,
    network: usize,
    transport: Option<usize>,
    first: bool,
}

fn layers(b: &[u8], in_port: u16) -> Layers {
    let mut h = Header { in_port, dl_vlan: 0xffff, ..Header::default() };
    let mut found = Layers { header: h, network: b.len(), transport: None, first: false };
    if b.len() < 14 {
        return found;
    }
    h.dl_dst = number(b, 0, 6);
    h.dl_src = number(b, 6, 6);
    h.dl_type = short(b, 12);
    let mut at = 14;
    if h.dl_type == 0x8100 {
        let tag = if b.len() < 18 { 0 } else { short(b, 14) };
        h.dl_vlan = tag & 0xfff;
        h.dl_vlan_pcp = (tag >> 13) as u8;
        h.dl_type = if b.len() < 18 { 0 } else { short(b, 16) };
        at = 18.min(b.len());
    }
    if h.dl_type < 0x0600 {
        h.dl_type = if b[at..].starts_with(&[0xaa, 0xaa, 3, 0, 0, 0]) {
            at += 8;
            if b.len() < at { 0 } else { short(b, at - 2) }
        } else {
            0x05ff
        };
    }
    found.network = at;
    let rest = &b[at.min(b.len())..];
    if h.dl_type == 0x0806 && rest.len() >= 28 {
        h.nw_proto = rest[7];
        h.nw_src = number(rest, 14, 4) as u32;
        h.nw_dst = number(rest, 24, 4) as u32;
    }
    if h.dl_type == 0x0800 && rest.len() >= 20 {
        let length = usize::from(rest[0] & 15) * 4;
        if length >= 20 && rest.len() >= length {
            h.nw_tos = rest[1] & 0xfc;
            h.nw_proto = rest[9];
            h.nw_src = number(rest, 12, 4) as u32;
            h.nw_dst = number(rest, 16, 4) as u32;
            let place = short(rest, 6);
            found.first = place & 0x1fff == 0;
            found.transport = Some(at + length);
            if place & 0x3fff == 0 {
                let up = &rest[length..];
                if matches!(h.nw_proto, 6 | 17) && up.len() >= 4 {
                    h.tp_src = short(up, 0);
                    h.tp_dst = short(up, 2);
                } else if h.nw_proto == 1 && up.len() >= 2 {
                    h.tp_src = u16::from(up[0]);
                    h.tp_dst = u16::from(up[1]);
                }
            }
        }
    }
    found.header = h;
    found
}

/// The fields that are set, in the order of the actions' types from SET_DL_SRC.
type Sets = [Option<u64>; 7];

fn after(mut first: Sets, then: &Sets) -> Sets {
    for (value, next) in first.iter_mut().zip(then) {
        *value = next.or(*value);
    }
    first
}

fn set_header(mut h: Header, sets: &Sets) -> Header {
    let ip = h.dl_type == 0x0800;
    let tp = ip && matches!(h.nw_proto, 6 | 17);
    if let Some(v) = sets[0] {
        h.dl_src = v;
    }
    if let Some(v) = sets[1] {
        h.dl_dst = v;
    }
    if let (Some(v), true) = (sets[2], ip) {
        h.nw_src = v as u32;
    }
    if let (Some(v), true) = (sets[3], ip) {
        h.nw_dst = v as u32;
    }
    if let (Some(v), true) = (sets[4], ip) {
        h.nw_tos = v as u8;
    }
    if let (Some(v), true) = (sets[5], tp) {
        h.tp_src = v as u16;
    }
    if let (Some(v), true) = (sets[6], tp) {
        h.tp_dst = v as u16;
    }
    h
}

/// Writes a word of two bytes, and mends a checksum for it.
fn set_word(b: &mut [u8], at: usize, value: u16, sums: &[usize]) {
    let old = short(b, at);
    b[at..at + 2].copy_from_slice(&value.to_be_bytes());
    for sum in sums {
        let mut total = u32::from(!short(b, *sum)) + u32::from(!old) + u32::from(value);
        total = (total & 0xffff) + (total >> 16);
        total = (total & 0xffff) + (total >> 16);
        b[*sum..*sum + 2].copy_from_slice(&(!(total as u16)).to_be_bytes());
    }
}

fn rewrite(bytes: &[u8], sets: &Sets) -> Vec<u8> {
    let mut b = bytes.to_vec();
    let found = layers(bytes, 0);
    if b.len() < 14 || sets.iter().all(Option::is_none) {
        return b;
    }
    if let Some(v) = sets[0] {
        b[6..12].copy_from_slice(&v.to_be_bytes()[2..]);
    }
    if let Some(v) = sets[1] {
        b[..6].copy_from_slice(&v.to_be_bytes()[2..]);
    }
    let (Some(up), ip) = (found.transport, found.network) else { return b };
    let proto = found.header.nw_proto;
    let sum = match proto {
        6 => Some(up + 16),
        17 => Some(up + 6),
        _ => None,
    };
    let sum = sum.filter(|at| found.first && b.len() >= at + 2 && !(proto == 17 && short(&b, *at) == 0));
    let both: Vec<usize> = [Some(ip + 10), sum].into_iter().flatten().collect();
    for (field, at) in [(2, ip + 12), (3, ip + 16)] {
        if let Some(v) = sets[field] {
            for (word, place) in [((v >> 16) as u16, at), (v as u16, at + 2)] {
                if short(&b, place) != word {
                    set_word(&mut b, place, word, &both);
                }
            }
        }
    }
    if let Some(v) = sets[4] {
        let word = u16::from(b[ip]) << 8 | v as u16 | u16::from(b[ip + 1] & 3);
        if short(&b, ip) != word {
            set_word(&mut b, ip, word, &[ip + 10]);
        }
    }
    let whole = matches!(proto, 6 | 17) && b.len() >= up + 4 && short(&b, ip + 6) & 0x3fff == 0;
    for (field, at) in [(5, up), (6, up + 2)] {
        if let (Some(v), true) = (sets[field], whole) {
            if short(&b, at) != v as u16 {
                set_word(&mut b, at, v as u16, &both[1..]);
            }
        }
    }
    if let (Some(at), 17) = (sum, proto) {
        if short(&b, at) == 0 && short(bytes, at) != 0 {
            b[at..at + 2].copy_from_slice(&[0xff, 0xff]);
        }
    }
    b
}

// ---- members and packets

struct Entry {
    m: Match,
    rank: u32,
    actions: Vec<u8>,
}

struct Member {
    name: String,
    v: usize,
    misses: bool,
    ports: Option<Vec<u16>>,
    regions: Vec<Match>,
    table: Vec<Entry>,
    config: [u8; 4],
}

struct Virtual {
    name: String,
    expr: Expr,
    links: HashMap<u16, (usize, u16)>,
    is_spread: bool,
}

struct Told {
    member: usize,
    in_port: u16,
    reason: u8,
    sets: Sets,
}

enum Tail {
    None,
    Pass(Sets),
    Link(Sets, u16),
}

struct World {
    hops: usize,
    virtuals: Vec<Virtual>,
    members: Vec<Member>,
    switches: Vec<String>,
    entering: HashMap<(usize, u16), (usize, u16)>,
}

const NONE: Sets = [None; 7];

impl World {
    /// What a member does with a header: whether one of its entries holds it, who is told, and the tail.
    fn leaf(&self, n: usize, h: &Header, base: &Sets, told: &mut Vec<Told>) -> (bool, Tail) {
        let member = &self.members[n];
        let sees = member.ports.as_ref().is_none_or(|ports| ports.contains(&h.in_port));
        if !sees || !(member.regions.is_empty() || member.regions.iter().any(|m| m.holds(h))) {
            return (false, Tail::None);
        }
        let mut best: Option<&Entry> = None;
        for entry in &member.table {
            if best.is_none_or(|b| entry.rank > b.rank) && entry.m.holds(h) {
                best = Some(entry);
            }
        }
        let Some(entry) = best else {
            if member.misses {
                told.push(Told { member: n, in_port: h.in_port, reason: 0, sets: *base });
            }
            return (false, Tail::None);
        };
        let (mut sets, mut tail, mut at) = (NONE, Tail::None, 0);
        let b = &entry.actions;
        while at < b.len() {
            let (kind, length) = (short(b, at), usize::from(short(b, at + 2)));
            match (kind, short(b, at + 4)) {
                (0, 0xfffd) => told.push(Told { member: n, in_port: h.in_port, reason: 1, sets: after(*base, &sets) }),
                (0, 0xfffa) => tail = Tail::Pass(sets),
                (0, port) if self.virtuals[member.v].links.contains_key(&port) && port != h.in_port => {
                    tail = Tail::Link(sets, port);
                }
                (4 | 5, _) => sets[usize::from(kind) - 4] = Some(number(b, at + 4, 6)),
                (6 | 7, _) => sets[usize::from(kind) - 4] = Some(number(b, at + 4, 4)),
                (8, _) => sets[4] = Some(u64::from(b[at + 4] & 0xfc)),
                (9 | 10, port) => sets[usize::from(kind) - 4] = Some(u64::from(port)),
                _ => {}
            }
            at += length;
        }
        (true, tail)
    }

    fn eval(&self, e: &Expr, h: &Header, base: &Sets, told: &mut Vec<Told>) -> (bool, Tail) {
        match e {
            Expr::Member(n) => self.leaf(*n, h, base, told),
            Expr::Par(a, b) => {
                let (left, _) = self.eval(a, h, base, told);
                let (right, tail) = self.eval(b, h, base, told);
                (left || right, tail)
            }
            Expr::Seq(a, b) => match self.eval(a, h, base, told) {
                (touched, Tail::Pass(sets)) => {
                    let (_, tail) = self.eval(b, &set_header(*h, &sets), &after(*base, &sets), told);
                    let tail = match tail {
                        Tail::None => Tail::None,
                        Tail::Pass(more) => Tail::Pass(after(sets, &more)),
                        Tail::Link(more, port) => Tail::Link(after(sets, &more), port),
                    };
                    (touched, tail)
                }
                other => other,
            },
            Expr::Over(a, b) => {
                let kept = told.len();
                match self.eval(a, h, base, told) {
                    (true, tail) => (true, tail),
                    (false, _) => {
                        told.truncate(kept);
                        self.eval(b, h, base, told)
                    }
                }
            }
        }
    }

    fn follow(&self, mut v: usize, mut h: Header) -> Vec<Told> {
        let (mut told, mut base) = (Vec::new(), NONE);
        if self.virtuals[v].is_spread && h.dl_vlan != 0xffff {
            return told;
        }
        for _ in 0..self.hops {
            let (_, tail) = self.eval(&self.virtuals[v].expr, &h, &base, &mut told);
            let Tail::Link(sets, port) = tail else { break };
            h = set_header(h, &sets);
            base = after(base, &sets);
            (v, h.in_port) = self.virtuals[v].links[&port];
        }
        told
    }
}

fn world(policy: &str) -> World {
    let all = sections(policy);
    let of = |name: &'static str| all.iter().filter(move |s| s.0 == name).map(|s| &s.1);
    let switches: Vec<String> = of("switch").map(|s| text(s, "name")).collect();
    let names: Vec<String> = of("virtual").map(|s| text(s, "name")).collect();
    let controllers: Vec<(String, String)> = of("member").map(|s| (text(s, "controller"), text(s, "virtual"))).collect();
    let mut entering = HashMap::new();
    let mut virtuals = Vec::new();
    for (v, item) in of("virtual").enumerate() {
        let mut at = Vec::new();
        for port in list(item, "ports") {
            let Toml::Text(port) = port else { panic!("a port that is no text") };
            let (n, to) = port.split_once('=').expect("a port");
            if to != "link" {
                let (name, physical) = place(to);
                let s = switches.iter().position(|x| *x == name).expect("a switch");
                at.push(s);
                entering.insert((s, physical), (v, n.parse().expect("a port")));
            }
        }
        let source = text(item, "expr");
        let member = |name: &str| {
            controllers.iter().position(|c| c.0 == name && c.1 == names[v]).expect("a member")
        };
        let expr = expr(source.as_bytes(), &mut 0, 0, &member);
        let is_spread = at.iter().any(|s| *s != at[0]);
        virtuals.push(Virtual { name: names[v].clone(), expr, links: HashMap::new(), is_spread });
    }
    for item in of("link") {
        let end = |key| {
            let (name, port) = place(&text(item, key));
            (virtuals.iter().position(|v| v.name == name).expect("a virtual switch"), port)
        };
        let (a, b) = (end("a"), end("b"));
        virtuals[a.0].links.insert(a.1, b);
        virtuals[b.0].links.insert(b.1, a);
    }
    let members = of("member").zip(&controllers).map(|(item, (controller, vsw))| Member {
        name: format!("{controller}@{vsw}"),
        v: names.iter().position(|x| x == vsw).expect("a virtual switch"),
        misses: !matches!(item.get("misses"), Some(Toml::Bool(false))),
        ports: item.get("ports").map(|_| {
            list(item, "ports").iter().map(|p| if let Toml::Number(n) = p { *n as u16 } else { 0 }).collect()
        }),
        regions: item.get("region").into_iter().cloned().chain(list(item, "regions")).map(|r| Match::of_region(&r)).collect(),
        table: Vec::new(),
        config: [0, 0, 0, 128],
    }).collect();
    let hops = match all[0].1.get("hops") {
        Some(Toml::Number(n)) => *n as usize,
        _ => 4,
    };
    World { hops, virtuals, members, switches, entering }
}

// ---- messages and the report

const DIGITS: &[u8; 16] = b"0123456789abcdef";

struct Report<W: Write> {
    out: W,
    line: Vec<u8>,
}

impl<W: Write> Report<W> {
    fn put(&mut self, name: &str, parts: &[&[u8]]) -> io::Result<()> {
        self.line.clear();
        self.line.extend_from_slice(b"to ");
        self.line.extend_from_slice(name.as_bytes());
        self.line.push(b' ');
        for byte in parts.iter().flat_map(|part| part.iter()) {
            self.line.push(DIGITS[usize::from(byte >> 4)]);
            self.line.push(DIGITS[usize::from(byte & 15)]);
        }
        self.line.push(b'\n');
        self.out.write_all(&self.line)
    }

    fn reply(&mut self, name: &str, kind: u8, frame: &[u8], body: &[u8]) -> io::Result<()> {
        let length = (8 + body.len() as u16).to_be_bytes();
        self.put(name, &[&[1, kind], &length, &frame[4..8], body])
    }
}

fn flow_mod(member: &mut Member, frame: &[u8]) {
    let m = Match::read(&frame[8..48]);
    let is_exact = number(frame, 8, 4) & 0x3f_ffff == 0;
    let rank = if is_exact { 65536 } else { u32::from(short(frame, 62)) };
    let actions = frame[72..].to_vec();
    let command = short(frame, 56);
    let is_strict = command == 2 || command == 4;
    let chosen = |e: &Entry| if is_strict { e.m == m && e.rank == rank } else { m.covers(&e.m) };
    match command {
        3 | 4 => member.table.retain(|e| !chosen(e)),
        1 | 2 if member.table.iter().any(chosen) => {
            for entry in member.table.iter_mut().filter(|e| chosen(e)) {
                entry.actions.clone_from(&actions);
            }
        }
        _ => match member.table.iter_mut().find(|e| e.m == m && e.rank == rank) {
            Some(entry) => entry.actions = actions,
            None => member.table.push(Entry { m, rank, actions }),
        },
    }
}

fn hear_member<W: Write>(world: &mut World, n: usize, frame: &[u8], report: &mut Report<W>) -> io::Result<()> {
    let member = &mut world.members[n];
    match frame[1] {
        2 => report.reply(&member.name, 3, frame, &frame[8..]),
        7 => report.reply(&member.name, 8, frame, &member.config),
        9 => {
            member.config.copy_from_slice(&frame[8..12]);
            Ok(())
        }
        14 => {
            flow_mod(member, frame);
            Ok(())
        }
        18 => report.reply(&member.name, 19, frame, &[]),
        _ => Ok(()),
    }
}

fn hear_switch<W: Write>(world: &World, s: usize, frame: &[u8], report: &mut Report<W>) -> io::Result<()> {
    if frame[1] == 2 {
        return report.reply(&world.switches[s], 3, frame, &frame[8..]);
    }
    if frame[1] != 10 {
        return Ok(());
    }
    let Some((v, port)) = world.entering.get(&(s, short(frame, 14))) else {
        return Ok(());
    };
    let told = world.follow(*v, layers(&frame[18..], *port).header);
    for n in 0..world.members.len() {
        for t in told.iter().filter(|t| t.member == n) {
            let bytes = rewrite(&frame[18..], &t.sets);
            let length = (18 + bytes.len() as u16).to_be_bytes();
            let head: [&[u8]; 7] = [
                &[1, 10], &length, &[0, 0, 0, 0, 0xff, 0xff, 0xff, 0xff], &frame[12..14],
                &t.in_port.to_be_bytes(), &[t.reason, 0], &bytes,
            ];
            report.put(&world.members[n].name, &head)?;
        }
    }
    Ok(())
}

fn digit(byte: u8) -> u8 {
    (byte as char).to_digit(16).expect("a digit") as u8
}

fn main() -> io::Result<()> {
    let policy = fs::read_to_string(env::args().nth(1).expect("a policy"))?;
    let mut world = world(&policy);
    let mut sessions: HashMap<String, (usize, bool)> = HashMap::new();
    for (n, member) in world.members.iter().enumerate() {
        sessions.insert(member.name.clone(), (n, true));
    }
    for (s, name) in world.switches.iter().enumerate() {
        sessions.insert(name.clone(), (s, false));
    }
    let mut kept: HashMap<(usize, bool), Vec<u8>> = HashMap::new();
    let mut report = Report { out: BufWriter::with_capacity(65536, io::stdout().lock()), line: Vec::new() };
    let (mut input, mut line, mut lines) = (io::stdin().lock(), Vec::new(), 0u64);
    while input.read_until(b'\n', &mut line)? > 0 {
        lines += 1;
        let text = line.strip_suffix(b"\n").unwrap_or(&line);
        if let Some(rest) = text.strip_prefix(b"from ") {
            let blank = rest.iter().position(|b| *b == b' ').expect("two words");
            let session = sessions[std::str::from_utf8(&rest[..blank]).expect("a name")];
            let bytes = kept.entry(session).or_default();
            bytes.extend(rest[blank + 1..].chunks(2).map(|pair| digit(pair[0]) << 4 | digit(pair[1])));
            let mut at = 0;
            while bytes.len() - at >= 8 && bytes.len() - at >= usize::from(short(bytes, at + 2)) {
                let end = at + usize::from(short(bytes, at + 2));
                match session {
                    (n, true) => hear_member(&mut world, n, &bytes[at..end], &mut report)?,
                    (s, false) => hear_switch(&world, s, &bytes[at..end], &mut report)?,
                }
                at = end;
            }
            bytes.drain(..at);
        }
        line.clear();
    }
    writeln!(report.out, "end lines={lines}")?;
    report.out.flush()
}
