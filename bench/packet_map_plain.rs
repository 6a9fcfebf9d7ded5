//! The same job as the part `map` of `crates/bench_parts`, in plain Rust: headers are followed through a policy
//! of one, four or twelve members, each of which has a flow table.
use std::collections::HashMap;
use std::env;

#[derive(Clone, Copy, PartialEq, Eq, Hash)]
struct Prefix {
    addr: u32,
    len: u8,
}

#[derive(Clone, Copy, Default, PartialEq, Eq, Hash)]
struct Match {
    in_port: Option<u16>,
    dl_src: Option<u64>,
    dl_dst: Option<u64>,
    dl_vlan: Option<u16>,
    dl_vlan_pcp: Option<u8>,
    dl_type: Option<u16>,
    nw_tos: Option<u8>,
    nw_proto: Option<u8>,
    nw_src: Option<Prefix>,
    nw_dst: Option<Prefix>,
    tp_src: Option<u16>,
    tp_dst: Option<u16>,
}

#[derive(Clone, Copy)]
struct Header {
    in_port: u16,
    dl_src: u64,
    dl_dst: u64,
    dl_vlan: u16,
    dl_vlan_pcp: u8,
    dl_type: u16,
    nw_tos: u8,
    nw_proto: u8,
    nw_src: u32,
    nw_dst: u32,
    tp_src: u16,
    tp_dst: u16,
}

fn top_bits(addr: u32, len: u8) -> u32 {
    if len == 0 { 0 } else { addr & u32::MAX << (32 - len) }
}

fn fits<T: PartialEq>(field: Option<T>, value: T) -> bool {
    field.is_none_or(|f| f == value)
}

fn fits_prefix(field: Option<Prefix>, addr: u32) -> bool {
    field.is_none_or(|p| top_bits(p.addr, p.len) == top_bits(addr, p.len))
}

impl Match {
    fn holds(&self, h: &Header) -> bool {
        fits(self.in_port, h.in_port)
            && fits(self.dl_src, h.dl_src)
            && fits(self.dl_dst, h.dl_dst)
            && fits(self.dl_vlan, h.dl_vlan)
            && fits(self.dl_vlan_pcp, h.dl_vlan_pcp)
            && fits(self.dl_type, h.dl_type)
            && fits(self.nw_tos, h.nw_tos)
            && fits(self.nw_proto, h.nw_proto)
            && fits_prefix(self.nw_src, h.nw_src)
            && fits_prefix(self.nw_dst, h.nw_dst)
            && fits(self.tp_src, h.tp_src)
            && fits(self.tp_dst, h.tp_dst)
    }
}

/// The fields that a match names.
#[derive(Clone, Copy, PartialEq)]
struct Shape {
    named: u16,
    src_len: u8,
    dst_len: u8,
}

impl Shape {
    fn of(m: &Match) -> Shape {
        let bit = |place: u16, named: bool| u16::from(named) << place;
        Shape {
            named: bit(0, m.in_port.is_some())
                | bit(1, m.dl_src.is_some())
                | bit(2, m.dl_dst.is_some())
                | bit(3, m.dl_vlan.is_some())
                | bit(4, m.dl_vlan_pcp.is_some())
                | bit(5, m.dl_type.is_some())
                | bit(6, m.nw_tos.is_some())
                | bit(7, m.nw_proto.is_some())
                | bit(8, m.nw_src.is_some())
                | bit(9, m.nw_dst.is_some())
                | bit(10, m.tp_src.is_some())
                | bit(11, m.tp_dst.is_some()),
            src_len: m.nw_src.map_or(0, |p| p.len),
            dst_len: m.nw_dst.map_or(0, |p| p.len),
        }
    }

    /// The match of this shape that holds the header.
    fn place(&self, h: &Header) -> Match {
        let named = |place: u16| self.named >> place & 1 == 1;
        let prefix = |addr, len| Prefix { addr: top_bits(addr, len), len };
        Match {
            in_port: named(0).then_some(h.in_port),
            dl_src: named(1).then_some(h.dl_src),
            dl_dst: named(2).then_some(h.dl_dst),
            dl_vlan: named(3).then_some(h.dl_vlan),
            dl_vlan_pcp: named(4).then_some(h.dl_vlan_pcp),
            dl_type: named(5).then_some(h.dl_type),
            nw_tos: named(6).then_some(h.nw_tos),
            nw_proto: named(7).then_some(h.nw_proto),
            nw_src: named(8).then(|| prefix(h.nw_src, self.src_len)),
            nw_dst: named(9).then(|| prefix(h.nw_dst, self.dst_len)),
            tp_src: named(10).then_some(h.tp_src),
            tp_dst: named(11).then_some(h.tp_dst),
        }
    }
}

#[derive(Clone, Copy)]
enum Action {
    Output { port: u16 },
    SetTpDst { port: u16 },
}

const NORMAL: u16 = 0xfffa;
const CONTROLLER: u16 = 0xfffd;

struct Entry {
    rank: u32,
    actions: Vec<Action>,
}

/// Entries found by their shapes: of each match the one of the highest rank.
#[derive(Default)]
struct Table {
    entries: Vec<Entry>,
    groups: Vec<(Shape, HashMap<Match, usize>)>,
}

impl Table {
    fn add(&mut self, m: Match, rank: u32, actions: Vec<Action>) {
        let shape = Shape::of(&m);
        let group = match self.groups.iter().position(|(s, _)| *s == shape) {
            Some(place) => place,
            None => {
                self.groups.push((shape, HashMap::new()));
                self.groups.len() - 1
            }
        };
        let number = self.entries.len();
        self.entries.push(Entry { rank, actions });
        let place = self.groups[group].1.entry(m).or_insert(number);
        if self.entries[*place].rank < rank {
            *place = number;
        }
    }

    fn best(&self, h: &Header) -> Option<&Entry> {
        let mut best: Option<&Entry> = None;
        for (shape, group) in &self.groups {
            if let Some(number) = group.get(&shape.place(h)) {
                let entry = &self.entries[*number];
                if best.is_none_or(|b| b.rank < entry.rank) {
                    best = Some(entry);
                }
            }
        }
        best
    }
}

/// What sets do to a header: the fields that are set.
#[derive(Clone, Copy, Default)]
struct Rewrite {
    dl_src: Option<u64>,
    dl_dst: Option<u64>,
    nw_src: Option<u32>,
    nw_dst: Option<u32>,
    nw_tos: Option<u8>,
    tp_src: Option<u16>,
    tp_dst: Option<u16>,
}

impl Rewrite {
    fn then(&self, next: &Rewrite) -> Rewrite {
        Rewrite {
            dl_src: next.dl_src.or(self.dl_src),
            dl_dst: next.dl_dst.or(self.dl_dst),
            nw_src: next.nw_src.or(self.nw_src),
            nw_dst: next.nw_dst.or(self.nw_dst),
            nw_tos: next.nw_tos.or(self.nw_tos),
            tp_src: next.tp_src.or(self.tp_src),
            tp_dst: next.tp_dst.or(self.tp_dst),
        }
    }

    fn apply(&self, h: &Header) -> Header {
        Header {
            dl_src: self.dl_src.unwrap_or(h.dl_src),
            dl_dst: self.dl_dst.unwrap_or(h.dl_dst),
            nw_src: self.nw_src.unwrap_or(h.nw_src),
            nw_dst: self.nw_dst.unwrap_or(h.nw_dst),
            nw_tos: self.nw_tos.unwrap_or(h.nw_tos),
            tp_src: self.tp_src.unwrap_or(h.tp_src),
            tp_dst: self.tp_dst.unwrap_or(h.tp_dst),
            ..*h
        }
    }
}

struct Grant {
    ports: Vec<u16>,
    regions: Vec<Match>,
    misses: bool,
}

enum Expr {
    Member(usize),
    Par(Box<Expr>, Box<Expr>),
    Seq(Box<Expr>, Box<Expr>),
}

struct PortOut {
    port: u16,
    #[allow(dead_code)]
    rewrite: Rewrite,
}

#[allow(dead_code)]
struct Told {
    member: usize,
    in_port: u16,
    reason: u8,
    rewrite: Rewrite,
}

#[derive(Default)]
struct Walked {
    outs: Vec<PortOut>,
    told: Vec<Told>,
}

struct World {
    expr: Expr,
    grants: Vec<Grant>,
    tables: Vec<Table>,
}

impl World {
    /// What a member's table does to a packet; it gives the rewrite with which the packet is passed on.
    fn ask(&self, member: usize, h: &Header, so_far: &Rewrite, walked: &mut Walked) -> Option<Rewrite> {
        let grant = &self.grants[member];
        if !grant.regions.iter().any(|region| region.holds(h)) || !grant.ports.contains(&h.in_port) {
            return None;
        }
        let Some(entry) = self.tables[member].best(h) else {
            if grant.misses {
                walked.told.push(Told { member, in_port: h.in_port, reason: 0, rewrite: *so_far });
            }
            return None;
        };
        let mut rewrite = *so_far;
        let mut passed = None;
        for action in &entry.actions {
            match action {
                Action::SetTpDst { port } => rewrite.tp_dst = Some(*port),
                Action::Output { port: CONTROLLER } => {
                    walked.told.push(Told { member, in_port: h.in_port, reason: 1, rewrite });
                }
                Action::Output { port: NORMAL } => passed = Some(rewrite),
                Action::Output { port } if *port != h.in_port && grant.ports.contains(port) => {
                    walked.outs.push(PortOut { port: *port, rewrite });
                }
                Action::Output { .. } => {}
            }
        }
        passed
    }

    fn evaluate(&self, expr: &Expr, h: &Header, so_far: &Rewrite, walked: &mut Walked) -> Option<Rewrite> {
        match expr {
            Expr::Member(member) => self.ask(*member, h, so_far, walked),
            Expr::Par(left, right) => {
                self.evaluate(left, h, so_far, walked);
                self.evaluate(right, h, so_far, walked)
            }
            Expr::Seq(left, right) => {
                let passed = self.evaluate(left, h, so_far, walked)?;
                let next = passed.apply(h);
                self.evaluate(right, &next, &so_far.then(&passed), walked)
            }
        }
    }

    fn tellings(&self, h: &Header) -> Walked {
        let mut walked = Walked::default();
        self.evaluate(&self.expr, h, &Rewrite::default(), &mut walked);
        walked
    }
}

fn net(number: u32) -> Prefix {
    Prefix { addr: (0x000a_0000 + number) * 256, len: 24 }
}

fn to_net(number: u32) -> Match {
    Match {
        in_port: (number % 2 == 0).then_some(1),
        dl_type: Some(0x0800),
        nw_proto: (number % 4 < 2).then_some(6),
        nw_dst: Some(net(number)),
        ..Match::default()
    }
}

fn actions(number: u32, passes: bool) -> Vec<Action> {
    if passes {
        return vec![Action::SetTpDst { port: (8000 + number % 1000) as u16 }, Action::Output { port: NORMAL }];
    }
    let port = if number % 16 == 15 { CONTROLLER } else { (1 + number % 4) as u16 };
    vec![Action::Output { port }]
}

fn table(entries: u32, passes: bool) -> Table {
    let mut table = Table::default();
    for number in 0..entries {
        table.add(to_net(number), number % 64 + 100, actions(number, passes));
    }
    table
}

/// Members before the last two see packets; of these the first passes packets on to the second.
fn expr(members: usize) -> Expr {
    if members == 1 {
        return Expr::Member(0);
    }
    let member = |number| Box::new(Expr::Member(number));
    let mut left = member(0);
    for number in 1..members - 2 {
        left = Box::new(Expr::Par(left, member(number)));
    }
    Expr::Par(left, Box::new(Expr::Seq(member(members - 2), member(members - 1))))
}

fn header(number: u32, nets: u32) -> Header {
    Header {
        in_port: 1,
        dl_src: 1,
        dl_dst: 2,
        dl_vlan: 0xffff,
        dl_vlan_pcp: 0,
        dl_type: 0x0800,
        nw_tos: 0,
        nw_proto: 6,
        nw_src: 0x0a00_0001,
        nw_dst: net(number.wrapping_mul(7919) % nets).addr + number % 256,
        tp_src: 4000,
        tp_dst: 80,
    }
}

fn main() {
    let words: Vec<String> = env::args().collect();
    let members: usize = words[1].parse().unwrap();
    let entries: u32 = words[2].parse().unwrap();
    let headers: u32 = words[3].parse().unwrap();
    let passes = |member: usize| members > 1 && member == members - 2;
    let world = World {
        expr: expr(members),
        grants: (0..members)
            .map(|_| Grant { ports: vec![1, 2, 3, 4], regions: vec![Match::default()], misses: true })
            .collect(),
        tables: (0..members).map(|member| table(entries, passes(member))).collect(),
    };
    let (mut outs, mut ports, mut told) = (0u64, 0u64, 0u64);
    for number in 0..headers {
        let walked = world.tellings(&header(number, entries));
        outs += walked.outs.len() as u64;
        ports += walked.outs.iter().map(|out| u64::from(out.port)).sum::<u64>();
        told += walked.told.len() as u64;
    }
    println!("members={members} entries={entries} headers={headers} outs={outs} ports={ports} told={told}");
}
