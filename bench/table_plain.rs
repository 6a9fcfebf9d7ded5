//! The same job as the part `table` of `crates/bench_parts`, in plain Rust: entries are added to a table, given
//! other actions and taken out, each by a message.
use std::collections::{BTreeMap, HashMap, HashSet};

#[derive(Clone, Copy, PartialEq, Eq, Hash)]
struct Prefix {
    addr: u32,
    len: u8,
}

#[derive(Clone, Copy, Default, PartialEq, Eq, Hash)]
struct Match {
    in_port: Option<u16>,
    dl_src: Option<u64>,
    dl_dst: Option<u64>,
    dl_vlan: Option<u16>,
    dl_vlan_pcp: Option<u8>,
    dl_type: Option<u16>,
    nw_tos: Option<u8>,
    nw_proto: Option<u8>,
    nw_src: Option<Prefix>,
    nw_dst: Option<Prefix>,
    tp_src: Option<u16>,
    tp_dst: Option<u16>,
}

#[derive(Clone, Copy, PartialEq)]
enum Action {
    Output { port: u16, max_len: u16 },
}

struct FlowMod {
    m: [u8; 40],
    cookie: u64,
    command: u16,
    idle_timeout: u16,
    hard_timeout: u16,
    priority: u16,
    buffer_id: u32,
    out_port: u16,
    flags: u16,
    actions: Vec<Action>,
}

struct Entry {
    serial: u64,
    raw: [u8; 40],
    normal: Match,
    priority: u16,
    rank: u32,
    cookie: u64,
    idle: u16,
    hard: u16,
    flags: u16,
    actions: Vec<Action>,
    added: u64,
    last: u64,
}

#[derive(Debug)]
enum Fault {
    Overlap { with: u64 },
    Entries { limit: usize },
}

const NONE: u16 = 0xffff;
const EXACT: u32 = 65536;

fn agree<T: PartialEq>(a: Option<T>, b: Option<T>) -> bool {
    match (a, b) {
        (Some(v), Some(w)) => v == w,
        _ => true,
    }
}

fn agree_prefix(a: Option<Prefix>, b: Option<Prefix>) -> bool {
    match (a, b) {
        (Some(p), Some(q)) => (p.addr ^ q.addr) >> (32 - p.len.min(q.len)) == 0,
        _ => true,
    }
}

fn covers<T: PartialEq>(a: Option<T>, b: Option<T>) -> bool {
    a.is_none() || a == b
}

fn covers_prefix(a: Option<Prefix>, b: Option<Prefix>) -> bool {
    match (a, b) {
        (None, _) => true,
        (Some(p), Some(q)) => p.len <= q.len && (p.addr ^ q.addr) >> (32 - p.len) == 0,
        _ => false,
    }
}

fn prefix(left_out: u32, addr: u32) -> Option<Prefix> {
    (left_out < 32).then(|| Prefix { addr: addr >> left_out << left_out, len: 32 - left_out as u8 })
}

impl Match {
    fn overlaps(&self, other: &Match) -> bool {
        agree(self.in_port, other.in_port)
            && agree(self.dl_src, other.dl_src)
            && agree(self.dl_dst, other.dl_dst)
            && agree(self.dl_vlan, other.dl_vlan)
            && agree(self.dl_vlan_pcp, other.dl_vlan_pcp)
            && agree(self.dl_type, other.dl_type)
            && agree(self.nw_tos, other.nw_tos)
            && agree(self.nw_proto, other.nw_proto)
            && agree_prefix(self.nw_src, other.nw_src)
            && agree_prefix(self.nw_dst, other.nw_dst)
            && agree(self.tp_src, other.tp_src)
            && agree(self.tp_dst, other.tp_dst)
    }

    fn covers(&self, other: &Match) -> bool {
        covers(self.in_port, other.in_port)
            && covers(self.dl_src, other.dl_src)
            && covers(self.dl_dst, other.dl_dst)
            && covers(self.dl_vlan, other.dl_vlan)
            && covers(self.dl_vlan_pcp, other.dl_vlan_pcp)
            && covers(self.dl_type, other.dl_type)
            && covers(self.nw_tos, other.nw_tos)
            && covers(self.nw_proto, other.nw_proto)
            && covers_prefix(self.nw_src, other.nw_src)
            && covers_prefix(self.nw_dst, other.nw_dst)
            && covers(self.tp_src, other.tp_src)
            && covers(self.tp_dst, other.tp_dst)
    }

    fn wildcards(&self) -> u32 {
        let open = |bit: u32, named: bool| if named { 0 } else { 1 << bit };
        let open_bits = |p: Option<Prefix>| p.map_or(32, |p| 32 - u32::from(p.len));
        open(0, self.in_port.is_some())
            | open(1, self.dl_vlan.is_some())
            | open(2, self.dl_src.is_some())
            | open(3, self.dl_dst.is_some())
            | open(4, self.dl_type.is_some())
            | open(5, self.nw_proto.is_some())
            | open(6, self.tp_src.is_some())
            | open(7, self.tp_dst.is_some())
            | open_bits(self.nw_src) << 8
            | open_bits(self.nw_dst) << 14
            | open(20, self.dl_vlan_pcp.is_some())
            | open(21, self.nw_tos.is_some())
    }

    fn write(&self) -> [u8; 40] {
        let mut bytes = [0; 40];
        let address = |p: Option<Prefix>| p.map_or(0, |p| p.addr).to_be_bytes();
        bytes[0..4].copy_from_slice(&self.wildcards().to_be_bytes());
        bytes[4..6].copy_from_slice(&self.in_port.unwrap_or(0).to_be_bytes());
        bytes[6..12].copy_from_slice(&self.dl_src.unwrap_or(0).to_be_bytes()[2..]);
        bytes[12..18].copy_from_slice(&self.dl_dst.unwrap_or(0).to_be_bytes()[2..]);
        bytes[18..20].copy_from_slice(&self.dl_vlan.unwrap_or(0).to_be_bytes());
        bytes[20] = self.dl_vlan_pcp.unwrap_or(0);
        bytes[22..24].copy_from_slice(&self.dl_type.unwrap_or(0).to_be_bytes());
        bytes[24] = self.nw_tos.unwrap_or(0);
        bytes[25] = self.nw_proto.unwrap_or(0);
        bytes[28..32].copy_from_slice(&address(self.nw_src));
        bytes[32..36].copy_from_slice(&address(self.nw_dst));
        bytes[36..38].copy_from_slice(&self.tp_src.unwrap_or(0).to_be_bytes());
        bytes[38..40].copy_from_slice(&self.tp_dst.unwrap_or(0).to_be_bytes());
        bytes
    }

    fn normal(self) -> Match {
        let ip = self.dl_type == Some(0x0800);
        let ip_or_arp = ip || self.dl_type == Some(0x0806);
        let ports = ip && matches!(self.nw_proto, Some(1 | 6 | 17));
        let tagged = self.dl_vlan.is_some_and(|vlan| vlan != 0xffff);
        Match {
            dl_vlan_pcp: self.dl_vlan_pcp.filter(|_| tagged),
            nw_tos: self.nw_tos.filter(|_| ip),
            nw_proto: self.nw_proto.filter(|_| ip_or_arp),
            nw_src: self.nw_src.filter(|_| ip_or_arp),
            nw_dst: self.nw_dst.filter(|_| ip_or_arp),
            tp_src: self.tp_src.filter(|_| ports),
            tp_dst: self.tp_dst.filter(|_| ports),
            ..self
        }
    }
}

/// The normal match of the bytes, and whether they were written without a wildcard.
fn read(bytes: &[u8; 40]) -> (Match, bool) {
    let u16_at = |at: usize| u16::from_be_bytes([bytes[at], bytes[at + 1]]);
    let u32_at = |at: usize| u32::from(u16_at(at)) << 16 | u32::from(u16_at(at + 2));
    let mac_at = |at: usize| u64::from(u16_at(at)) << 32 | u64::from(u32_at(at + 2));
    let wildcards = u32_at(0);
    let named = |bit: u32| wildcards >> bit & 1 == 0;
    let vlan = |written: u16| if written == 0xffff { written } else { written & 0xfff };
    let m = Match {
        in_port: named(0).then(|| u16_at(4)),
        dl_src: named(2).then(|| mac_at(6)),
        dl_dst: named(3).then(|| mac_at(12)),
        dl_vlan: named(1).then(|| vlan(u16_at(18))),
        dl_vlan_pcp: named(20).then(|| bytes[20] & 7),
        dl_type: named(4).then(|| u16_at(22)),
        nw_tos: named(21).then(|| bytes[24] & 0xfc),
        nw_proto: named(5).then(|| bytes[25]),
        nw_src: prefix(wildcards >> 8 & 63, u32_at(28)),
        nw_dst: prefix(wildcards >> 14 & 63, u32_at(32)),
        tp_src: named(6).then(|| u16_at(36)),
        tp_dst: named(7).then(|| u16_at(38)),
    };
    (m.normal(), wildcards & 0x3f_ffff == 0)
}

type Identity = (u32, Match);

/// Places rise in the order of insertion; the entries of one rank stand together.
struct Table {
    limit: usize,
    next: u64,
    next_place: u64,
    entries: BTreeMap<u64, Entry>,
    places: HashMap<Identity, u64>,
    ranks: BTreeMap<u32, Vec<(u64, Match)>>,
}

#[derive(Default)]
struct Counts {
    added: u64,
    modified: u64,
    deleted: u64,
    serials: u64,
}

fn outputs_to(entry: &Entry, port: u16) -> bool {
    port == NONE || entry.actions.iter().any(|Action::Output { port: to, .. }| *to == port)
}

impl Table {
    fn new(limit: usize) -> Table {
        Table {
            limit,
            next: 1,
            next_place: 0,
            entries: BTreeMap::new(),
            places: HashMap::new(),
            ranks: BTreeMap::new(),
        }
    }

    fn identity(m: &FlowMod) -> Identity {
        let (normal, exact) = read(&m.m);
        (if exact { EXACT } else { u32::from(m.priority) }, normal)
    }

    fn apply(&mut self, m: FlowMod, now: u64, counts: &mut Counts) -> Result<(), Fault> {
        let identity = Table::identity(&m);
        match m.command {
            0 => self.add(identity, m, now, counts),
            2 => match self.places.get(&identity) {
                Some(place) => {
                    self.entries.get_mut(place).unwrap().actions = m.actions;
                    counts.modified += 1;
                    Ok(())
                }
                None => self.add(identity, m, now, counts),
            },
            3 => {
                self.delete_covered(&identity.1, m.out_port, counts);
                Ok(())
            }
            4 => {
                self.delete(&identity, m.out_port, counts);
                Ok(())
            }
            _ => unreachable!("the benchmark sends no other"),
        }
    }

    fn add(&mut self, identity: Identity, m: FlowMod, now: u64, counts: &mut Counts) -> Result<(), Fault> {
        let (rank, normal) = identity;
        let near = self.ranks.entry(rank).or_default();
        let in_way = near.iter().filter(|(_, other)| normal.overlaps(other) && normal != *other);
        if let Some(with) = in_way.map(|(serial, _)| *serial).min() {
            return Err(Fault::Overlap { with });
        }
        let serial = self.next;
        let place = match self.places.get(&identity) {
            Some(place) => {
                let old = self.entries[place].serial;
                near.retain(|(serial, _)| *serial != old);
                counts.deleted += 1;
                counts.serials += old;
                *place
            }
            None if self.entries.len() >= self.limit => return Err(Fault::Entries { limit: self.limit }),
            None => {
                self.places.insert(identity, self.next_place);
                self.next_place += 1;
                self.next_place - 1
            }
        };
        near.push((serial, normal));
        self.next += 1;
        self.entries.insert(
            place,
            Entry {
                serial,
                raw: m.m,
                normal,
                priority: m.priority,
                rank,
                cookie: m.cookie,
                idle: m.idle_timeout,
                hard: m.hard_timeout,
                flags: m.flags,
                actions: m.actions,
                added: now,
                last: now,
            },
        );
        counts.added += 1;
        Ok(())
    }

    fn delete_covered(&mut self, filter: &Match, out_port: u16, counts: &mut Counts) {
        let mut gone = HashSet::new();
        self.entries.retain(|_, entry| {
            let goes = filter.covers(&entry.normal) && outputs_to(entry, out_port);
            if goes {
                gone.insert(entry.serial);
                counts.deleted += 1;
                counts.serials += entry.serial;
            }
            !goes
        });
        let entries = &self.entries;
        self.places.retain(|_, place| entries.contains_key(place));
        for near in self.ranks.values_mut() {
            near.retain(|(serial, _)| !gone.contains(serial));
        }
    }

    fn delete(&mut self, identity: &Identity, out_port: u16, counts: &mut Counts) {
        let Some(&place) = self.places.get(identity) else { return };
        if !outputs_to(&self.entries[&place], out_port) {
            return;
        }
        let entry = self.entries.remove(&place).unwrap();
        self.places.remove(identity);
        let near = self.ranks.get_mut(&entry.rank).unwrap();
        near.retain(|(serial, _)| *serial != entry.serial);
        counts.deleted += 1;
        counts.serials += entry.serial;
    }
}

fn to_net(number: u16) -> Match {
    Match {
        dl_type: Some(0x0800),
        nw_dst: Some(Prefix { addr: (0x000a_0000 + u32::from(number)) * 256, len: 24 }),
        ..Match::default()
    }
}

fn message(command: u16, priority: u16, m: Match) -> FlowMod {
    FlowMod {
        m: m.write(),
        cookie: u64::from(priority),
        command,
        idle_timeout: 0,
        hard_timeout: 0,
        priority,
        buffer_id: 0xffff_ffff,
        out_port: NONE,
        flags: 0,
        actions: vec![Action::Output { port: command + 1, max_len: 0 }],
    }
}

fn main() {
    let words: Vec<String> = std::env::args().skip(1).collect();
    let entries: u16 = words[0].parse().expect("ENTRIES");
    let done = words[1].as_str();
    let priorities: u16 = words[2].parse().expect("PRIORITIES");
    let mut table = Table::new(4096);
    let mut counts = Counts::default();
    let mut send = |m: FlowMod| {
        table.apply(std::hint::black_box(m), 0, &mut counts).expect("it fits");
    };
    let to_one = |command: u16, number: u16| message(command, 100 + number % priorities, to_net(number));
    (0..entries).for_each(|number| send(to_one(0, number)));
    if matches!(done, "modify" | "delete") {
        (0..entries).for_each(|number| send(to_one(2, number)));
    }
    if done == "delete" {
        (1..entries).step_by(2).for_each(|number| send(to_one(4, number)));
        (0..entries).step_by(2).for_each(|number| send(to_one(4, number)));
    }
    if done == "all" {
        send(message(3, 0, Match::default()));
    }
    let left = table.entries.len();
    println!(
        "entries={entries} added={} modified={} deleted={} left={left} serials={}",
        counts.added, counts.modified, counts.deleted, counts.serials
    );
}
