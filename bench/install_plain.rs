//! The same job as the part `install` of `crates/bench_parts`, in plain Rust: entries are put on a switch, some
//! change, all are installed anew, and switches report.
use std::collections::{BTreeMap, HashMap};
use std::env;

#[derive(Clone, Copy, PartialEq, Eq, Hash)]
struct Prefix {
    addr: u32,
    len: u8,
}

#[derive(Clone, Copy, Default, PartialEq, Eq, Hash)]
struct Match {
    in_port: Option<u16>,
    dl_src: Option<u64>,
    dl_dst: Option<u64>,
    dl_vlan: Option<u16>,
    dl_vlan_pcp: Option<u8>,
    dl_type: Option<u16>,
    nw_tos: Option<u8>,
    nw_proto: Option<u8>,
    nw_src: Option<Prefix>,
    nw_dst: Option<Prefix>,
    tp_src: Option<u16>,
    tp_dst: Option<u16>,
}

fn open_bits(prefix: Option<Prefix>) -> u32 {
    prefix.map_or(32, |p| 32 - u32::from(p.len))
}

impl Match {
    /// The 40 bytes of an ofp_match.
    fn bytes(&self) -> [u8; 40] {
        let bit = |place: u32, open: bool| u32::from(open) << place;
        let wildcards = bit(0, self.in_port.is_none())
            | bit(1, self.dl_vlan.is_none())
            | bit(2, self.dl_src.is_none())
            | bit(3, self.dl_dst.is_none())
            | bit(4, self.dl_type.is_none())
            | bit(5, self.nw_proto.is_none())
            | bit(6, self.tp_src.is_none())
            | bit(7, self.tp_dst.is_none())
            | open_bits(self.nw_src) << 8
            | open_bits(self.nw_dst) << 14
            | bit(20, self.dl_vlan_pcp.is_none())
            | bit(21, self.nw_tos.is_none());
        let mut bytes = [0; 40];
        bytes[0..4].copy_from_slice(&wildcards.to_be_bytes());
        bytes[4..6].copy_from_slice(&self.in_port.unwrap_or(0).to_be_bytes());
        bytes[6..12].copy_from_slice(&self.dl_src.unwrap_or(0).to_be_bytes()[2..]);
        bytes[12..18].copy_from_slice(&self.dl_dst.unwrap_or(0).to_be_bytes()[2..]);
        bytes[18..20].copy_from_slice(&self.dl_vlan.unwrap_or(0).to_be_bytes());
        bytes[20] = self.dl_vlan_pcp.unwrap_or(0);
        bytes[22..24].copy_from_slice(&self.dl_type.unwrap_or(0).to_be_bytes());
        bytes[24] = self.nw_tos.unwrap_or(0);
        bytes[25] = self.nw_proto.unwrap_or(0);
        bytes[28..32].copy_from_slice(&self.nw_src.map_or(0, |p| p.addr).to_be_bytes());
        bytes[32..36].copy_from_slice(&self.nw_dst.map_or(0, |p| p.addr).to_be_bytes());
        bytes[36..38].copy_from_slice(&self.tp_src.unwrap_or(0).to_be_bytes());
        bytes[38..40].copy_from_slice(&self.tp_dst.unwrap_or(0).to_be_bytes());
        bytes
    }
}

#[derive(Clone, Copy)]
struct Header {
    in_port: u16,
    dl_src: u64,
    dl_dst: u64,
    dl_vlan: u16,
    dl_vlan_pcp: u8,
    dl_type: u16,
    nw_tos: u8,
    nw_proto: u8,
    nw_src: u32,
    nw_dst: u32,
    tp_src: u16,
    tp_dst: u16,
}

fn top_bits(addr: u32, len: u8) -> u32 {
    if len == 0 { 0 } else { addr & u32::MAX << (32 - len) }
}

/// The fields that a match names.
#[derive(Clone, Copy, PartialEq)]
struct Shape {
    named: u16,
    src_len: u8,
    dst_len: u8,
}

const ALL_NAMED: Shape = Shape { named: 0xfff, src_len: 32, dst_len: 32 };

impl Shape {
    fn of(m: &Match) -> Shape {
        let bit = |place: u16, named: bool| u16::from(named) << place;
        Shape {
            named: bit(0, m.in_port.is_some())
                | bit(1, m.dl_src.is_some())
                | bit(2, m.dl_dst.is_some())
                | bit(3, m.dl_vlan.is_some())
                | bit(4, m.dl_vlan_pcp.is_some())
                | bit(5, m.dl_type.is_some())
                | bit(6, m.nw_tos.is_some())
                | bit(7, m.nw_proto.is_some())
                | bit(8, m.nw_src.is_some())
                | bit(9, m.nw_dst.is_some())
                | bit(10, m.tp_src.is_some())
                | bit(11, m.tp_dst.is_some()),
            src_len: m.nw_src.map_or(0, |p| p.len),
            dst_len: m.nw_dst.map_or(0, |p| p.len),
        }
    }

    /// The match of this shape that holds the header.
    fn place(&self, h: &Header) -> Match {
        let named = |place: u16| self.named >> place & 1 == 1;
        let prefix = |addr, len| Prefix { addr: top_bits(addr, len), len };
        Match {
            in_port: named(0).then_some(h.in_port),
            dl_src: named(1).then_some(h.dl_src),
            dl_dst: named(2).then_some(h.dl_dst),
            dl_vlan: named(3).then_some(h.dl_vlan),
            dl_vlan_pcp: named(4).then_some(h.dl_vlan_pcp),
            dl_type: named(5).then_some(h.dl_type),
            nw_tos: named(6).then_some(h.nw_tos),
            nw_proto: named(7).then_some(h.nw_proto),
            nw_src: named(8).then(|| prefix(h.nw_src, self.src_len)),
            nw_dst: named(9).then(|| prefix(h.nw_dst, self.dst_len)),
            tp_src: named(10).then_some(h.tp_src),
            tp_dst: named(11).then_some(h.tp_dst),
        }
    }
}

/// The priorities of matches, found by the fields that these name.
#[derive(Default)]
struct Finder {
    groups: Vec<(Shape, HashMap<Match, Vec<u16>>)>,
}

impl Finder {
    fn insert(&mut self, m: &Match, priority: u16) {
        let shape = Shape::of(m);
        let place = self.groups.iter().position(|(s, _)| *s == shape).unwrap_or_else(|| {
            self.groups.push((shape, HashMap::new()));
            self.groups.len() - 1
        });
        self.groups[place].1.entry(*m).or_default().push(priority);
    }

    fn remove(&mut self, m: &Match, priority: u16) {
        let shape = Shape::of(m);
        if let Some((_, group)) = self.groups.iter_mut().find(|(s, _)| *s == shape) {
            if let Some(priorities) = group.get_mut(m) {
                priorities.retain(|p| *p != priority);
                if priorities.is_empty() {
                    group.remove(m);
                }
            }
        }
    }
}

#[derive(Clone, Copy, PartialEq)]
enum Action {
    Output { port: u16, max_len: u16 },
}

#[derive(Clone, Copy, PartialEq, Eq, PartialOrd, Ord, Hash)]
struct Leaf {
    member: u32,
    kind: u64,
}

#[derive(Clone, PartialEq)]
struct Entry {
    m: Match,
    priority: u16,
    actions: Vec<Action>,
    ancestry: Vec<Leaf>,
}

struct Written {
    entry: Entry,
    cookie: u64,
}

struct Batch {
    deletes: Vec<Written>,
    adds: Vec<Written>,
}

/// By priority, and then by the bytes of the match.
type Key = (u16, [u8; 40]);

fn key(entry: &Entry) -> Key {
    (entry.priority, entry.m.bytes())
}

/// The entries of a key by ancestry, and the cookie of the first.
#[derive(Clone, Default)]
struct Slot {
    entries: Vec<Entry>,
    cookie: u64,
}

#[derive(Default)]
struct Installed {
    slots: BTreeMap<Key, Slot>,
    finder: Finder,
    /// What changed last, as it was, with the match of the key.
    saved: BTreeMap<Key, (Match, Slot)>,
}

impl Installed {
    fn touch(&mut self, entry: &Entry) -> &mut Slot {
        let key = key(entry);
        let finder = &mut self.finder;
        let slot = self.slots.entry(key).or_insert_with(|| {
            finder.insert(&entry.m, entry.priority);
            Slot::default()
        });
        self.saved.entry(key).or_insert_with(|| (entry.m, slot.clone()));
        slot
    }

    fn drop_slot(&mut self, key: &Key, m: &Match) {
        self.slots.remove(key);
        self.finder.remove(m, key.0);
    }

    /// The entry of the highest rank that holds a header, and of one rank that of the least cookie.
    fn best(&self, h: &Header) -> Option<Written> {
        let mut best: Option<(u32, &Slot)> = None;
        for (shape, group) in &self.finder.groups {
            let place = shape.place(h);
            let Some(priorities) = group.get(&place) else { continue };
            let bytes = place.bytes();
            for priority in priorities {
                let slot = &self.slots[&(*priority, bytes)];
                if slot.entries.is_empty() {
                    continue;
                }
                let rank = if *shape == ALL_NAMED { 65536 } else { u32::from(*priority) };
                if best.is_none_or(|(r, s)| r < rank || r == rank && slot.cookie < s.cookie) {
                    best = Some((rank, slot));
                }
            }
        }
        best.map(|(_, slot)| Written { entry: slot.entries[0].clone(), cookie: slot.cookie })
    }

    fn keep(&mut self) {
        for (key, (m, _)) in std::mem::take(&mut self.saved) {
            if self.slots.get(&key).is_some_and(|slot| slot.entries.is_empty()) {
                self.drop_slot(&key, &m);
            }
        }
    }

    fn undo(&mut self) {
        for (key, (m, old)) in std::mem::take(&mut self.saved) {
            if old.entries.is_empty() {
                self.drop_slot(&key, &m);
            } else {
                self.slots.insert(key, old);
            }
        }
    }

    fn change(&mut self, gone: &[Entry], come: &[Entry], mut next: u64) -> Batch {
        self.keep();
        for entry in gone {
            let slot = self.touch(entry);
            if let Ok(place) = slot.entries.binary_search_by(|e| e.ancestry.cmp(&entry.ancestry)) {
                slot.entries.remove(place);
            }
        }
        for entry in come {
            let slot = self.touch(entry);
            match slot.entries.binary_search_by(|e| e.ancestry.cmp(&entry.ancestry)) {
                Ok(place) => slot.entries[place] = entry.clone(),
                Err(place) => slot.entries.insert(place, entry.clone()),
            }
        }
        let mut batch = Batch { deletes: Vec::new(), adds: Vec::new() };
        for (key, (_, old)) in &self.saved {
            let slot = self.slots.get_mut(key).unwrap();
            if old.entries.first() == slot.entries.first() {
                continue;
            }
            if let Some(entry) = old.entries.first() {
                batch.deletes.push(Written { entry: entry.clone(), cookie: old.cookie });
            }
            if let Some(entry) = slot.entries.first() {
                batch.adds.push(Written { entry: entry.clone(), cookie: next });
                slot.cookie = next;
                next += 1;
            }
        }
        batch
    }

    fn whole(&mut self, mut next: u64) -> Batch {
        let mut adds = Vec::new();
        for (key, slot) in &mut self.slots {
            if let Some(entry) = slot.entries.first() {
                self.saved.entry(*key).or_insert_with(|| (entry.m, slot.clone()));
                adds.push(Written { entry: entry.clone(), cookie: next });
                slot.cookie = next;
                next += 1;
            }
        }
        Batch { deletes: Vec::new(), adds }
    }
}

struct Row {
    ancestry: Vec<Leaf>,
    packets: u64,
    bytes: u64,
}

#[derive(Default)]
struct Sum {
    packets: u64,
    bytes: u64,
    live: usize,
    live_packets: u128,
    live_bytes: u128,
}

#[derive(Default)]
struct Counts {
    live: BTreeMap<u32, BTreeMap<u64, Row>>,
    sums: HashMap<Leaf, Sum>,
}

fn each_once(ancestry: &[Leaf]) -> impl Iterator<Item = &Leaf> {
    ancestry.iter().enumerate().filter(move |(place, leaf)| !ancestry[..*place].contains(leaf)).map(|(_, leaf)| leaf)
}

impl Counts {
    fn install(&mut self, switch: u32, written: &Written) {
        for leaf in each_once(&written.entry.ancestry) {
            self.sums.entry(*leaf).or_default().live += 1;
        }
        let row = Row { ancestry: written.entry.ancestry.clone(), packets: 0, bytes: 0 };
        self.live.entry(switch).or_default().insert(written.cookie, row);
    }

    fn report(&mut self, switch: u32, cookie: u64, packets: u64, bytes: u64, last: bool) -> bool {
        let Some(rows) = self.live.get_mut(&switch) else { return false };
        let Some(row) = rows.get_mut(&cookie) else { return false };
        for leaf in each_once(&row.ancestry) {
            let sum = self.sums.get_mut(leaf).unwrap();
            sum.live_packets = sum.live_packets - u128::from(row.packets) + u128::from(packets);
            sum.live_bytes = sum.live_bytes - u128::from(row.bytes) + u128::from(bytes);
        }
        row.packets = packets;
        row.bytes = bytes;
        if last {
            for leaf in each_once(&row.ancestry) {
                let sum = self.sums.get_mut(leaf).unwrap();
                sum.live -= 1;
                sum.live_packets -= u128::from(packets);
                sum.live_bytes -= u128::from(bytes);
                sum.packets = sum.packets.saturating_add(packets);
                sum.bytes = sum.bytes.saturating_add(bytes);
            }
            rows.remove(&cookie);
        }
        true
    }
}

/// The entry of a number: a net behind a port, of one of the priorities.
fn entry(number: u32, priorities: u16, to: u16) -> Entry {
    Entry {
        m: Match {
            in_port: Some(1),
            dl_type: Some(0x0800),
            nw_dst: Some(Prefix { addr: (0x000a_0000 + number) * 256, len: 24 }),
            ..Match::default()
        },
        priority: (number % u32::from(priorities)) as u16 + 1,
        actions: vec![Action::Output { port: to, max_len: 0 }],
        ancestry: vec![Leaf { member: 0, kind: u64::from(number) + 3 }, Leaf { member: 1, kind: 1 }],
    }
}

fn header(number: u32) -> Header {
    Header {
        in_port: 1,
        dl_src: 1,
        dl_dst: 2,
        dl_vlan: 0xffff,
        dl_vlan_pcp: 0,
        dl_type: 0x0800,
        nw_tos: 0,
        nw_proto: 6,
        nw_src: 0x0a00_0001,
        nw_dst: (0x000a_0000 + number) * 256 + number % 256,
        tp_src: 4000,
        tp_dst: 80,
    }
}

fn entries(from: u32, count: u32, priorities: u16, to: u16) -> Vec<Entry> {
    (from..from + count).map(|number| entry(number, priorities, to)).collect()
}

fn main() {
    let words: Vec<String> = env::args().collect();
    let size: u32 = words[1].parse().unwrap();
    let phase = words[2].as_str();
    let rounds: u32 = words[3].parse().unwrap();
    let priorities: u16 = words[4].parse().unwrap();
    let mut table = Installed::default();
    let mut counts = Counts::default();
    let (mut deletes, mut adds, mut cookies, mut reported) = (0, 0, 0u64, 0u64);
    let mut next = 1;
    let mut note = |batch: &Batch, next: &mut u64| {
        deletes += batch.deletes.len();
        adds += batch.adds.len();
        for row in batch.deletes.iter().chain(&batch.adds) {
            cookies = cookies.wrapping_add(row.cookie);
        }
        *next += batch.adds.len() as u64;
    };
    let first = table.change(&[], &entries(0, size, priorities, 1), next);
    note(&first, &mut next);
    if phase == "report" {
        for row in &first.adds {
            counts.install(0, row);
        }
    }
    let width = if phase == "hundred" { 100 } else { 1 };
    for round in 0..rounds {
        let (old, new) = (1 + (round % 2) as u16, 2 - (round % 2) as u16);
        match phase {
            "one" | "hundred" => {
                let from = size / 2;
                let batch = table.change(&entries(from, width, priorities, old), &entries(from, width, priorities, new), next);
                note(&batch, &mut next);
            }
            "undo" => {
                let batch = table.change(&entries(size / 2, 1, priorities, 1), &entries(size / 2, 1, priorities, 2), next);
                note(&batch, &mut next);
                table.undo();
            }
            "whole" => {
                let batch = table.whole(next);
                note(&batch, &mut next);
                table.keep();
            }
            "report" => {
                let cookie = u64::from(round * 7919 % size) + 1;
                reported += u64::from(counts.report(0, cookie, u64::from(round), 64 * u64::from(round), false));
            }
            "best" => {
                if let Some(best) = table.best(&header(round * 7919 % size)) {
                    reported += best.cookie;
                }
            }
            _ => {}
        }
    }
    println!("entries={size} deletes={deletes} adds={adds} cookies={cookies} reported={reported}");
}
