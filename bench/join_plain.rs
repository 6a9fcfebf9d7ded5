//! The same job as the part `join` of `crates/bench_parts`, in plain Rust: each rule of the left is joined with
//! each of the right, under `+` and under `>>`.
#[derive(Clone, Copy, PartialEq)]
struct Prefix {
    addr: u32,
    len: u8,
}

#[derive(Clone, Copy, Default)]
struct Rewrite {
    dl_src: Option<u64>,
    dl_dst: Option<u64>,
    nw_src: Option<u32>,
    nw_dst: Option<u32>,
    nw_tos: Option<u8>,
    tp_src: Option<u16>,
    tp_dst: Option<u16>,
}

#[derive(Clone, Copy, Default)]
struct Match {
    in_port: Option<u16>,
    dl_src: Option<u64>,
    dl_dst: Option<u64>,
    dl_vlan: Option<u16>,
    dl_vlan_pcp: Option<u8>,
    dl_type: Option<u16>,
    nw_tos: Option<u8>,
    nw_proto: Option<u8>,
    nw_src: Option<Prefix>,
    nw_dst: Option<Prefix>,
    tp_src: Option<u16>,
    tp_dst: Option<u16>,
}

#[derive(Clone, Copy)]
enum Dest {
    Port { v: u32, port: u16 },
}

#[derive(Clone, Copy)]
struct Out {
    rewrite: Rewrite,
    dest: Dest,
}

#[derive(Clone, Copy)]
enum Tail {
    Nothing,
    Pass(Rewrite),
}

struct Rule {
    m: Match,
    level: u64,
    touched: bool,
    outs: Vec<Out>,
    tail: Tail,
    ancestry: Vec<(u32, u64)>,
}

fn both<T: PartialEq + Copy>(a: Option<T>, b: Option<T>) -> Option<Option<T>> {
    match (a, b) {
        (Some(v), Some(w)) => (v == w).then_some(a),
        (None, b) => Some(b),
        (a, None) => Some(a),
    }
}

fn begins(p: Prefix, addr: u32) -> bool {
    (p.addr ^ addr) >> (32 - p.len) == 0
}

fn both_prefixes(a: Option<Prefix>, b: Option<Prefix>) -> Option<Option<Prefix>> {
    match (a, b) {
        (Some(p), Some(q)) => {
            let (short, long) = if p.len < q.len { (p, q) } else { (q, p) };
            begins(short, long.addr).then_some(Some(long))
        }
        (None, b) => Some(b),
        (a, None) => Some(a),
    }
}

impl Match {
    fn meet(&self, other: &Match) -> Option<Match> {
        Some(Match {
            in_port: both(self.in_port, other.in_port)?,
            dl_src: both(self.dl_src, other.dl_src)?,
            dl_dst: both(self.dl_dst, other.dl_dst)?,
            dl_vlan: both(self.dl_vlan, other.dl_vlan)?,
            dl_vlan_pcp: both(self.dl_vlan_pcp, other.dl_vlan_pcp)?,
            dl_type: both(self.dl_type, other.dl_type)?,
            nw_tos: both(self.nw_tos, other.nw_tos)?,
            nw_proto: both(self.nw_proto, other.nw_proto)?,
            nw_src: both_prefixes(self.nw_src, other.nw_src)?,
            nw_dst: both_prefixes(self.nw_dst, other.nw_dst)?,
            tp_src: both(self.tp_src, other.tp_src)?,
            tp_dst: both(self.tp_dst, other.tp_dst)?,
        })
    }

    fn pull(&self, r: &Rewrite) -> Option<Match> {
        let ip = self.dl_type == Some(0x0800);
        let ports = ip && matches!(self.nw_proto, Some(6 | 17));
        let mut m = *self;
        macro_rules! unset {
            ($field:ident, $sets:expr, $fits:expr) => {
                if let (Some(value), true) = (r.$field, $sets) {
                    if let Some(asked) = self.$field {
                        let fits: fn(_, _) -> bool = $fits;
                        if !fits(asked, value) {
                            return None;
                        }
                    }
                    m.$field = None;
                }
            };
        }
        unset!(dl_src, true, |a, v| a == v);
        unset!(dl_dst, true, |a, v| a == v);
        unset!(nw_tos, ip, |a, v| a == v);
        unset!(nw_src, ip, begins);
        unset!(nw_dst, ip, begins);
        unset!(tp_src, ports, |a, v| a == v);
        unset!(tp_dst, ports, |a, v| a == v);
        Some(m)
    }
}

impl Rewrite {
    fn then(&self, next: &Rewrite) -> Rewrite {
        Rewrite {
            dl_src: next.dl_src.or(self.dl_src),
            dl_dst: next.dl_dst.or(self.dl_dst),
            nw_src: next.nw_src.or(self.nw_src),
            nw_dst: next.nw_dst.or(self.nw_dst),
            nw_tos: next.nw_tos.or(self.nw_tos),
            tp_src: next.tp_src.or(self.tp_src),
            tp_dst: next.tp_dst.or(self.tp_dst),
        }
    }
}

const SIZE: u64 = 16;

fn parallel(a: &Rule, b: &Rule) -> Option<Rule> {
    Some(Rule {
        m: a.m.meet(&b.m)?,
        level: a.level + b.level,
        touched: a.touched | b.touched,
        outs: a.outs.iter().chain(&b.outs).copied().collect(),
        tail: b.tail,
        ancestry: a.ancestry.iter().chain(&b.ancestry).copied().collect(),
    })
}

fn sequential(a: &Rule, r: &Rewrite, b: &Rule) -> Option<Rule> {
    let m = a.m.meet(&b.m.pull(r)?)?;
    let after = b.outs.iter().map(|out| Out { rewrite: r.then(&out.rewrite), dest: out.dest });
    Some(Rule {
        m,
        level: a.level * SIZE + b.level,
        touched: a.touched,
        outs: a.outs.iter().copied().chain(after).collect(),
        tail: match b.tail {
            Tail::Nothing => Tail::Nothing,
            Tail::Pass(next) => Tail::Pass(r.then(&next)),
        },
        ancestry: a.ancestry.iter().chain(&b.ancestry).copied().collect(),
    })
}

fn entry(m: Match, number: u32, member: u32, tail: Tail) -> Rule {
    let out = |port| Out { rewrite: Rewrite::default(), dest: Dest::Port { v: 0, port } };
    let kind = 2 + u64::from(number);
    Rule {
        m: Match { in_port: Some(1 + (number % 4) as u16), dl_type: Some(0x0800), ..m },
        level: kind % SIZE,
        touched: true,
        outs: vec![out(1), out(2)],
        tail,
        ancestry: vec![(member, kind)],
    }
}

fn main() {
    let rules: u32 = std::env::args().nth(1).and_then(|word| word.parse().ok()).expect("RULES");
    let net = |number: u32| Some(Prefix { addr: (0x000a_0000 + number) * 256, len: 24 });
    let lefts: Vec<Rule> = (0..rules)
        .map(|n| {
            let rewrite = Rewrite { nw_dst: Some(0x0a00_0001 + n * 256), ..Rewrite::default() };
            entry(Match { nw_src: net(n), ..Match::default() }, n, 0, Tail::Pass(rewrite))
        })
        .collect();
    let rights: Vec<Rule> = (0..rules)
        .map(|n| entry(Match { nw_dst: net(n), ..Match::default() }, n, 1, Tail::Nothing))
        .collect();
    let (mut made, mut levels) = (0u64, 0u64);
    let mut add = |rule: Option<Rule>| {
        if let Some(rule) = std::hint::black_box(rule) {
            made += 1;
            levels += rule.level;
        }
    };
    for a in &lefts {
        for b in &rights {
            add(parallel(a, b));
            if let Tail::Pass(rewrite) = &a.tail {
                add(sequential(a, rewrite, b));
            }
        }
    }
    println!("rules={rules} made={made} levels={levels}");
}
