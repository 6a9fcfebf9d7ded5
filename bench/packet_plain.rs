//! The same job as the part `packet` of `crates/bench_parts`, in plain Rust: reads or rewrites four frames so
//! many times.
const FRAMES: [[u8; 60]; 4] = [
    [
        0x00, 0x00, 0x00, 0x00, 0x00, 0x02, 0x00, 0x00, 0x00, 0x00, 0x00, 0x01, 0x08, 0x00, 0x45,
        0x00, 0x00, 0x1c, 0x00, 0x00, 0x00, 0x00, 0x40, 0x11, 0x6c, 0xcb, 0x0a, 0x00, 0x00, 0x01,
        0x01, 0x02, 0x03, 0x04, 0x13, 0x88, 0x00, 0x35, 0x00, 0x08, 0xde, 0x1a, 0x00, 0x00, 0x00,
        0x00, 0x00, 0x00, 0x00, 0x00, 0x00, 0x00, 0x00, 0x00, 0x00, 0x00, 0x00, 0x00, 0x00, 0x00,
    ],
    [
        0x0a, 0x00, 0x00, 0x00, 0x00, 0x02, 0x0a, 0x00, 0x00, 0x00, 0x00, 0x01, 0x81, 0x00, 0xa0,
        0x64, 0x08, 0x00, 0x46, 0x2a, 0x00, 0x40, 0x1c, 0x46, 0x40, 0x00, 0x40, 0x06, 0x9c, 0xb8,
        0xc6, 0x33, 0x64, 0x07, 0xc0, 0x00, 0x02, 0x50, 0x94, 0x04, 0x00, 0x00, 0xc0, 0x00, 0x00,
        0x50, 0x12, 0x34, 0x56, 0x78, 0x00, 0x00, 0x00, 0x00, 0xa0, 0x02, 0xfa, 0xf0, 0x84, 0x22,
    ],
    [
        0xff, 0xff, 0xff, 0xff, 0xff, 0xff, 0x00, 0x07, 0x0d, 0xaf, 0xf4, 0x54, 0x08, 0x06, 0x00,
        0x01, 0x08, 0x00, 0x06, 0x04, 0x00, 0x01, 0x00, 0x07, 0x0d, 0xaf, 0xf4, 0x54, 0x18, 0xa6,
        0xac, 0x01, 0x00, 0x00, 0x00, 0x00, 0x00, 0x00, 0x18, 0xa6, 0xad, 0x9f, 0x00, 0x00, 0x00,
        0x00, 0x00, 0x00, 0x00, 0x00, 0x00, 0x00, 0x00, 0x00, 0x00, 0x00, 0x00, 0x00, 0x00, 0x00,
    ],
    [
        0x00, 0x00, 0x00, 0x00, 0x00, 0x02, 0x00, 0x00, 0x00, 0x00, 0x00, 0x01, 0x00, 0x34, 0xaa,
        0xaa, 0x03, 0x00, 0x00, 0x00, 0x08, 0x00, 0x45, 0x00, 0x00, 0x2c, 0x00, 0x5a, 0x00, 0x00,
        0x40, 0x01, 0x66, 0x75, 0x0a, 0x00, 0x00, 0x01, 0x0a, 0x00, 0x00, 0x02, 0x08, 0x00, 0x8a,
        0xb2, 0x2a, 0x01, 0x00, 0x01, 0x61, 0x62, 0x63, 0x64, 0x65, 0x66, 0x67, 0x68, 0x69, 0x6a,
    ],
];

#[derive(Clone, Copy, Default)]
struct Header {
    in_port: u16,
    dl_src: u64,
    dl_dst: u64,
    dl_vlan: u16,
    dl_vlan_pcp: u8,
    dl_type: u16,
    nw_tos: u8,
    nw_proto: u8,
    nw_src: u32,
    nw_dst: u32,
    tp_src: u16,
    tp_dst: u16,
}

struct Rewrite {
    dl_src: Option<u64>,
    dl_dst: Option<u64>,
    nw_src: Option<u32>,
    nw_dst: Option<u32>,
    nw_tos: Option<u8>,
    tp_src: Option<u16>,
    tp_dst: Option<u16>,
}

fn u16_at(b: &[u8], at: usize) -> u16 {
    u16::from_be_bytes([b[at], b[at + 1]])
}

fn u32_at(b: &[u8], at: usize) -> u32 {
    u32::from_be_bytes([b[at], b[at + 1], b[at + 2], b[at + 3]])
}

fn u48_at(b: &[u8], at: usize) -> u64 {
    (u64::from(u16_at(b, at)) << 32) | u64::from(u32_at(b, at + 2))
}

/// The VLAN, its priority, the type and where its payload begins, of a frame of 14 bytes or more.
fn link(b: &[u8]) -> (u16, u8, u16, usize) {
    let mut kind = u16_at(b, 12);
    let (mut vlan, mut pcp, mut at) = (65535, 0, 14);
    if kind == 0x8100 {
        if b.len() < 18 {
            return (0, 0, 0, 14);
        }
        let tag = u16_at(b, 14);
        vlan = tag & 0xfff;
        pcp = (tag >> 13) as u8;
        kind = u16_at(b, 16);
        at = 18;
    }
    if kind < 0x0600 {
        if b.len() >= at + 6 && b[at..at + 6] == [0xaa, 0xaa, 3, 0, 0, 0] {
            if b.len() < at + 8 {
                return (vlan, pcp, 0, at + 6);
            }
            kind = u16_at(b, at + 6);
            at += 8;
        } else {
            kind = 0x05ff;
        }
    }
    (vlan, pcp, kind, at)
}

/// Where a packet of IPv4 ends its header, if that is whole.
fn ipv4(b: &[u8], at: usize) -> Option<usize> {
    if b.len() < at + 20 {
        return None;
    }
    let length = 4 * usize::from(b[at] & 15);
    (length >= 20 && at + length <= b.len()).then_some(at + length)
}

fn header_of(b: &[u8], in_port: u16) -> Header {
    let mut h = Header { in_port, dl_vlan: 65535, ..Header::default() };
    if b.len() < 14 {
        return h;
    }
    h.dl_dst = u48_at(b, 0);
    h.dl_src = u48_at(b, 6);
    let (vlan, pcp, kind, at) = link(b);
    h.dl_vlan = vlan;
    h.dl_vlan_pcp = pcp;
    h.dl_type = kind;
    match kind {
        0x0800 => {
            let Some(end) = ipv4(b, at) else { return h };
            h.nw_tos = b[at + 1] & 0xfc;
            h.nw_proto = b[at + 9];
            h.nw_src = u32_at(b, at + 12);
            h.nw_dst = u32_at(b, at + 16);
            if u16_at(b, at + 6) & 0x3fff == 0 {
                match h.nw_proto {
                    6 | 17 if b.len() >= end + 4 => {
                        h.tp_src = u16_at(b, end);
                        h.tp_dst = u16_at(b, end + 2);
                    }
                    1 if b.len() >= end + 2 => {
                        h.tp_src = u16::from(b[end]);
                        h.tp_dst = u16::from(b[end + 1]);
                    }
                    _ => {}
                }
            }
        }
        0x0806 if b.len() >= at + 28 => {
            h.nw_proto = b[at + 7];
            h.nw_src = u32_at(b, at + 14);
            h.nw_dst = u32_at(b, at + 24);
        }
        _ => {}
    }
    h
}

fn put_u48(b: &mut [u8], at: usize, v: u64) {
    b[at..at + 6].copy_from_slice(&v.to_be_bytes()[2..]);
}

/// Puts a word, and gives what it adds to a checksum.
fn put_u16(b: &mut [u8], at: usize, v: u16) -> u32 {
    let old = u16_at(b, at);
    b[at..at + 2].copy_from_slice(&v.to_be_bytes());
    if old == v { 0 } else { u32::from(!old) + u32::from(v) }
}

fn put_u32(b: &mut [u8], at: usize, v: u32) -> u32 {
    put_u16(b, at, (v >> 16) as u16) + put_u16(b, at + 2, v as u16)
}

fn mended(c: u16, changes: u32) -> u16 {
    let s = u32::from(!c) + changes;
    let s = (s & 0xffff) + (s >> 16);
    !((s & 0xffff) + (s >> 16)) as u16
}

fn rewrite(bytes: &[u8], r: &Rewrite) -> Vec<u8> {
    let mut frame = bytes.to_vec();
    let b = frame.as_mut_slice();
    if b.len() < 14 {
        return frame;
    }
    let (_, _, kind, at) = link(b);
    if let Some(v) = r.dl_dst {
        put_u48(b, 0, v);
    }
    if let Some(v) = r.dl_src {
        put_u48(b, 6, v);
    }
    if kind != 0x0800 {
        return frame;
    }
    let Some(end) = ipv4(b, at) else { return frame };
    let proto = b[at + 9];
    let fragment = u16_at(b, at + 6);
    let tos = r.nw_tos.map_or(0, |v| {
        let word = u16::from_be_bytes([b[at], v | (b[at + 1] & 3)]);
        put_u16(b, at, word)
    });
    let mut addresses = 0;
    if let Some(v) = r.nw_src {
        addresses += put_u32(b, at + 12, v);
    }
    if let Some(v) = r.nw_dst {
        addresses += put_u32(b, at + 16, v);
    }
    let sum = mended(u16_at(b, at + 10), tos + addresses);
    put_u16(b, at + 10, sum);
    if proto != 6 && proto != 17 {
        return frame;
    }
    let mut changes = addresses;
    if fragment & 0x3fff == 0 && b.len() >= end + 4 {
        if let Some(v) = r.tp_src {
            changes += put_u16(b, end, v);
        }
        if let Some(v) = r.tp_dst {
            changes += put_u16(b, end + 2, v);
        }
    }
    let place = end + if proto == 6 { 16 } else { 6 };
    if fragment & 0x1fff == 0 && b.len() >= place + 2 {
        let old = u16_at(b, place);
        let new = match (proto, old, mended(old, changes)) {
            (17, 0, _) => 0,
            (17, _, 0) => 0xffff,
            (_, _, new) => new,
        };
        put_u16(b, place, new);
    }
    frame
}

fn sum_of(h: &Header) -> u64 {
    u64::from(h.in_port)
        .wrapping_add(h.dl_src)
        .wrapping_add(h.dl_dst)
        .wrapping_add(u64::from(h.dl_vlan))
        .wrapping_add(u64::from(h.dl_vlan_pcp))
        .wrapping_add(u64::from(h.dl_type))
        .wrapping_add(u64::from(h.nw_tos))
        .wrapping_add(u64::from(h.nw_proto))
        .wrapping_add(u64::from(h.nw_src))
        .wrapping_add(u64::from(h.nw_dst))
        .wrapping_add(u64::from(h.tp_src))
        .wrapping_add(u64::from(h.tp_dst))
}

fn main() {
    let words: Vec<String> = std::env::args().collect();
    let times: u32 = words[2].parse().unwrap();
    let mut frames = FRAMES;
    let r = Rewrite {
        dl_src: Some(0x0a00_0000_00bb),
        dl_dst: Some(0x0a00_0000_00aa),
        nw_src: Some(0x0a01_0203),
        nw_dst: Some(0xcb00_7105),
        nw_tos: Some(0xb8),
        tp_src: Some(40000),
        tp_dst: Some(8080),
    };
    let mut sum: u64 = 0;
    for turn in 0..times {
        for frame in frames.iter_mut() {
            frame[29] = turn as u8;
            if words[1] == "read" {
                sum = sum.wrapping_add(sum_of(&header_of(frame, 1)));
            } else {
                let written = rewrite(frame, &r);
                sum = sum.wrapping_add(u64::from(written[25]) * 256 + u64::from(written[41]));
            }
        }
    }
    println!("{} times={times} sum={sum}", words[1]);
}
