//! For `bench/serve_run`, in plain Rust: a load of controllers and switches over loopback, and a bare relay that stands
//! between such in the place of the proxy.
//!
//!     serve_plain load MODE ADDRESS SWITCHES COUNT WINDOW SECONDS PORT..
//!     serve_plain relay ADDRESS SWITCHES PORT..
//!
//! Switches connect to ADDRESS; a controller listens at each PORT of loopback. MODE is `echo`, where a controller sends
//! ECHO_REQUESTs, or `add`, where it sends ADDs, each with a BARRIER_REQUEST. Each sends COUNT of them, and has at most
//! WINDOW that aren't answered; after so many seconds it ends, and what was answered by then counts. With `beside` the
//! first one sends an ECHO_REQUEST each 5 ms, and alone counts; the others send ADDs. With `idle` all say nothing, and
//! `up` is written once all are up.
//!
//! The relay answers ECHO_REQUESTs itself, as the proxy does. Each other frame it passes to the controller's switch
//! under an xid of its own, and the answer to a BARRIER_REQUEST back under the controller's.
use std::collections::{HashMap, VecDeque};
use std::env;
use std::io::{self, BufReader, ErrorKind, Read, Write};
use std::net::{TcpListener, TcpStream};
use std::process::exit;
use std::sync::atomic::{AtomicU32, Ordering};
use std::sync::{Arc, Barrier, Mutex};
use std::thread;
use std::time::{Duration, Instant};

// ---- messages

const HELLO: u8 = 0;
const ERROR: u8 = 1;
const ECHO_REQUEST: u8 = 2;
const ECHO_REPLY: u8 = 3;
const FEATURES_REQUEST: u8 = 5;
const FEATURES_REPLY: u8 = 6;
const FLOW_REMOVED: u8 = 11;
const FLOW_MOD: u8 = 14;
const BARRIER_REQUEST: u8 = 18;
const BARRIER_REPLY: u8 = 19;

const NO_BUFFER: [u8; 4] = [0xff; 4];
const NO_PORT: [u8; 2] = [0xff; 2];
const SEND_FLOW_REMOVED: u16 = 1;
/// How many entries a controller adds, turn by turn.
const ENTRIES: u32 = 8;
/// How often the one asks whom others load.
const PACE: Duration = Duration::from_millis(5);
/// How long a proxy may take until it listens.
const PATIENCE: Duration = Duration::from_secs(20);

fn message(kind: u8, xid: u32, body: &[u8]) -> Vec<u8> {
    let mut bytes = vec![1, kind];
    bytes.extend(((8 + body.len()) as u16).to_be_bytes());
    bytes.extend(xid.to_be_bytes());
    bytes.extend(body);
    bytes
}

/// An ADD of an entry for one address, whose port changes from turn to turn, so that each ADD changes the table.
fn add(controller: u32, xid: u32) -> Vec<u8> {
    let address = 0x0a00_0000 + controller * 256 + xid % ENTRIES;
    let port = 1 + (xid / ENTRIES % 2) as u16;
    let mut body = 0x0030_20ef_u32.to_be_bytes().to_vec();
    // in_port, dl_src, dl_dst, dl_vlan, dl_vlan_pcp, pad; then dl_type
    body.extend([0; 18]);
    body.extend(0x0800_u16.to_be_bytes());
    // nw_tos, nw_proto, pad, nw_src
    body.extend([0; 8]);
    body.extend(address.to_be_bytes());
    // tp_src, tp_dst, cookie, ADD, both timeouts
    body.extend([0; 4 + 8 + 2 + 4]);
    body.extend(100_u16.to_be_bytes());
    body.extend(NO_BUFFER);
    body.extend(NO_PORT);
    body.extend([0, 0, 0, 0, 0, 8]);
    body.extend(port.to_be_bytes());
    body.extend([0, 0]);
    message(FLOW_MOD, xid, &body)
}

fn features(dpid: u64) -> Vec<u8> {
    let mut body = dpid.to_be_bytes().to_vec();
    // no buffers, one table, pad; it matches ARP addresses; actions
    body.extend([0, 0, 0, 0, 1, 0, 0, 0]);
    body.extend([0, 0, 0, 0x80, 0, 0, 0, 1]);
    message(FEATURES_REPLY, 0, &body)
}

fn kind(frame: &[u8]) -> u8 {
    frame[1]
}

fn number(frame: &[u8], at: usize) -> u16 {
    u16::from_be_bytes([frame[at], frame[at + 1]])
}

fn xid(frame: &[u8]) -> u32 {
    u32::from_be_bytes([frame[4], frame[5], frame[6], frame[7]])
}

fn frame<R: Read>(source: &mut R) -> io::Result<Vec<u8>> {
    let mut bytes = vec![0; 8];
    source.read_exact(&mut bytes)?;
    let length = number(&bytes, 2) as usize;
    if length < 8 {
        return Err(io::Error::other("a length of less than 8"));
    }
    bytes.resize(length, 0);
    source.read_exact(&mut bytes[8..])?;
    Ok(bytes)
}

fn both(stream: TcpStream) -> io::Result<(BufReader<TcpStream>, TcpStream)> {
    stream.set_nodelay(true)?;
    Ok((BufReader::with_capacity(65536, stream.try_clone()?), stream))
}

fn connected(address: &str) -> io::Result<TcpStream> {
    let begun = Instant::now();
    loop {
        match TcpStream::connect(address) {
            Err(_) if begun.elapsed() < PATIENCE => thread::sleep(Duration::from_millis(20)),
            result => return result,
        }
    }
}

// ---- switches

/// The entries of a switch: their match and priority, with cookie and flags.
type Entries = HashMap<(Vec<u8>, u16), (Vec<u8>, u16)>;

fn removed(key: &(Vec<u8>, u16), entry: &(Vec<u8>, u16)) -> Vec<u8> {
    let mut body = key.0.clone();
    body.extend(&entry.0);
    body.extend(key.1.to_be_bytes());
    // reason DELETE, pad, duration, idle_timeout, pad, both counts
    body.extend([2, 0]);
    body.extend([0; 28]);
    message(FLOW_REMOVED, 0, &body)
}

/// Does a FLOW_MOD of the proxy: ADD, DELETE_STRICT, or DELETE, which it only sends of everything.
fn change(entries: &mut Entries, frame: &[u8], out: &mut Vec<u8>) {
    let key = (frame[8..48].to_vec(), number(frame, 62));
    let mut gone = Vec::new();
    match number(frame, 56) {
        0 => {
            entries.insert(key, (frame[48..56].to_vec(), number(frame, 70)));
        }
        4 => gone.extend(entries.remove(&key).map(|entry| (key, entry))),
        _ => gone.extend(entries.drain()),
    }
    for (key, entry) in &gone {
        if entry.1 & SEND_FLOW_REMOVED != 0 {
            out.extend(removed(key, entry));
        }
    }
}

fn switch(address: &str, dpid: u64, ready: &Barrier) -> io::Result<()> {
    let (mut source, mut sink) = both(connected(address)?)?;
    sink.write_all(&message(HELLO, 0, &[]))?;
    let mut entries = Entries::new();
    let mut is_ready = false;
    let mut out = Vec::new();
    loop {
        let frame = frame(&mut source)?;
        match kind(&frame) {
            FEATURES_REQUEST => out.extend(features(dpid)),
            ECHO_REQUEST => out.extend(message(ECHO_REPLY, xid(&frame), &frame[8..])),
            BARRIER_REQUEST => out.extend(message(BARRIER_REPLY, xid(&frame), &[])),
            FLOW_MOD => change(&mut entries, &frame, &mut out),
            _ => {}
        }
        if !out.is_empty() && source.buffer().is_empty() {
            sink.write_all(&out)?;
            out.clear();
            if !is_ready && kind(&frame) == BARRIER_REQUEST {
                is_ready = true;
                ready.wait();
            }
        }
    }
}

// ---- controllers

#[derive(Clone, Copy)]
struct Load {
    adds: bool,
    pace: Option<Duration>,
    count: u32,
    window: usize,
    longest: Duration,
}

/// What a controller asks: what was sent and isn't answered stands with the kind of its answer, and since when.
struct Asking {
    load: Load,
    number: u32,
    next: u32,
    sent: VecDeque<(u32, u8, Instant)>,
}

impl Asking {
    /// A request, and the kind of its answer.
    fn request(&self) -> (Vec<u8>, u8) {
        if self.load.adds {
            let mut bytes = add(self.number, self.next);
            bytes.extend(message(BARRIER_REQUEST, self.next, &[]));
            (bytes, BARRIER_REPLY)
        } else {
            (message(ECHO_REQUEST, self.next, &self.next.to_be_bytes()), ECHO_REPLY)
        }
    }

    /// As many further requests as may be sent.
    fn further(&mut self) -> Vec<u8> {
        let mut out = Vec::new();
        while self.next <= self.load.count && self.sent.len() < self.load.window {
            let (bytes, answer) = self.request();
            out.extend(bytes);
            self.sent.push_back((self.next, answer, Instant::now()));
            self.next += 1;
        }
        out
    }

    /// How long the first request took, if this is its answer. None of what isn't one.
    fn answered(&mut self, frame: &[u8]) -> io::Result<Option<Duration>> {
        if !matches!(kind(frame), ERROR | ECHO_REPLY | BARRIER_REPLY) {
            return Ok(None);
        }
        match self.sent.pop_front() {
            Some((next, wanted, since)) if is_answer(frame, wanted, next) => Ok(Some(since.elapsed())),
            first => Err(io::Error::other(format!("controller {} is told {frame:02x?} for {first:?}", self.number))),
        }
    }
}

fn is_answer(frame: &[u8], wanted: u8, next: u32) -> bool {
    kind(frame) == wanted && xid(frame) == next && (wanted == BARRIER_REPLY || frame[8..] == next.to_be_bytes())
}

/// What was answered: how long each request took, and when the last answer came.
#[derive(Default)]
struct Answered {
    spent: Vec<Duration>,
    last: Duration,
}

fn is_late(fault: &io::Error) -> bool {
    matches!(fault.kind(), ErrorKind::WouldBlock | ErrorKind::TimedOut)
}

/// The connection that the proxy makes, once both have greeted.
fn called(listener: &TcpListener) -> io::Result<(BufReader<TcpStream>, TcpStream)> {
    let (mut source, mut sink) = both(listener.accept()?.0)?;
    sink.write_all(&message(HELLO, 0, &[]))?;
    while kind(&frame(&mut source)?) != HELLO {}
    Ok((source, sink))
}

fn controller(listener: &TcpListener, number: u32, load: Load, ready: &Barrier) -> io::Result<Answered> {
    let (mut source, mut sink) = called(listener)?;
    sink.set_read_timeout(Some(load.longest))?;
    ready.wait();
    let begun = Instant::now();
    let mut asking = Asking { load, number, next: 1, sent: VecDeque::new() };
    let mut answered = Answered::default();
    while begun.elapsed() < load.longest {
        if let Some(pace) = load.pace {
            thread::sleep(pace);
        }
        sink.write_all(&asking.further())?;
        if asking.sent.is_empty() && load.count > 0 {
            break;
        }
        let frame = match frame(&mut source) {
            Err(fault) if is_late(&fault) => break,
            frame => frame?,
        };
        if kind(&frame) == ECHO_REQUEST {
            sink.write_all(&message(ECHO_REPLY, xid(&frame), &frame[8..]))?;
        } else if let Some(spent) = asking.answered(&frame)? {
            answered.spent.push(spent);
            answered.last = begun.elapsed();
        }
    }
    Ok(answered)
}

fn load(words: &[String]) -> io::Result<()> {
    let [mode, address, switches, count, window, seconds, ports @ ..] = words else {
        return Err(io::Error::other("load MODE ADDRESS SWITCHES COUNT WINDOW SECONDS PORT.."));
    };
    let whole = |text: &str| text.parse::<u32>().map_err(io::Error::other);
    let load = Load {
        adds: mode == "add" || mode == "beside",
        pace: None,
        count: match mode.as_str() {
            "idle" => 0,
            "beside" => u32::MAX - 1,
            _ => whole(count)?,
        },
        window: whole(window)? as usize,
        longest: Duration::from_secs(whole(seconds)?.into()),
    };
    let switches = whole(switches)?;
    let ready = Arc::new(Barrier::new(ports.len() + switches as usize + 1));
    let mut listeners = Vec::new();
    for port in ports {
        listeners.push(TcpListener::bind(format!("127.0.0.1:{port}"))?);
    }
    println!("listening");
    for number in 0..switches {
        let (address, ready) = (address.clone(), ready.clone());
        thread::spawn(move || end_of(&format!("switch {number}"), switch(&address, number as u64 + 1, &ready)));
    }
    let mut threads = Vec::new();
    let is_beside = mode == "beside";
    let one = Load { adds: false, pace: Some(PACE), window: 1, ..load };
    for (number, listener) in listeners.into_iter().enumerate() {
        let (ready, load) = (ready.clone(), if is_beside && number == 0 { one } else { load });
        threads.push(thread::spawn(move || controller(&listener, number as u32, load, &ready)));
    }
    ready.wait();
    if mode == "idle" {
        println!("up");
        thread::sleep(load.longest);
    }
    let mut all = Answered::default();
    for (number, thread) in threads.into_iter().enumerate() {
        let answered = thread.join().map_err(|_| io::Error::other("a controller panicked"))??;
        if !is_beside || number == 0 {
            all.spent.extend(answered.spent);
            all.last = all.last.max(answered.last);
        }
    }
    tell(all);
    Ok(())
}

fn tell(mut all: Answered) {
    all.spent.sort();
    let count = all.spent.len();
    let at = |hundredth: usize| all.spent.get(count * hundredth / 100).map_or(0, |time| time.as_micros());
    let longest = all.spent.last().map_or(0, |time| time.as_micros());
    let total = all.last.as_micros();
    println!("answered={count} microseconds={total} p50={} p99={} longest={longest}", at(50), at(99));
}

fn end_of(name: &str, result: io::Result<()>) {
    if let Err(fault) = result {
        eprintln!("{name}: {fault}");
    }
}

// ---- the relay

/// Who asked: the controller, and the xid of its request.
type Asked = Mutex<HashMap<u32, (usize, u32)>>;

struct Relay {
    controllers: Vec<Mutex<TcpStream>>,
    switches: Vec<Mutex<TcpStream>>,
    asked: Asked,
    next: AtomicU32,
}

impl Relay {
    fn to_switch(&self, controller: usize, frame: &mut [u8]) -> io::Result<()> {
        let own = self.next.fetch_add(1, Ordering::SeqCst);
        if kind(frame) == BARRIER_REQUEST {
            self.asked.lock().unwrap().insert(own, (controller, xid(frame)));
        }
        frame[4..8].copy_from_slice(&own.to_be_bytes());
        let place = controller / 2 % self.switches.len();
        self.switches[place].lock().unwrap().write_all(frame)
    }

    fn hear_controller(&self, number: usize, mut source: BufReader<TcpStream>) -> io::Result<()> {
        loop {
            let mut frame = frame(&mut source)?;
            match kind(&frame) {
                HELLO => {}
                ECHO_REQUEST => {
                    frame[1] = ECHO_REPLY;
                    self.controllers[number].lock().unwrap().write_all(&frame)?;
                }
                _ => self.to_switch(number, &mut frame)?,
            }
        }
    }

    fn hear_switch(&self, mut source: BufReader<TcpStream>) -> io::Result<()> {
        loop {
            let mut frame = frame(&mut source)?;
            if kind(&frame) != BARRIER_REPLY {
                continue;
            }
            let asked = self.asked.lock().unwrap().remove(&xid(&frame));
            if let Some((controller, xid)) = asked {
                frame[4..8].copy_from_slice(&xid.to_be_bytes());
                self.controllers[controller].lock().unwrap().write_all(&frame)?;
            }
        }
    }
}

/// A switch that connected, by its datapath id.
fn greeted(listener: &TcpListener) -> io::Result<(u64, BufReader<TcpStream>, TcpStream)> {
    let (mut source, mut sink) = both(listener.accept()?.0)?;
    sink.write_all(&message(HELLO, 0, &[]))?;
    sink.write_all(&message(FEATURES_REQUEST, 0, &[]))?;
    loop {
        let frame = frame(&mut source)?;
        if kind(&frame) == FEATURES_REPLY {
            let dpid = u64::from_be_bytes(frame[8..16].try_into().map_err(io::Error::other)?);
            sink.write_all(&message(BARRIER_REQUEST, 0, &[]))?;
            return Ok((dpid, source, sink));
        }
    }
}

fn relay(words: &[String]) -> io::Result<()> {
    let [address, switches, ports @ ..] = words else {
        return Err(io::Error::other("relay ADDRESS SWITCHES PORT.."));
    };
    let listener = TcpListener::bind(address)?;
    let count = switches.parse::<usize>().map_err(io::Error::other)?;
    let mut found = Vec::new();
    for _ in 0..count {
        found.push(greeted(&listener)?);
    }
    found.sort_by_key(|(dpid, _, _)| *dpid);
    let (mut controllers, mut sources) = (Vec::new(), Vec::new());
    for port in ports {
        let (source, mut sink) = both(connected(&format!("127.0.0.1:{port}"))?)?;
        sink.write_all(&message(HELLO, 0, &[]))?;
        sources.push(source);
        controllers.push(Mutex::new(sink));
    }
    let (mut sinks, mut heard) = (Vec::new(), Vec::new());
    for (_, source, sink) in found {
        sinks.push(Mutex::new(sink));
        heard.push(source);
    }
    let relay = Relay { controllers, switches: sinks, asked: Mutex::new(HashMap::new()), next: AtomicU32::new(1) };
    thread::scope(|scope| {
        for source in heard {
            scope.spawn(|| relay.hear_switch(source));
        }
        for (number, source) in sources.into_iter().enumerate() {
            let relay = &relay;
            scope.spawn(move || relay.hear_controller(number, source));
        }
    });
    Ok(())
}

fn main() {
    let words: Vec<String> = env::args().skip(1).collect();
    let result = match words.split_first() {
        Some((verb, rest)) if verb == "load" => load(rest),
        Some((verb, rest)) if verb == "relay" => relay(rest),
        _ => Err(io::Error::other("serve_plain load|relay ..")),
    };
    if let Err(fault) = result {
        eprintln!("serve_plain: {fault}");
        exit(1);
    }
}
