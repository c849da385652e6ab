// The plain program that bench/tunnels.sh compares with: what `masque replay` does with UDP tunnels over HTTP/2, for many
// connections, workers and tunnels, by ordinary Rust. It prints the same lines for the same script, where clients keep to what
// it knows: lines `workers`, `conn`, `bytes`, `dgram`, `step` and `run`; frames SETTINGS, HEADERS, DATA without padding and
// WINDOW_UPDATE, none of which is an error or ends a stream; requests that are granted, whose fields are spelled without the
// Huffman code and the dynamic table. It stops at anything else. It proves nothing and refuses nothing.
#[allow(dead_code)]
#[path = "replay_plain.rs"]
mod replay;

use replay::{Act, Actor, Line, MOST_LINKS, MOST_LIVE, MOST_OWED, MOST_PACKETS, MOST_READ, MOST_WAITING, Reader};
use std::collections::VecDeque;
use std::io::{self, Write};
use std::process::ExitCode;

const PREFACE: &[u8] = b"PRI * HTTP/2.0\r\n\r\nSM\r\n\r\n";
/// MAX_CONCURRENT_STREAMS 100, MAX_HEADER_LIST_SIZE 16,384, ENABLE_CONNECT_PROTOCOL 1.
const SETTINGS: [u8; 27] = [0, 0, 18, 4, 0, 0, 0, 0, 0, 0, 3, 0, 0, 0, 100, 0, 6, 0, 0, 64, 0, 0, 8, 0, 0, 0, 1];
/// `:status` 200 and `capsule-protocol` ?1. A connection's first header block begins with `FIRST`: the dynamic table has no room.
const FIRST: u8 = 0x20;
const SUCCESS: &[u8] = b"\x88\x00\x8b\x20\xeb\x45\xb4\x15\x6a\xec\x3a\x4e\x43\xd1\x02\x3f\x31";
const FIRST_WINDOW: u32 = 65_535;
const MOST_WINDOW: i64 = 0x7fff_ffff;
const MOST_FRAME: usize = 16_384;
const UPDATE_FROM: u32 = 16_384;
const MOST_STREAMS: usize = 100;

fn unknown(what: &str) -> ! {
    eprintln!("this program doesn't know {what}");
    std::process::exit(3)
}

// ---- frames and header blocks

fn put_front(out: &mut Vec<u8>, length: usize, kind: u8, flags: u8, stream: u32) {
    out.extend_from_slice(&(length as u32).to_be_bytes()[1..]);
    out.extend_from_slice(&[kind, flags]);
    out.extend_from_slice(&stream.to_be_bytes());
}

fn number(bytes: &[u8]) -> u32 {
    bytes.iter().fold(0, |value, byte| value << 8 | u32::from(*byte))
}

/// A text of less than 127 bytes, without the Huffman code (RFC 7541, section 5.2).
fn text<'a>(block: &mut &'a [u8]) -> &'a [u8] {
    let Some((&size @ 0..127, rest)) = block.split_first() else { unknown("the spelling of a field") };
    if rest.len() < usize::from(size) {
        unknown("the spelling of a field");
    }
    let (value, behind) = rest.split_at(usize::from(size));
    *block = behind;
    value
}

/// The limit of a payload to the target of a request for a UDP tunnel.
fn limit_of(mut block: &[u8]) -> usize {
    let (mut is_connect, mut is_udp, mut path) = (false, false, None);
    while let Some((&first, rest)) = block.split_first() {
        block = rest;
        match first {
            0x86 | 0x87 => (),
            0 => {
                let name = text(&mut block);
                let value = text(&mut block);
                is_udp |= name == b":protocol" && value == b"connect-udp";
            }
            1 => drop(text(&mut block)),
            2 => is_connect = text(&mut block) == b"CONNECT",
            4 => path = std::str::from_utf8(text(&mut block)).ok(),
            _ => unknown("the spelling of a field"),
        }
    }
    match (is_connect && is_udp, path.map(replay::goal_of)) {
        (true, Some(Ok((addr, _)))) => {
            if addr.is_ipv4() {
                65_507
            } else {
                65_527
            }
        }
        _ => unknown("a request that isn't granted"),
    }
}

// ---- connections

enum Due {
    Bind { stream: u32, limit: usize },
    Act { place: usize, act: Act },
    Spend { place: usize, size: u32 },
}

/// What the other side may still send, and what is consumed and not given back.
struct Receiving {
    room: u32,
    consumed: u32,
}

impl Receiving {
    fn new() -> Receiving {
        Receiving { room: FIRST_WINDOW, consumed: 0 }
    }

    fn take(&mut self, size: u32) {
        match self.room.checked_sub(size) {
            Some(left) => self.room = left,
            None => unknown("DATA past a window"),
        }
    }

    /// What is to be given back, if that is due.
    fn give_back(&mut self) -> Option<u32> {
        if self.consumed < UPDATE_FROM {
            return None;
        }
        self.room += self.consumed;
        Some(std::mem::take(&mut self.consumed))
    }
}

struct Stream {
    id: u32,
    reader: Reader,
    receiving: Receiving,
    /// The send window less the initial one.
    balance: i64,
    tunnel: Option<Tunnel>,
}

struct Tunnel {
    id: u32,
    limit: usize,
    arrived: VecDeque<Vec<u8>>,
    received: u64,
    waiting: VecDeque<(u64, Vec<u8>)>,
    /// How many bytes of the first capsule that waits were framed.
    framed: usize,
}

struct Conn {
    number: u32,
    pieces: VecDeque<Vec<u8>>,
    taken: usize,
    has_preface: bool,
    has_answered: bool,
    /// A part of the preface or of a frame.
    begun: Vec<u8>,
    /// In the order of their ids.
    streams: Vec<Stream>,
    initial: i64,
    window: i64,
    receiving: Receiving,
    due: VecDeque<Due>,
    opening: Option<(u32, usize)>,
    owed: Vec<u8>,
    /// The place at which the search for a tunnel to be framed begins.
    next: usize,
    /// How many bytes the capsules have that wait, and how many they are.
    size: usize,
    waiting: usize,
    /// How many datagrams arrived at ports.
    arrived: usize,
}

/// For each tunnel the worker, the connection and the place of its stream.
type Tunnels = Vec<(usize, u32, usize)>;

impl Conn {
    fn new(number: u32) -> Conn {
        Conn {
            number,
            pieces: VecDeque::new(),
            taken: 0,
            has_preface: false,
            has_answered: false,
            begun: Vec::new(),
            streams: Vec::new(),
            initial: i64::from(FIRST_WINDOW),
            window: i64::from(FIRST_WINDOW),
            receiving: Receiving::new(),
            due: VecDeque::new(),
            opening: None,
            owed: Vec::new(),
            next: 0,
            size: 0,
            waiting: 0,
            arrived: 0,
        }
    }

    fn seat(&self) -> u64 {
        u64::from(self.number) + 2
    }

    fn is_due(&self) -> bool {
        self.opening.is_some() || !self.due.is_empty()
    }

    fn can_go_on(&self) -> bool {
        !self.is_due() && self.owed.len() <= MOST_OWED
    }

    fn is_ready(&self) -> bool {
        self.is_due()
            || !self.owed.is_empty()
            || self.arrived > 0
            || self.can_go_on() && (!self.pieces.is_empty() || self.next_framed().is_some())
    }

    fn place_of(&self, stream: u32) -> usize {
        match self.streams.binary_search_by_key(&stream, |one| one.id) {
            Ok(place) => place,
            Err(_) => unknown("a frame of a stream that isn't live"),
        }
    }

    // ---- what comes

    fn on_settings(&mut self, flags: u8, contents: &[u8]) {
        if flags & 1 != 0 {
            return;
        }
        for setting in contents.chunks_exact(6) {
            if number(&setting[..2]) == 4 {
                self.initial = i64::from(number(&setting[2..]));
            }
        }
        put_front(&mut self.owed, 0, 4, 1, 0);
    }

    fn on_headers(&mut self, flags: u8, stream: u32, contents: &[u8]) {
        let is_next = self.streams.last().is_none_or(|last| last.id < stream);
        if flags != 4 || stream.is_multiple_of(2) || !is_next || self.streams.len() >= MOST_STREAMS {
            unknown("this kind of request");
        }
        let limit = limit_of(contents);
        let (reader, receiving) = (Reader::new(), Receiving::new());
        self.streams.push(Stream { id: stream, reader, receiving, balance: 0, tunnel: None });
        self.due.push_back(Due::Bind { stream, limit });
    }

    fn on_data(&mut self, flags: u8, stream: u32, contents: &[u8], acts: &mut VecDeque<Act>) {
        if flags != 0 {
            unknown("DATA with padding or an end");
        }
        let (place, size) = (self.place_of(stream), contents.len() as u32);
        self.receiving.take(size);
        self.streams[place].receiving.take(size);
        self.streams[place].reader.feed(contents, acts);
        self.due.extend(acts.drain(..).map(|act| Due::Act { place, act }));
        self.due.push_back(Due::Spend { place, size });
    }

    fn on_window_update(&mut self, stream: u32, contents: &[u8]) {
        let grow = i64::from(number(contents) & 0x7fff_ffff);
        let (window, initial) = if stream == 0 {
            (&mut self.window, 0)
        } else {
            let place = self.place_of(stream);
            (&mut self.streams[place].balance, self.initial)
        };
        *window += grow;
        if grow == 0 || *window + initial > MOST_WINDOW {
            unknown("such a WINDOW_UPDATE");
        }
    }

    /// Does what the whole frames ask for, and answers how many bytes they have.
    fn frames(&mut self, bytes: &[u8], acts: &mut VecDeque<Act>) -> usize {
        let mut at = 0;
        while let Some(front) = bytes.get(at..at + 9) {
            let end = at + 9 + number(&front[..3]) as usize;
            let (kind, flags, stream) = (front[3], front[4], number(&front[5..]));
            let Some(contents) = bytes.get(at + 9..end) else { break };
            match kind {
                0 => self.on_data(flags, stream, contents, acts),
                1 => self.on_headers(flags, stream, contents),
                4 => self.on_settings(flags, contents),
                8 => self.on_window_update(stream, contents),
                _ => unknown("this kind of frame"),
            }
            at = end;
        }
        at
    }

    fn feed(&mut self, bytes: &[u8], acts: &mut VecDeque<Act>) {
        if self.has_preface && self.begun.is_empty() {
            let used = self.frames(bytes, acts);
            self.begun.extend_from_slice(&bytes[used..]);
            return;
        }
        let mut begun = std::mem::take(&mut self.begun);
        begun.extend_from_slice(bytes);
        let mut used = 0;
        if !self.has_preface && begun.len() >= PREFACE.len() {
            if !begun.starts_with(PREFACE) {
                unknown("HTTP/1.1");
            }
            self.has_preface = true;
            self.owed.extend_from_slice(&SETTINGS);
            used = PREFACE.len();
        }
        if self.has_preface {
            used += self.frames(&begun[used..], acts);
        }
        begun.drain(..used);
        self.begun = begun;
    }

    // ---- acts

    /// The end of an act: what is consumed in front of what is due, and the next WINDOW_UPDATE, where nothing is owed.
    fn settle(&mut self) {
        while let (None, Some(Due::Spend { place, size })) = (&self.opening, self.due.front()) {
            self.receiving.consumed += size;
            self.streams[*place].receiving.consumed += size;
            self.due.pop_front();
        }
        if !self.owed.is_empty() {
            return;
        }
        let update = self.receiving.give_back().map(|amount| (0, amount)).or_else(|| {
            self.streams.iter_mut().find_map(|one| one.receiving.give_back().map(|amount| (one.id, amount)))
        });
        if let Some((stream, amount)) = update {
            put_front(&mut self.owed, 4, 8, 0, stream);
            self.owed.extend_from_slice(&amount.to_be_bytes());
        }
    }

    fn open(&mut self, stream: u32, limit: usize, worker: usize, tunnels: &mut Tunnels, out: &mut impl Write) -> io::Result<()> {
        let (id, place) = (tunnels.len() as u32, self.place_of(stream));
        tunnels.push((worker, self.number, place));
        let (arrived, waiting) = (VecDeque::new(), VecDeque::new());
        self.streams[place].tunnel = Some(Tunnel { id, limit, arrived, received: 0, waiting, framed: 0 });
        let is_first = !std::mem::replace(&mut self.has_answered, true);
        put_front(&mut self.owed, SUCCESS.len() + usize::from(is_first), 1, 4, stream);
        if is_first {
            self.owed.push(FIRST);
        }
        self.owed.extend_from_slice(SUCCESS);
        writeln!(out, "opened {id} {} {stream} udp", self.number)
    }

    /// What is due first.
    fn act(&mut self, worker: usize, tunnels: &mut Tunnels, out: &mut impl Write) -> io::Result<()> {
        if let Some((stream, limit)) = self.opening.take() {
            return self.open(stream, limit, worker, tunnels, out);
        }
        let (place, act) = match self.due.pop_front() {
            Some(Due::Bind { stream, limit }) => {
                self.opening = Some((stream, limit));
                return writeln!(out, "ported {} {stream}", self.number);
            }
            Some(Due::Act { place, act }) => (place, act),
            _ => unreachable!(),
        };
        let Some(tunnel) = &self.streams[place].tunnel else { unknown("this turn of acts") };
        match act {
            Act::Send(n, payload) if payload.len() > tunnel.limit => writeln!(out, "dropped {} {n} TooLong", tunnel.id),
            Act::Send(n, payload) => {
                write!(out, "sent {} {n} ", tunnel.id)?;
                replay::put_hex(out, &payload)
            }
            Act::Drop(n) => writeln!(out, "dropped {} {n} UnknownContext", tunnel.id),
            _ => unknown("a malformed capsule"),
        }
    }

    /// How many bytes of what waits first on this stream can be framed now.
    fn room(&self, place: usize) -> usize {
        let stream = &self.streams[place];
        let Some(tunnel) = &stream.tunnel else { return 0 };
        let Some((_, payload)) = tunnel.waiting.front() else { return 0 };
        let window = self.window.min(stream.balance + self.initial).max(0) as usize;
        (replay::capsule_size(payload.len()) - tunnel.framed).min(MOST_FRAME).min(window)
    }

    /// The place of the stream whose turn it is to be framed.
    fn next_framed(&self) -> Option<usize> {
        if self.waiting == 0 || self.window <= 0 {
            return None;
        }
        let places = self.next..self.streams.len();
        places.chain(0..self.next.min(self.streams.len())).find(|place| self.room(*place) > 0)
    }

    fn frame(&mut self, place: usize, out: &mut impl Write) -> io::Result<()> {
        let count = self.room(place);
        self.next = place + 1;
        self.window -= count as i64;
        let stream = &mut self.streams[place];
        stream.balance -= count as i64;
        let Some(tunnel) = &mut stream.tunnel else { return Ok(()) };
        let Some((n, payload)) = tunnel.waiting.front() else { return Ok(()) };
        put_front(&mut self.owed, count, 0, 0, stream.id);
        let mut header = Vec::with_capacity(8);
        header.push(0);
        replay::put_varint(&mut header, payload.len() as u64 + 1);
        header.push(0);
        let (begin, end) = (tunnel.framed, tunnel.framed + count);
        let cut = header.len();
        self.owed.extend_from_slice(&header[begin.min(cut)..end.min(cut)]);
        self.owed.extend_from_slice(&payload[begin.max(cut) - cut..end.max(cut) - cut]);
        if end < cut + payload.len() {
            tunnel.framed = end;
            return writeln!(out, "part {} {count}", tunnel.id);
        }
        write!(out, "delivered port{} {n} to {} ", tunnel.id, tunnel.id)?;
        replay::put_hex(out, payload)?;
        self.size -= cut + payload.len();
        self.waiting -= 1;
        tunnel.waiting.pop_front();
        tunnel.framed = 0;
        Ok(())
    }

    fn write(&mut self, out: &mut impl Write) -> io::Result<()> {
        write!(out, "wrote {} ", self.number)?;
        replay::put_hex(out, &self.owed)?;
        self.owed.clear();
        Ok(())
    }

    fn read(&mut self, acts: &mut VecDeque<Act>, out: &mut impl Write) -> io::Result<()> {
        let Some(piece) = self.pieces.pop_front() else { return Ok(()) };
        let count = (piece.len() - self.taken).min(MOST_READ);
        self.feed(&piece[self.taken..self.taken + count], acts);
        self.taken += count;
        if self.taken < piece.len() {
            self.pieces.push_front(piece);
        } else {
            self.taken = 0;
        }
        writeln!(out, "took {} {count}", self.number)
    }

    fn receive(&mut self, out: &mut impl Write) -> io::Result<()> {
        let mut tunnels = self.streams.iter_mut().filter_map(|one| one.tunnel.as_mut());
        let Some(tunnel) = tunnels.find(|tunnel| !tunnel.arrived.is_empty()) else { return Ok(()) };
        let Some(payload) = tunnel.arrived.pop_front() else { return Ok(()) };
        let (id, n, size) = (tunnel.id, tunnel.received, replay::capsule_size(payload.len()));
        tunnel.received += 1;
        self.arrived -= 1;
        if tunnel.waiting.len() < MOST_PACKETS && self.size + size <= MOST_WAITING {
            self.size += size;
            self.waiting += 1;
            tunnel.waiting.push_back((n, payload));
            writeln!(out, "queued port{id} {n} to {id}")
        } else {
            writeln!(out, "dropped port{id} {n} QueueFull")
        }
    }

    /// Does the first thing that can be done. False where there is none.
    fn step(&mut self, worker: usize, shared: &mut Shared, out: &mut impl Write) -> io::Result<bool> {
        if self.is_due() {
            self.act(worker, &mut shared.tunnels, out)?;
        } else if let Some(place) = if self.can_go_on() { self.next_framed() } else { None } {
            self.frame(place, out)?;
        } else if !self.owed.is_empty() {
            self.write(out)?;
        } else if !self.pieces.is_empty() {
            self.read(&mut shared.acts, out)?;
        } else if self.arrived > 0 {
            self.receive(out)?;
        } else {
            return Ok(false);
        }
        self.settle();
        Ok(true)
    }
}

// ---- workers

/// What all workers share: the tunnels, and room for what a frame asks for.
#[derive(Default)]
struct Shared {
    tunnels: Tunnels,
    acts: VecDeque<Act>,
}

/// Links and connections are in the order of their numbers.
#[derive(Default)]
struct Worker {
    offered: VecDeque<Conn>,
    live: Vec<Conn>,
    next_seat: u64,
}

impl Worker {
    fn find(&mut self, number: u32) -> Option<&mut Conn> {
        if let Ok(place) = self.live.binary_search_by_key(&number, |conn| conn.number) {
            return Some(&mut self.live[place]);
        }
        let place = self.offered.binary_search_by_key(&number, |conn| conn.number).ok()?;
        Some(&mut self.offered[place])
    }

    fn can_accept(&self) -> bool {
        self.live.len() < MOST_LIVE && !self.offered.is_empty()
    }

    fn is_ready(&self) -> bool {
        self.can_accept() || self.live.iter().any(Conn::is_ready)
    }

    fn accept(&mut self, id: usize, out: &mut impl Write) -> io::Result<bool> {
        if !self.can_accept() {
            return Ok(false);
        }
        let Some(conn) = self.offered.pop_front() else { return Ok(false) };
        writeln!(out, "accepted {} {id}", conn.number)?;
        self.live.push(conn);
        self.next_seat = 1;
        Ok(true)
    }

    fn pass(&mut self, places: std::ops::Range<usize>, id: usize, shared: &mut Shared, out: &mut impl Write) -> io::Result<bool> {
        for conn in &mut self.live[places] {
            if conn.step(id, shared, out)? {
                self.next_seat = conn.seat() + 1;
                return Ok(true);
            }
        }
        Ok(false)
    }

    /// The first seat that can act does, in the ring from the next one on.
    fn step(&mut self, id: usize, shared: &mut Shared, out: &mut impl Write) -> io::Result<bool> {
        if self.next_seat == 0 && self.accept(id, out)? {
            return Ok(true);
        }
        let from = self.live.partition_point(|conn| conn.seat() < self.next_seat);
        if self.pass(from..self.live.len(), id, shared, out)? {
            return Ok(true);
        }
        if self.next_seat > 0 && self.accept(id, out)? {
            return Ok(true);
        }
        self.pass(0..from, id, shared, out)
    }
}

// ---- the world

struct World {
    workers: Vec<Worker>,
    /// For each link its worker.
    links: Vec<usize>,
    shared: Shared,
    has_begun: bool,
}

impl World {
    fn new() -> World {
        World { workers: vec![Worker::default()], links: Vec::new(), shared: Shared::default(), has_begun: false }
    }

    fn offer(&mut self, worker: usize) -> bool {
        if worker >= self.workers.len() || self.links.len() >= MOST_LINKS {
            return false;
        }
        self.workers[worker].offered.push_back(Conn::new(self.links.len() as u32));
        self.links.push(worker);
        true
    }

    fn piece(&mut self, number: u32, bytes: Vec<u8>) -> bool {
        let Some(worker) = self.links.get(number as usize) else { return false };
        if let Some(conn) = self.workers[*worker].find(number) {
            conn.pieces.push_back(bytes);
        }
        true
    }

    fn datagram(&mut self, id: u32, bytes: Vec<u8>) -> bool {
        let Some((worker, number, place)) = self.shared.tunnels.get(id as usize) else { return false };
        if let Some(conn) = self.workers[*worker].find(*number)
            && let Some(tunnel) = &mut conn.streams[*place].tunnel
        {
            tunnel.arrived.push_back(bytes);
            conn.arrived += 1;
        }
        true
    }

    fn steps(&mut self, actor: Actor, count: u32, out: &mut impl Write) -> io::Result<bool> {
        let Actor::Worker(id) = actor else { unknown("steps of the network") };
        let Some(worker) = self.workers.get_mut(id as usize) else { return Ok(false) };
        for _ in 0..count {
            if !worker.step(id as usize, &mut self.shared, out)? {
                writeln!(out, "idle {id}")?;
                break;
            }
        }
        Ok(true)
    }

    fn run(&mut self, count: u32, out: &mut impl Write) -> io::Result<()> {
        let workers = self.workers.len();
        let (mut at, mut left, mut idle) = (0, count, 0);
        while left > 0 {
            if self.workers[at].step(at, &mut self.shared, out)? {
                left -= 1;
                idle = 0;
            } else {
                idle += 1;
                if idle == workers {
                    return Ok(());
                }
            }
            at = (at + 1) % workers;
        }
        if self.workers.iter().any(Worker::is_ready) {
            writeln!(out, "more")?;
        }
        Ok(())
    }

    /// Plays a line. False where it is bad.
    fn play(&mut self, line: &[u8], out: &mut impl Write) -> io::Result<bool> {
        let Some(line) = replay::parse(line) else { return Ok(false) };
        match line {
            Line::Blank => return Ok(true),
            Line::Workers(_) if self.has_begun => return Ok(false),
            Line::Workers(count) => {
                self.workers.resize_with(count as usize, Worker::default);
                return Ok(true);
            }
            _ => self.has_begun = true,
        }
        match line {
            Line::Conn(worker) => Ok(self.offer(worker as usize)),
            Line::Piece(conn, bytes) => Ok(self.piece(conn, bytes)),
            Line::Datagram(id, bytes) => Ok(self.datagram(id, bytes)),
            Line::Steps(actor, count) => self.steps(actor, count, out),
            Line::Run(count) => {
                self.run(count, out)?;
                Ok(true)
            }
            _ => unknown("this line"),
        }
    }
}

fn main() -> io::Result<ExitCode> {
    replay::play_script(World::new(), |world, line, out| world.play(line, out))
}
