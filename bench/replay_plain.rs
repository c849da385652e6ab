// The plain program that bench/replay.sh compares with: what `masque replay` does with UDP tunnels over HTTP/1.1, for many links,
// workers and tunnels, by ordinary Rust. It prints the same lines for the same script, where `workers` is the only setting, and
// where a connection's bytes begin with a head whose lines end in CR and LF. It proves nothing and refuses nothing. Lines of
// scripts, targets and capsules of bench/tunnels_plain.rs are read by it too, and lines of bench/ip_plain.rs.
use std::collections::VecDeque;
use std::io::{self, BufRead, BufReader, BufWriter, Write};
use std::net::IpAddr;
use std::process::ExitCode;

pub const MOST_LINE: usize = 200_000;
pub const MOST_SCRIPT: usize = 1 << 26;
pub const MOST_LINKS: usize = 65_536;
pub const MOST_LIVE: usize = 32;
pub const MOST_ENTRIES: usize = 262_144;
const MOST_HEAD: usize = 8_192;
const MOST_FIELDS: usize = 64;
pub const MOST_READ: usize = 16_384;
pub const MOST_OWED: usize = 65_535;
pub const MOST_PACKETS: usize = 64;
pub const MOST_WAITING: usize = 1 << 20;
const MOST_PAYLOAD: usize = 65_527;
const MOST_KEPT: u64 = 65_535;

const SUCCESS: &[u8] =
    b"HTTP/1.1 101 Switching Protocols\r\nConnection: Upgrade\r\nUpgrade: connect-udp\r\nCapsule-Protocol: ?1\r\n\r\n";

// ---- lines of a script

pub enum Line {
    Blank,
    Workers(u32),
    Conn(u32),
    Piece(u32, Vec<u8>),
    End(u32),
    Room(u32, Option<usize>),
    FailRead(u32),
    FailWrite(u32),
    Datagram(u32, Vec<u8>),
    FailPort(u32),
    FailBind,
    Steps(Actor, u32),
    Run(u32),
}

#[derive(Clone, Copy)]
pub enum Actor {
    Worker(u32),
    Net,
}

pub fn cut(text: &[u8]) -> Option<(&[u8], &[u8])> {
    let space = text.iter().position(|byte| *byte == b' ')?;
    Some((&text[..space], &text[space + 1..]))
}

pub fn number(text: &[u8], low: u32, high: u32) -> Option<u32> {
    if text.is_empty() || text.len() > 10 || (text.len() > 1 && text[0] == b'0') || !text.iter().all(u8::is_ascii_digit) {
        return None;
    }
    let value = text.iter().fold(0u64, |value, digit| value * 10 + u64::from(digit - b'0'));
    if u64::from(low) <= value && value <= u64::from(high) { Some(value as u32) } else { None }
}

fn digit(byte: u8) -> Option<u8> {
    match byte {
        b'0'..=b'9' => Some(byte - b'0'),
        b'a'..=b'f' => Some(byte - b'a' + 10),
        _ => None,
    }
}

pub fn unhex(text: &[u8]) -> Option<Vec<u8>> {
    if text.is_empty() || text.len() % 2 != 0 {
        return None;
    }
    let mut bytes = Vec::with_capacity(text.len() / 2);
    for pair in text.chunks_exact(2) {
        bytes.push(digit(pair[0])? << 4 | digit(pair[1])?);
    }
    Some(bytes)
}

fn unescape(text: &[u8]) -> Option<Vec<u8>> {
    if text.is_empty() {
        return None;
    }
    let mut bytes = Vec::with_capacity(text.len());
    let mut rest = text.iter();
    while let Some(byte) = rest.next() {
        bytes.push(match byte {
            b'\\' => match rest.next()? {
                b'r' => b'\r',
                b'n' => b'\n',
                b'\\' => b'\\',
                _ => return None,
            },
            0x20..=0x7e => *byte,
            _ => return None,
        });
    }
    Some(bytes)
}

fn fill(text: &[u8]) -> Option<Vec<u8>> {
    let (front, rest) = cut(text)?;
    let (count, value) = cut(rest)?;
    let mut bytes = unhex(front)?;
    let count = number(count, 1, 99_999)? as usize;
    let [value] = unhex(value)?[..] else { return None };
    bytes.resize(bytes.len() + count, value);
    Some(bytes)
}

fn actor(text: &[u8]) -> Option<Actor> {
    if text == b"net" { Some(Actor::Net) } else { number(text, 0, 3).map(Actor::Worker) }
}

pub fn parse(line: &[u8]) -> Option<Line> {
    if line.is_empty() || line[0] == b'#' {
        return Some(Line::Blank);
    }
    if line == b"failbind" {
        return Some(Line::FailBind);
    }
    let (word, rest) = cut(line)?;
    let name = |text| number(text, 0, u32::MAX);
    let named = || {
        let (text, behind) = cut(rest)?;
        Some((name(text)?, behind))
    };
    match word {
        b"workers" => Some(Line::Workers(number(rest, 1, 4)?)),
        b"conn" => Some(Line::Conn(number(rest, 0, 3)?)),
        b"bytes" => named().and_then(|(conn, text)| Some(Line::Piece(conn, unhex(text)?))),
        b"text" => named().and_then(|(conn, text)| Some(Line::Piece(conn, unescape(text)?))),
        b"fill" => named().and_then(|(conn, text)| Some(Line::Piece(conn, fill(text)?))),
        b"end" => Some(Line::End(name(rest)?)),
        b"room" => {
            let (conn, text) = named()?;
            let room = if text == b"all" { None } else { Some(number(text, 0, i32::MAX as u32)? as usize) };
            Some(Line::Room(conn, room))
        }
        b"failread" => Some(Line::FailRead(name(rest)?)),
        b"failwrite" => Some(Line::FailWrite(name(rest)?)),
        b"dgram" => {
            let (tunnel, text) = named()?;
            let bytes = unhex(text)?;
            if bytes.len() <= MOST_PAYLOAD { Some(Line::Datagram(tunnel, bytes)) } else { None }
        }
        b"failport" => Some(Line::FailPort(name(rest)?)),
        b"step" => match cut(rest) {
            None => Some(Line::Steps(actor(rest)?, 1)),
            Some((text, count)) => Some(Line::Steps(actor(text)?, number(count, 1, 1_000_000)?)),
        },
        b"run" => Some(Line::Run(number(rest, 1, 1_000_000)?)),
        _ => None,
    }
}

// ---- requests

fn decode(text: &str) -> Vec<u8> {
    let hex = |byte: u8| (byte as char).to_digit(16).map(|digit| digit as u8);
    let mut bytes = Vec::with_capacity(text.len());
    let mut rest = text.as_bytes();
    while let [first, behind @ ..] = rest {
        if let (b'%', [high, low, after @ ..]) = (first, behind)
            && let (Some(high), Some(low)) = (hex(*high), hex(*low))
        {
            bytes.push(high << 4 | low);
            rest = after;
        } else {
            bytes.push(*first);
            rest = behind;
        }
    }
    bytes
}

fn path_of(target: &str) -> Option<&str> {
    if target.starts_with('/') {
        return Some(target);
    }
    let rest = target.strip_prefix("http://").or_else(|| target.strip_prefix("https://"))?;
    let end = rest.find(['/', '?', '#']).unwrap_or(rest.len());
    if end == 0 { None } else { Some(&rest[end..]) }
}

/// The address and port to which the path of a request leads, or the status of its refusal.
pub fn goal_of(path: &str) -> Result<(IpAddr, u16), u16> {
    let is_value = |text: &str| !text.is_empty() && !text.contains(['?', '&', '#']);
    let rest = path.strip_prefix("/.well-known/masque/udp/").ok_or(404u16)?;
    let parts: Vec<&str> = rest.split('/').collect();
    let [host, port, ""] = parts[..] else { return Err(404) };
    if !is_value(host) || !is_value(port) {
        return Err(404);
    }
    let (host, port) = (decode(host), decode(port));
    if port.is_empty() || port.len() > 5 || !port.iter().all(u8::is_ascii_digit) {
        return Err(400);
    }
    let port = port.iter().fold(0u32, |value, digit| value * 10 + u32::from(digit - b'0'));
    let port = u16::try_from(port).ok().filter(|port| *port > 0).ok_or(400u16)?;
    let host = String::from_utf8(host).map_err(|_| 400u16)?;
    match host.parse() {
        Ok(addr) => Ok((addr, port)),
        Err(_) => {
            let is_name = (1..=253).contains(&host.len())
                && host.bytes().all(|byte| byte.is_ascii_alphanumeric() || b"-._".contains(&byte));
            Err(if is_name { 502 } else { 400 })
        }
    }
}

/// What a whole head asks for, or the status of its refusal.
fn judge(head: &[u8]) -> Result<(IpAddr, u16), u16> {
    let text = std::str::from_utf8(head).map_err(|_| 400u16)?;
    let mut lines = text.trim_end_matches("\r\n").split("\r\n");
    let mut words = lines.next().unwrap_or("").split(' ');
    let (Some(method), Some(target), Some("HTTP/1.1"), None) = (words.next(), words.next(), words.next(), words.next()) else {
        return Err(400);
    };
    let (mut fields, mut hosts, mut content, mut upgrades, mut kind) = (0, 0, false, false, None);
    for line in lines {
        let (name, value) = line.split_once(':').ok_or(400u16)?;
        let mut members = value.split(',').map(|member| member.trim_matches([' ', '\t']));
        fields += 1;
        if name.eq_ignore_ascii_case("host") {
            hosts += 1;
        } else if name.eq_ignore_ascii_case("connection") {
            upgrades |= members.any(|member| member.eq_ignore_ascii_case("upgrade"));
        } else if name.eq_ignore_ascii_case("upgrade") {
            kind = kind.or(members.find_map(|member| {
                if member.eq_ignore_ascii_case("connect-udp") {
                    Some("udp")
                } else if member.eq_ignore_ascii_case("connect-ip") {
                    Some("ip")
                } else {
                    None
                }
            }));
        } else if ["content-length", "content-type", "transfer-encoding"].iter().any(|other| name.eq_ignore_ascii_case(other)) {
            content = true;
        }
    }
    if fields > MOST_FIELDS || hosts != 1 {
        return Err(400);
    }
    let kind = kind.ok_or(501u16)?;
    if method != "GET" || !upgrades || content {
        return Err(400);
    }
    let path = path_of(target).ok_or(400u16)?;
    if kind == "ip" { Err(501) } else { goal_of(path) }
}

fn refusal(status: u16) -> &'static [u8] {
    match status {
        400 => b"HTTP/1.1 400 Bad Request\r\nConnection: close\r\nContent-Length: 0\r\n\r\n",
        404 => b"HTTP/1.1 404 Not Found\r\nConnection: close\r\nContent-Length: 0\r\n\r\n",
        501 => b"HTTP/1.1 501 Not Implemented\r\nConnection: close\r\nContent-Length: 0\r\n\r\n",
        502 => b"HTTP/1.1 502 Bad Gateway\r\nConnection: close\r\nContent-Length: 0\r\n\r\n",
        _ => b"HTTP/1.1 503 Service Unavailable\r\nConnection: close\r\nContent-Length: 0\r\n\r\n",
    }
}

// ---- capsules

pub fn varint(bytes: &[u8]) -> Option<(u64, usize)> {
    let first = *bytes.first()?;
    let size = 1usize << (first >> 6);
    let bytes = bytes.get(..size)?;
    Some((bytes[1..].iter().fold(u64::from(first & 0x3f), |value, byte| value << 8 | u64::from(*byte)), size))
}

pub fn put_varint(out: &mut Vec<u8>, value: u64) {
    match value {
        0..0x40 => out.push(value as u8),
        0x40..0x4000 => out.extend_from_slice(&(0x4000 | value as u16).to_be_bytes()),
        _ => out.extend_from_slice(&(0x8000_0000 | value as u32).to_be_bytes()),
    }
}

pub fn put_datagram(out: &mut Vec<u8>, payload: &[u8]) {
    out.push(0);
    put_varint(out, payload.len() as u64 + 1);
    out.push(0);
    out.extend_from_slice(payload);
}

pub fn capsule_size(payload: usize) -> usize {
    let spelled = match payload + 1 {
        0..0x40 => 1,
        0x40..0x4000 => 2,
        _ => 4,
    };
    2 + spelled + payload
}

pub enum Capsule {
    Front,
    Keep { context: u64, payload: Vec<u8>, missing: usize },
    /// A capsule that is passed over, and the context of a payload that is too long.
    Skip { context: Option<u64>, missing: u64 },
    Bad,
}

/// What comes behind the front of a capsule, and how many bytes that has.
fn behind_front(front: &[u8]) -> Option<(Capsule, usize)> {
    let (kind, a) = varint(front)?;
    let (length, b) = varint(&front[a..])?;
    if kind != 0 {
        return Some((Capsule::Skip { context: None, missing: length }, a + b));
    }
    let value = &front[a + b..];
    let value = &value[..value.len().min(length as usize)];
    match varint(value) {
        None if value.len() as u64 == length => Some((Capsule::Bad, a + b + value.len())),
        None => None,
        Some((context, c)) => {
            let missing = length - c as u64;
            let next = if missing > MOST_KEPT {
                Capsule::Skip { context: Some(context), missing }
            } else {
                Capsule::Keep { context, payload: Vec::with_capacity(missing as usize), missing: missing as usize }
            };
            Some((next, a + b + c))
        }
    }
}

pub struct Reader {
    front: Vec<u8>,
    state: Capsule,
    next: u64,
}

impl Reader {
    pub fn new() -> Reader {
        Reader { front: Vec::new(), state: Capsule::Front, next: 0 }
    }

    fn is_begun(&self) -> bool {
        match self.state {
            Capsule::Front => !self.front.is_empty(),
            Capsule::Keep { .. } | Capsule::Skip { .. } => true,
            Capsule::Bad => false,
        }
    }

    fn payload(&mut self, context: u64, payload: Option<Vec<u8>>, due: &mut VecDeque<Act>) {
        let n = self.next;
        self.next += 1;
        due.push_back(match payload {
            _ if context != 0 => Act::Drop(n),
            Some(payload) if payload.len() <= MOST_PAYLOAD => Act::Send(n, payload),
            _ => Act::Close,
        });
    }

    /// Reads bytes, and puts what they ask for behind what is due. Behind a close nothing is asked for.
    pub fn feed(&mut self, mut piece: &[u8], due: &mut VecDeque<Act>) {
        while !matches!(due.back(), Some(Act::Close)) {
            match &mut self.state {
                Capsule::Front => {
                    if piece.is_empty() {
                        return;
                    }
                    let before = self.front.len();
                    self.front.extend_from_slice(&piece[..piece.len().min(24 - before)]);
                    let Some((next, used)) = behind_front(&self.front) else { return };
                    piece = &piece[used - before..];
                    self.front.clear();
                    self.state = next;
                }
                Capsule::Keep { context, payload, missing } => {
                    let count = piece.len().min(*missing);
                    payload.extend_from_slice(&piece[..count]);
                    piece = &piece[count..];
                    *missing -= count;
                    if *missing > 0 {
                        return;
                    }
                    let (context, payload) = (*context, std::mem::take(payload));
                    self.state = Capsule::Front;
                    self.payload(context, Some(payload), due);
                }
                Capsule::Skip { context, missing } => {
                    let count = (piece.len() as u64).min(*missing);
                    piece = &piece[count as usize..];
                    *missing -= count;
                    if *missing > 0 {
                        return;
                    }
                    let context = *context;
                    self.state = Capsule::Front;
                    if let Some(context) = context {
                        self.payload(context, None, due);
                    }
                }
                Capsule::Bad => due.push_back(Act::Close),
            }
        }
    }
}

// ---- connections

pub enum Act {
    Bind(IpAddr),
    Refuse(u16),
    Send(u64, Vec<u8>),
    Drop(u64),
    Close,
}

enum First {
    Open { limit: usize },
    Close(&'static str),
}

enum Front {
    Head(Vec<u8>),
    Data(Reader),
    Shut,
}

struct Tunnel {
    id: u32,
    limit: usize,
    arrived: VecDeque<Vec<u8>>,
    received: u64,
    send_fails: bool,
    waiting: VecDeque<(u64, Vec<u8>)>,
    size: usize,
}

struct Conn {
    number: u32,
    pieces: VecDeque<Vec<u8>>,
    taken: usize,
    is_ended: bool,
    room: Option<usize>,
    read_fails: bool,
    write_fails: bool,
    front: Front,
    is_begun: bool,
    first: Option<First>,
    due: VecDeque<Act>,
    owed: Vec<u8>,
    given: usize,
    is_finished: bool,
    ending: Option<&'static str>,
    tunnel: Option<Tunnel>,
}

/// What all workers share.
struct Shared {
    /// For each entry of the history the worker and the connection of the tunnel that it opened.
    history: Vec<Option<(usize, u32)>>,
    live: usize,
    bind_fails: bool,
}

enum Moved {
    Quiet,
    Acted,
    Ended,
}

pub fn put_hex(out: &mut impl Write, bytes: &[u8]) -> io::Result<()> {
    const DIGITS: &[u8; 16] = b"0123456789abcdef";
    if bytes.is_empty() {
        return out.write_all(b"-\n");
    }
    for chunk in bytes.chunks(64) {
        let mut text = [0; 128];
        for (pair, byte) in text.chunks_exact_mut(2).zip(chunk) {
            pair[0] = DIGITS[usize::from(byte >> 4)];
            pair[1] = DIGITS[usize::from(byte & 15)];
        }
        out.write_all(&text[..2 * chunk.len()])?;
    }
    out.write_all(b"\n")
}

impl Conn {
    fn new(number: u32) -> Conn {
        Conn {
            number,
            pieces: VecDeque::new(),
            taken: 0,
            is_ended: false,
            room: None,
            read_fails: false,
            write_fails: false,
            front: Front::Head(Vec::new()),
            is_begun: false,
            first: None,
            due: VecDeque::new(),
            owed: Vec::new(),
            given: 0,
            is_finished: false,
            ending: None,
            tunnel: None,
        }
    }

    fn seat(&self) -> u64 {
        u64::from(self.number) + 2
    }

    fn owed(&self) -> &[u8] {
        &self.owed[self.given..]
    }

    fn give_up(&mut self, why: &'static str) {
        self.front = Front::Shut;
        self.first = None;
        self.due.clear();
        self.ending = Some(why);
    }

    fn can_go_on(&self) -> bool {
        self.ending.is_none() && self.first.is_none() && self.due.is_empty() && self.owed().len() <= MOST_OWED
    }

    fn can_frame(&self) -> bool {
        self.can_go_on() && self.tunnel.as_ref().is_some_and(|tunnel| !tunnel.waiting.is_empty())
    }

    fn can_write(&self) -> bool {
        !self.owed().is_empty() && (self.write_fails || self.room != Some(0))
    }

    fn can_read(&self) -> bool {
        self.can_go_on() && !self.is_finished && (self.read_fails || !self.pieces.is_empty() || self.is_ended)
    }

    fn can_receive(&self) -> bool {
        self.tunnel.as_ref().is_some_and(|tunnel| !tunnel.arrived.is_empty())
    }

    fn can_act(&self) -> bool {
        match self.ending {
            Some(why) => self.tunnel.is_some() || self.owed().is_empty() || why == "Link",
            None => self.first.is_some() || !self.due.is_empty(),
        }
    }

    fn is_ready(&self) -> bool {
        self.can_act() || self.can_frame() || self.can_write() || self.can_read() || self.can_receive()
    }

    fn refuse(&mut self, status: u16, out: &mut impl Write) -> io::Result<Moved> {
        self.owed.extend_from_slice(refusal(status));
        self.give_up("Refused");
        writeln!(out, "refused {} 0 {status}", self.number)?;
        Ok(Moved::Acted)
    }

    fn open(&mut self, limit: usize, worker: usize, shared: &mut Shared, out: &mut impl Write) -> io::Result<Moved> {
        if shared.history.len() + shared.live + 2 > MOST_ENTRIES {
            return self.refuse(503, out);
        }
        let id = shared.history.len() as u32;
        shared.history.push(Some((worker, self.number)));
        shared.live += 1;
        let (arrived, waiting) = (VecDeque::new(), VecDeque::new());
        self.tunnel = Some(Tunnel { id, limit, arrived, received: 0, send_fails: false, waiting, size: 0 });
        self.owed.extend_from_slice(SUCCESS);
        writeln!(out, "opened {id} {} 0 udp", self.number)?;
        Ok(Moved::Acted)
    }

    fn close(&mut self, why: &str, end: &'static str, shared: &mut Shared, out: &mut impl Write) -> io::Result<Moved> {
        let Some(tunnel) = self.tunnel.take() else { return Ok(Moved::Quiet) };
        shared.history.push(None);
        shared.live -= 1;
        self.give_up(end);
        writeln!(out, "closed {} {why} left {}", tunnel.id, tunnel.waiting.len())?;
        Ok(Moved::Acted)
    }

    fn send(&mut self, n: u64, payload: &[u8], out: &mut impl Write) -> io::Result<Moved> {
        let Some(tunnel) = &mut self.tunnel else { return Ok(Moved::Quiet) };
        if payload.len() > tunnel.limit {
            writeln!(out, "dropped {} {n} TooLong", tunnel.id)?;
        } else if std::mem::take(&mut tunnel.send_fails) {
            writeln!(out, "dropped {} {n} Port", tunnel.id)?;
        } else {
            write!(out, "sent {} {n} ", tunnel.id)?;
            put_hex(out, payload)?;
        }
        Ok(Moved::Acted)
    }

    /// What is due first.
    fn act(&mut self, worker: usize, shared: &mut Shared, out: &mut impl Write) -> io::Result<Moved> {
        if let Some(end) = self.ending {
            if self.tunnel.is_some() {
                return self.close("Conn", end, shared, out);
            }
            if end == "Link" || self.owed().is_empty() {
                writeln!(out, "ended {} {end}", self.number)?;
                return Ok(Moved::Ended);
            }
            return Ok(Moved::Quiet);
        }
        match self.first.take() {
            None => (),
            Some(First::Open { limit }) => return self.open(limit, worker, shared, out),
            Some(First::Close(why)) => return self.close(why, if why == "End" { "Done" } else { why }, shared, out),
        }
        match self.due.pop_front() {
            None => Ok(Moved::Quiet),
            Some(Act::Bind(_)) if std::mem::take(&mut shared.bind_fails) => self.refuse(502, out),
            Some(Act::Bind(addr)) => {
                self.first = Some(First::Open { limit: if addr.is_ipv4() { 65_507 } else { 65_527 } });
                writeln!(out, "ported {} 0", self.number)?;
                Ok(Moved::Acted)
            }
            Some(Act::Refuse(status)) => self.refuse(status, out),
            Some(Act::Send(n, payload)) => self.send(n, &payload, out),
            Some(Act::Drop(n)) => {
                let Some(tunnel) = &self.tunnel else { return Ok(Moved::Quiet) };
                writeln!(out, "dropped {} {n} UnknownContext", tunnel.id)?;
                Ok(Moved::Acted)
            }
            Some(Act::Close) => self.close("Malformed", "Tunnel", shared, out),
        }
    }

    fn frame(&mut self, out: &mut impl Write) -> io::Result<Moved> {
        let Some(tunnel) = &mut self.tunnel else { return Ok(Moved::Quiet) };
        let Some((n, payload)) = tunnel.waiting.pop_front() else { return Ok(Moved::Quiet) };
        tunnel.size -= capsule_size(payload.len());
        put_datagram(&mut self.owed, &payload);
        write!(out, "delivered port{} {n} to {} ", tunnel.id, tunnel.id)?;
        put_hex(out, &payload)?;
        Ok(Moved::Acted)
    }

    fn write(&mut self, worker: usize, shared: &mut Shared, out: &mut impl Write) -> io::Result<Moved> {
        if std::mem::take(&mut self.write_fails) {
            self.give_up("Link");
            return self.act(worker, shared, out);
        }
        let owed = self.owed();
        let count = self.room.map_or(owed.len(), |room| room.min(owed.len()));
        write!(out, "wrote {} ", self.number)?;
        put_hex(out, &owed[..count])?;
        self.room = self.room.map(|room| room - count);
        self.given += count;
        if self.given == self.owed.len() {
            self.owed.clear();
            self.given = 0;
        }
        Ok(Moved::Acted)
    }

    fn read_head(&mut self, mut head: Vec<u8>, piece: &[u8]) -> Front {
        let before = head.len();
        head.extend_from_slice(&piece[..piece.len().min(MOST_HEAD - before)]);
        let from = before.saturating_sub(3);
        let Some(end) = head[from..].windows(4).position(|window| window == b"\r\n\r\n") else {
            if head.len() < MOST_HEAD {
                return Front::Head(head);
            }
            self.due.push_back(Act::Refuse(400));
            return Front::Shut;
        };
        let end = from + end + 4;
        match judge(&head[..end]) {
            Err(status) => {
                self.due.push_back(Act::Refuse(status));
                Front::Shut
            }
            Ok((addr, _)) => {
                self.due.push_back(Act::Bind(addr));
                let mut reader = Reader::new();
                reader.feed(&piece[end - before..], &mut self.due);
                Front::Data(reader)
            }
        }
    }

    fn read(&mut self, worker: usize, shared: &mut Shared, out: &mut impl Write) -> io::Result<Moved> {
        if std::mem::take(&mut self.read_fails) {
            self.give_up("Link");
            return self.act(worker, shared, out);
        }
        let Some(piece) = self.pieces.pop_front() else {
            self.is_finished = true;
            match &self.front {
                Front::Head(_) => self.give_up(if self.is_begun { "Truncated" } else { "Done" }),
                Front::Data(reader) if reader.is_begun() => self.first = Some(First::Close("Truncated")),
                _ => self.first = Some(First::Close("End")),
            }
            writeln!(out, "finished {}", self.number)?;
            return Ok(Moved::Acted);
        };
        let left = &piece[self.taken..];
        let count = left.len().min(MOST_READ);
        let bytes = &left[..count];
        self.is_begun = true;
        match std::mem::replace(&mut self.front, Front::Shut) {
            Front::Head(head) => self.front = self.read_head(head, bytes),
            Front::Data(mut reader) => {
                reader.feed(bytes, &mut self.due);
                self.front = Front::Data(reader);
            }
            Front::Shut => (),
        }
        self.taken += count;
        if self.taken < piece.len() {
            self.pieces.push_front(piece);
        } else {
            self.taken = 0;
        }
        writeln!(out, "took {} {count}", self.number)?;
        Ok(Moved::Acted)
    }

    fn receive(&mut self, out: &mut impl Write) -> io::Result<Moved> {
        let Some(tunnel) = &mut self.tunnel else { return Ok(Moved::Quiet) };
        let Some(payload) = tunnel.arrived.pop_front() else { return Ok(Moved::Quiet) };
        let (id, n, size) = (tunnel.id, tunnel.received, capsule_size(payload.len()));
        tunnel.received += 1;
        if tunnel.waiting.len() < MOST_PACKETS && tunnel.size + size <= MOST_WAITING {
            tunnel.size += size;
            tunnel.waiting.push_back((n, payload));
            writeln!(out, "queued port{id} {n} to {id}")?;
        } else {
            writeln!(out, "dropped port{id} {n} QueueFull")?;
        }
        Ok(Moved::Acted)
    }

    /// Does the first thing that can be done.
    fn step(&mut self, worker: usize, shared: &mut Shared, out: &mut impl Write) -> io::Result<Moved> {
        if self.can_act() {
            self.act(worker, shared, out)
        } else if self.can_frame() {
            self.frame(out)
        } else if self.can_write() {
            self.write(worker, shared, out)
        } else if self.can_read() {
            self.read(worker, shared, out)
        } else {
            self.receive(out)
        }
    }
}

// ---- workers

/// Links and connections are in the order of their numbers.
#[derive(Default)]
struct Worker {
    offered: VecDeque<Conn>,
    live: Vec<Conn>,
    next_seat: u64,
}

impl Worker {
    fn find(&mut self, number: u32) -> Option<&mut Conn> {
        if let Ok(place) = self.live.binary_search_by_key(&number, |conn| conn.number) {
            return Some(&mut self.live[place]);
        }
        let place = self.offered.binary_search_by_key(&number, |conn| conn.number).ok()?;
        Some(&mut self.offered[place])
    }

    fn can_accept(&self) -> bool {
        self.live.len() < MOST_LIVE && !self.offered.is_empty()
    }

    fn is_ready(&self) -> bool {
        self.can_accept() || self.live.iter().any(Conn::is_ready)
    }

    fn accept(&mut self, id: usize, out: &mut impl Write) -> io::Result<bool> {
        if !self.can_accept() {
            return Ok(false);
        }
        let Some(conn) = self.offered.pop_front() else { return Ok(false) };
        writeln!(out, "accepted {} {id}", conn.number)?;
        self.live.push(conn);
        self.next_seat = 1;
        Ok(true)
    }

    fn pass(
        &mut self,
        places: std::ops::Range<usize>,
        id: usize,
        shared: &mut Shared,
        out: &mut impl Write,
    ) -> io::Result<bool> {
        for place in places {
            let conn = &mut self.live[place];
            let moved = conn.step(id, shared, out)?;
            if matches!(moved, Moved::Quiet) {
                continue;
            }
            self.next_seat = conn.seat() + 1;
            if matches!(moved, Moved::Ended) {
                self.live.remove(place);
            }
            return Ok(true);
        }
        Ok(false)
    }

    /// The first seat that can act does, in the ring from the next one on.
    fn step(&mut self, id: usize, shared: &mut Shared, out: &mut impl Write) -> io::Result<bool> {
        if self.next_seat == 0 && self.accept(id, out)? {
            return Ok(true);
        }
        let from = self.live.partition_point(|conn| conn.seat() < self.next_seat);
        if self.pass(from..self.live.len(), id, shared, out)? {
            return Ok(true);
        }
        if self.next_seat > 0 && self.accept(id, out)? {
            return Ok(true);
        }
        self.pass(0..from, id, shared, out)
    }
}

// ---- the world

struct Told {
    worker: usize,
    is_ended: bool,
}

struct World {
    workers: Vec<Worker>,
    links: Vec<Told>,
    shared: Shared,
    has_begun: bool,
}

impl World {
    fn new() -> World {
        World {
            workers: vec![Worker::default()],
            links: Vec::new(),
            shared: Shared { history: Vec::new(), live: 0, bind_fails: false },
            has_begun: false,
        }
    }

    fn with_conn(&mut self, number: u32, change: impl FnOnce(&mut Conn)) -> bool {
        let Some(told) = self.links.get(number as usize) else { return false };
        if let Some(conn) = self.workers[told.worker].find(number) {
            change(conn);
        }
        true
    }

    fn with_tunnel(&mut self, id: u32, change: impl FnOnce(&mut Tunnel)) -> bool {
        let Some(Some((worker, number))) = self.shared.history.get(id as usize) else { return false };
        if let Some(conn) = self.workers[*worker].find(*number)
            && let Some(tunnel) = &mut conn.tunnel
        {
            change(tunnel);
        }
        true
    }

    fn offer(&mut self, worker: usize) -> bool {
        if worker >= self.workers.len() || self.links.len() >= MOST_LINKS {
            return false;
        }
        let number = self.links.len() as u32;
        self.links.push(Told { worker, is_ended: false });
        self.workers[worker].offered.push_back(Conn::new(number));
        true
    }

    fn piece(&mut self, number: u32, bytes: Vec<u8>) -> bool {
        if self.links.get(number as usize).is_none_or(|told| told.is_ended) {
            return false;
        }
        self.with_conn(number, |conn| conn.pieces.push_back(bytes))
    }

    fn end(&mut self, number: u32) -> bool {
        if let Some(told) = self.links.get_mut(number as usize) {
            told.is_ended = true;
        }
        self.with_conn(number, |conn| conn.is_ended = true)
    }

    fn steps(&mut self, actor: Actor, count: u32, out: &mut impl Write) -> io::Result<bool> {
        let Actor::Worker(id) = actor else {
            writeln!(out, "idle net")?;
            return Ok(true);
        };
        let Some(worker) = self.workers.get_mut(id as usize) else { return Ok(false) };
        for _ in 0..count {
            if !worker.step(id as usize, &mut self.shared, out)? {
                writeln!(out, "idle {id}")?;
                break;
            }
        }
        Ok(true)
    }

    fn run(&mut self, count: u32, out: &mut impl Write) -> io::Result<()> {
        let workers = self.workers.len();
        let (mut at, mut left, mut idle) = (0, count, 0);
        while left > 0 {
            if self.workers[at].step(at, &mut self.shared, out)? {
                left -= 1;
                idle = 0;
            } else {
                idle += 1;
                if idle == workers {
                    return Ok(());
                }
            }
            at = (at + 1) % workers;
        }
        if self.workers.iter().any(Worker::is_ready) {
            writeln!(out, "more")?;
        }
        Ok(())
    }

    /// Plays a line. False where it is bad.
    fn play(&mut self, line: &[u8], out: &mut impl Write) -> io::Result<bool> {
        let Some(line) = parse(line) else { return Ok(false) };
        match line {
            Line::Blank => return Ok(true),
            Line::Workers(_) if self.has_begun => return Ok(false),
            Line::Workers(count) => {
                self.workers.resize_with(count as usize, Worker::default);
                return Ok(true);
            }
            _ => self.has_begun = true,
        }
        Ok(match line {
            Line::Blank | Line::Workers(_) => true,
            Line::Conn(worker) => self.offer(worker as usize),
            Line::Piece(conn, bytes) => self.piece(conn, bytes),
            Line::End(conn) => self.end(conn),
            Line::Room(conn, room) => self.with_conn(conn, |conn| conn.room = room),
            Line::FailRead(conn) => self.with_conn(conn, |conn| conn.read_fails = true),
            Line::FailWrite(conn) => self.with_conn(conn, |conn| conn.write_fails = true),
            Line::Datagram(id, bytes) => self.with_tunnel(id, |tunnel| tunnel.arrived.push_back(bytes)),
            Line::FailPort(id) => self.with_tunnel(id, |tunnel| tunnel.send_fails = true),
            Line::FailBind => {
                self.shared.bind_fails = true;
                true
            }
            Line::Steps(actor, count) => self.steps(actor, count, out)?,
            Line::Run(count) => {
                self.run(count, out)?;
                true
            }
        })
    }
}

/// Plays the script of standard input, line by line, each by `play`, which answers whether it is good.
pub fn play_script<W>(
    mut world: W,
    play: impl Fn(&mut W, &[u8], &mut BufWriter<io::StdoutLock<'static>>) -> io::Result<bool>,
) -> io::Result<ExitCode> {
    let mut script = BufReader::with_capacity(1 << 16, io::stdin().lock());
    let mut out = BufWriter::with_capacity(1 << 16, io::stdout().lock());
    let mut line = Vec::new();
    let (mut number, mut size) = (0u64, 0);
    loop {
        line.clear();
        let count = script.read_until(b'\n', &mut line)?;
        if count == 0 {
            break;
        }
        number += 1;
        size += count;
        let text = line.strip_suffix(b"\n").unwrap_or(&line);
        if text.len() > MOST_LINE || size > MOST_SCRIPT || !play(&mut world, text, &mut out)? {
            writeln!(out, "bad line {number}")?;
            out.flush()?;
            return Ok(ExitCode::from(5));
        }
    }
    out.flush()?;
    Ok(ExitCode::SUCCESS)
}

fn main() -> io::Result<ExitCode> {
    play_script(World::new(), |world, line, out| world.play(line, out))
}
