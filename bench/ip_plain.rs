// The plain program that bench/ip.sh compares with: what `masque replay` does with tunnels for IP packets over HTTP/1.1, for
// many links, workers and tunnels, and with a network of hosts, by ordinary Rust. It prints the same lines for the same script,
// where that keeps to what it knows: lines `conn`, `bytes`, `text`, `fill`, `room`, `packet`, `failnet`, `step` and `run`;
// settings `workers`, `pool`, `reach`, `route`, `host` and `mtu`, with blocks that are apart and routes in order; IPv4; requests
// by the default template for any target and any protocol, whose heads end as those of bench/ip.sh; capsules DATAGRAM,
// ADDRESS_REQUEST and ROUTE_ADVERTISEMENT without a fault; a book that isn't full. No tunnel closes. It stops at most of what
// it doesn't know. It proves nothing and refuses nothing.
#[allow(dead_code)]
#[path = "replay_plain.rs"]
mod replay;

use replay::{Actor, Line, MOST_ENTRIES, MOST_LINKS, MOST_LIVE, MOST_OWED, MOST_PACKETS, MOST_READ, MOST_WAITING};
use std::collections::VecDeque;
use std::fmt::{self, Display, Formatter};
use std::io::{self, Write};
use std::net::Ipv4Addr;
use std::process::ExitCode;

const MOST_PARCELS: usize = 256;
const MOST_ANSWERS: usize = 65_536;
const MOST_ANSWER_BYTES: usize = 1 << 24;
const MOST_BLOCKS: usize = 16;
const MOST_CONTROLS: usize = 16;
const MOST_PACKET: usize = 65_535;
const ICMP: u8 = 1;
const UDP: u8 = 17;

const REQUEST: &[u8] = b"GET /.well-known/masque/ip/*/*/ HTTP/1.1\r\n";
const UPGRADE: &[u8] = b"\r\nConnection: Upgrade\r\nUpgrade: connect-ip\r\n\r\n";
const SUCCESS: &[u8] =
    b"HTTP/1.1 101 Switching Protocols\r\nConnection: Upgrade\r\nUpgrade: connect-ip\r\nCapsule-Protocol: ?1\r\n\r\n";

fn unknown(what: &str) -> ! {
    eprintln!("this program doesn't know {what}");
    std::process::exit(3)
}

// ---- blocks, ranges and packets

fn word(bytes: &[u8], at: usize) -> u32 {
    bytes[at..at + 4].iter().fold(0, |value, byte| value << 8 | u32::from(*byte))
}

#[derive(Clone, Copy)]
struct Block {
    first: u32,
    length: u8,
}

impl Block {
    fn last(self) -> u32 {
        self.first | u32::MAX.checked_shr(self.length.into()).unwrap_or(0)
    }

    fn has(self, addr: u32) -> bool {
        self.first <= addr && addr <= self.last()
    }

    fn meets(self, other: Block) -> bool {
        self.first <= other.last() && other.first <= self.last()
    }
}

impl Display for Block {
    fn fmt(&self, f: &mut Formatter) -> fmt::Result {
        write!(f, "{}/{}", Ipv4Addr::from(self.first), self.length)
    }
}

#[derive(Clone, Copy)]
struct Range {
    first: u32,
    last: u32,
    protocol: u8,
}

impl Range {
    fn lets(&self, addr: u32, protocol: u8) -> bool {
        let is_allowed = self.protocol == 0 || self.protocol == protocol || protocol == ICMP;
        is_allowed && self.first <= addr && addr <= self.last
    }
}

#[derive(Clone, Copy)]
struct Flow {
    source: u32,
    target: u32,
    protocol: u8,
}

/// The ones' complement sum of the words (RFC 1071).
fn sum(bytes: &[u8]) -> u16 {
    let mut total: u32 = 0;
    let (words, rest) = bytes.as_chunks::<2>();
    for pair in words {
        total += u32::from(u16::from_be_bytes(*pair));
    }
    if let [byte] = rest {
        total += u32::from(*byte) << 8;
    }
    while total > 0xffff {
        total = (total & 0xffff) + (total >> 16);
    }
    total as u16
}

/// Writes the checksum that stands in `bytes` from `at` on.
fn mend(bytes: &mut [u8], at: usize) {
    bytes[at..at + 2].fill(0);
    let checksum = !sum(bytes);
    bytes[at..at + 2].copy_from_slice(&checksum.to_be_bytes());
}

fn header_size(packet: &[u8]) -> usize {
    usize::from(packet[0] & 15) * 4
}

fn is_forbidden(addr: u32) -> bool {
    let addr = Ipv4Addr::from(addr);
    let is_special = addr.is_unspecified() || addr.is_broadcast();
    is_special || addr.is_loopback() || addr.is_link_local() || addr.is_multicast()
}

/// What the header says, where it is a sound one (RFC 791, section 3.1).
fn flow_of(packet: &[u8]) -> Option<Flow> {
    match packet.first()? >> 4 {
        4 => (),
        6 => unknown("IPv6"),
        _ => return None,
    }
    if packet.len() < 20 || usize::from(u16::from_be_bytes([packet[2], packet[3]])) != packet.len() {
        return None;
    }
    let header = packet.get(..header_size(packet).max(20))?;
    if packet[0] & 15 < 5 || sum(header) != 0xffff {
        return None;
    }
    let (source, target) = (word(packet, 12), word(packet, 16));
    if is_forbidden(source) || is_forbidden(target) { None } else { Some(Flow { source, target, protocol: packet[9] }) }
}

/// Lowers the hop limit of a packet that is sound. False where it is at its end.
fn onward(packet: &mut [u8]) -> bool {
    if packet[8] <= 1 {
        return false;
    }
    packet[8] -= 1;
    let size = header_size(packet);
    mend(&mut packet[..size], 10);
    true
}

/// Makes the packet what its target answers to it: a datagram or an echo (RFC 862; RFC 792). False where there is no answer.
fn answer(packet: &mut [u8]) -> bool {
    let Some(flow) = flow_of(packet) else { return false };
    if header_size(packet) > 20 {
        return false;
    }
    let (header, payload) = packet.split_at_mut(20);
    if payload.len() < 8 {
        return false;
    }
    match flow.protocol {
        UDP if usize::from(u16::from_be_bytes([payload[4], payload[5]])) == payload.len() => payload[..4].rotate_left(2),
        ICMP if payload[..2] == [8, 0] => {
            payload[0] = 0;
            mend(payload, 2);
        }
        _ => return false,
    }
    header[12..].rotate_left(4);
    header[8] = 64;
    mend(header, 10);
    true
}

// ---- lines that this program has beside those of replay_plain.rs

fn addr_of(text: &[u8]) -> Option<u32> {
    let text = std::str::from_utf8(text).ok()?;
    if text.contains(':') {
        unknown("IPv6");
    }
    text.parse::<Ipv4Addr>().ok().map(u32::from)
}

fn block_of(text: &[u8]) -> Option<Block> {
    let slash = text.iter().position(|byte| *byte == b'/');
    let (addr, length) = match slash {
        Some(slash) => (&text[..slash], replay::number(&text[slash + 1..], 0, 32)? as u8),
        None => (text, 32),
    };
    Some(Block { first: addr_of(addr)?, length })
}

fn range_of(text: &[u8]) -> Option<Range> {
    let (first, rest) = replay::cut(text)?;
    let (last, protocol) = replay::cut(rest)?;
    let protocol = replay::number(protocol, 0, 255)? as u8;
    Some(Range { first: addr_of(first)?, last: addr_of(last)?, protocol })
}

fn packets_of(text: &[u8]) -> Option<Arrival> {
    let (copies, packet) = replay::cut(text)?;
    let (copies, packet) = (replay::number(copies, 1, 1_024)?, replay::unhex(packet)?);
    if packet.len() > MOST_PACKET { None } else { Some(Arrival { packet, copies, is_answer: false }) }
}

// ---- capsules

fn varint(value: &mut &[u8]) -> u64 {
    let Some((number, size)) = replay::varint(value) else { unknown("a malformed capsule") };
    *value = &value[size..];
    number
}

fn bytes<const N: usize>(value: &mut &[u8]) -> [u8; N] {
    let Some((front, rest)) = value.split_first_chunk() else { unknown("a malformed capsule") };
    *value = rest;
    *front
}

fn ipv4(value: &mut &[u8]) -> u32 {
    u32::from_be_bytes(bytes(value))
}

fn version(value: &mut &[u8]) {
    if bytes(value) != [4] {
        unknown("IPv6");
    }
}

type Asked = Vec<(u64, Block)>;

/// The value of ADDRESS_REQUEST (RFC 9484, section 4.7.2).
fn request_of(mut value: &[u8]) -> Asked {
    let mut asked = Vec::new();
    while !value.is_empty() {
        let id = varint(&mut value);
        version(&mut value);
        let (first, [length]) = (ipv4(&mut value), bytes(&mut value));
        asked.push((id, Block { first, length }));
    }
    asked
}

/// The value of ROUTE_ADVERTISEMENT (RFC 9484, section 4.7.3).
fn ranges_of(mut value: &[u8]) -> Vec<Range> {
    let mut ranges = Vec::new();
    while !value.is_empty() {
        version(&mut value);
        let (first, last, [protocol]) = (ipv4(&mut value), ipv4(&mut value), bytes(&mut value));
        ranges.push(Range { first, last, protocol });
    }
    ranges
}

fn capsule(kind: u8, value: &[u8]) -> Vec<u8> {
    let mut text = vec![kind];
    replay::put_varint(&mut text, value.len() as u64);
    text.extend_from_slice(value);
    text
}

/// ADDRESS_ASSIGN (RFC 9484, section 4.7.1).
fn assign_capsule(list: &[(u64, Block)]) -> Vec<u8> {
    let mut value = Vec::new();
    for (id, block) in list {
        replay::put_varint(&mut value, *id);
        value.push(4);
        value.extend_from_slice(&block.first.to_be_bytes());
        value.push(block.length);
    }
    capsule(1, &value)
}

fn routes_capsule(routes: &[Range]) -> Vec<u8> {
    let mut value = Vec::new();
    for range in routes {
        value.push(4);
        value.extend_from_slice(&range.first.to_be_bytes());
        value.extend_from_slice(&range.last.to_be_bytes());
        value.push(range.protocol);
    }
    capsule(3, &value)
}

/// The first capsule of a data stream: its kind, its value and its size, where it is there whole.
fn first_capsule(bytes: &[u8]) -> Option<(u64, &[u8], usize)> {
    let (kind, a) = replay::varint(bytes)?;
    let (length, b) = replay::varint(&bytes[a..])?;
    let end = a + b + length as usize;
    Some((kind, bytes.get(a + b..end)?, end))
}

// ---- the book

#[derive(Clone, Copy)]
enum Origin {
    Tunnel(u32),
    Net,
}

impl Display for Origin {
    fn fmt(&self, f: &mut Formatter) -> fmt::Result {
        match self {
            Origin::Tunnel(id) => id.fmt(f),
            Origin::Net => f.write_str("net"),
        }
    }
}

#[derive(Clone, Copy)]
enum Place {
    Tunnel { id: u32, worker: usize, conn: u32 },
    Net,
}

impl Display for Place {
    fn fmt(&self, f: &mut Formatter) -> fmt::Result {
        match self {
            Place::Tunnel { id, .. } => id.fmt(f),
            Place::Net => f.write_str("net"),
        }
    }
}

struct Parcel {
    from: Origin,
    n: u64,
    to: Place,
    packet: Vec<u8>,
}

/// What a tunnel holds.
struct Lease {
    place: Place,
    blocks: Asked,
    ranges: Vec<Range>,
}

impl Lease {
    fn has(&self, addr: u32) -> bool {
        let mut ranges = self.ranges.iter();
        self.blocks.iter().any(|(_, block)| block.has(addr)) || ranges.any(|range| range.first <= addr && addr <= range.last)
    }

    fn lets(&self, addr: u32, protocol: u8) -> bool {
        self.blocks.iter().any(|(_, block)| block.has(addr)) || self.ranges.iter().any(|range| range.lets(addr, protocol))
    }
}

#[derive(Default)]
struct Book {
    pool: Vec<Block>,
    reach: Vec<Block>,
    /// What each tunnel is told, since each request is for all targets and protocols.
    routes: Vec<Range>,
    entries: usize,
    leases: Vec<Lease>,
}

impl Book {
    fn add_route(&mut self, route: Range) {
        let touches = |last: &&mut Range| last.protocol == route.protocol && last.last.checked_add(1) == Some(route.first);
        match self.routes.last_mut().filter(touches) {
            Some(last) => last.last = route.last,
            None => self.routes.push(route),
        }
    }

    /// The number of one more entry.
    fn write(&mut self) -> usize {
        if self.entries + self.leases.len() + 2 > MOST_ENTRIES {
            unknown("a full history");
        }
        self.entries += 1;
        self.entries - 1
    }

    /// The lease of a new tunnel.
    fn open(&mut self, worker: usize, conn: u32) -> (u32, usize) {
        let id = self.write() as u32;
        self.leases.push(Lease { place: Place::Tunnel { id, worker, conn }, blocks: Vec::new(), ranges: Vec::new() });
        (id, self.leases.len() - 1)
    }

    fn taken(&self) -> impl Iterator<Item = Block> {
        self.leases.iter().flat_map(|lease| lease.blocks.iter().map(|(_, block)| *block))
    }

    fn least_free(&self, length: u8) -> Option<Block> {
        let starts = self.pool.iter().filter(|area| area.length <= length).filter_map(|area| {
            let mut block = Block { first: area.first, length };
            while let Some(other) = self.taken().find(|other| other.meets(block)) {
                block.first = block.last().max(other.last()).checked_add(1)?;
                if !area.has(block.first) {
                    return None;
                }
            }
            Some(block.first)
        });
        starts.min().map(|first| Block { first, length })
    }

    fn choose(&self, asked: Block) -> Option<Block> {
        if asked.first == 0 {
            return self.least_free(asked.length);
        }
        let is_in_pool = self.pool.iter().any(|area| area.length <= asked.length && area.has(asked.first));
        if is_in_pool && !self.taken().any(|other| other.meets(asked)) { Some(asked) } else { None }
    }

    /// What is held then and, behind it, what is denied.
    fn assign(&mut self, lease: usize, asked: Asked) -> Asked {
        let mut denied = Vec::new();
        for (id, block) in asked {
            let held = &self.leases[lease].blocks;
            if held.iter().any(|(other, _)| *other == id) {
                continue;
            }
            match if held.len() < MOST_BLOCKS { self.choose(block) } else { None } {
                Some(block) => self.leases[lease].blocks.push((id, block)),
                None => denied.push((id, Block { first: 0, length: 32 })),
            }
        }
        let mut list = self.leases[lease].blocks.clone();
        list.append(&mut denied);
        list
    }

    fn advertise(&mut self, lease: usize, ranges: Vec<Range>) -> bool {
        let accepts = ranges.iter().all(|range| {
            let others = self.leases.iter().enumerate().filter(|(place, _)| *place != lease);
            let mut held = others.flat_map(|(_, other)| &other.ranges);
            self.reach.iter().any(|area| area.has(range.first) && area.has(range.last))
                && !held.any(|other| other.first <= range.last && range.first <= other.last)
        });
        self.leases[lease].ranges = if accepts { ranges } else { Vec::new() };
        accepts
    }

    fn leads(&self, addr: u32, protocol: u8) -> bool {
        self.routes.iter().any(|route| route.lets(addr, protocol))
    }

    fn is_own(&self, addr: u32) -> bool {
        self.pool.iter().chain(&self.reach).any(|area| area.has(addr))
    }

    fn owner(&self, addr: u32) -> Option<&Lease> {
        self.leases.iter().find(|lease| lease.has(addr))
    }

    fn to_owner(&self, owner: &Lease, flow: Flow) -> Result<Place, &'static str> {
        let may = owner.lets(flow.target, flow.protocol) && self.leads(flow.source, flow.protocol);
        if may { Ok(owner.place) } else { Err("NoRoute") }
    }

    /// Where a packet of this tunnel may go, or why it is dropped.
    fn judge(&self, lease: usize, flow: Flow) -> Result<Place, &'static str> {
        if !self.leases[lease].lets(flow.source, flow.protocol) {
            return Err("Source");
        }
        if !self.leads(flow.target, flow.protocol) {
            return Err("NoRoute");
        }
        match self.owner(flow.target) {
            Some(owner) => self.to_owner(owner, flow),
            None if self.is_own(flow.target) => Err("NoRoute"),
            None => Ok(Place::Net),
        }
    }

    /// The same of a packet of the network. Who owns an address has it of `pool` or `reach`.
    fn judge_net(&self, flow: Flow) -> Result<Place, &'static str> {
        if self.is_own(flow.source) {
            return Err("Source");
        }
        self.owner(flow.target).map_or(Err("NoRoute"), |owner| self.to_owner(owner, flow))
    }
}

// ---- what all actors share

struct Shared {
    mtu: usize,
    book: Book,
    /// That of each worker, and then that of the pump.
    inboxes: Vec<VecDeque<Parcel>>,
}

impl Shared {
    fn push(&mut self, parcel: Parcel, out: &mut impl Write) -> io::Result<()> {
        let (from, n, to) = (parcel.from, parcel.n, parcel.to);
        let number = match to {
            Place::Tunnel { worker, .. } => worker,
            Place::Net => self.inboxes.len() - 1,
        };
        let inbox = &mut self.inboxes[number];
        if inbox.len() == MOST_PARCELS {
            return writeln!(out, "dropped {from} {n} InboxFull");
        }
        inbox.push_back(parcel);
        writeln!(out, "pushed {from} {n} to {to}")
    }
}

// ---- connections

enum Due {
    Open,
    Judge { n: u64, packet: Vec<u8>, flow: Flow },
    Push { n: u64, packet: Vec<u8>, to: Place },
    Drop { n: u64, why: &'static str },
    Assign(Asked),
    Advertise(Vec<Range>),
}

enum Waiting {
    Packet { from: Origin, n: u64, packet: Vec<u8> },
    Control(Vec<u8>),
}

struct Tunnel {
    id: u32,
    lease: usize,
    waiting: VecDeque<Waiting>,
    packets: usize,
    /// How many bytes the capsules of all that waits have.
    size: usize,
}

impl Tunnel {
    fn tell(&mut self, capsule: Vec<u8>) {
        self.size += capsule.len();
        self.waiting.push_back(Waiting::Control(capsule));
    }
}

struct Conn {
    number: u32,
    pieces: VecDeque<Vec<u8>>,
    taken: usize,
    room: Option<usize>,
    has_asked: bool,
    /// A part of the request or of a capsule.
    begun: Vec<u8>,
    next: u64,
    due: VecDeque<Due>,
    owed: Vec<u8>,
    given: usize,
    tunnel: Option<Tunnel>,
}

impl Conn {
    fn new(number: u32) -> Conn {
        Conn {
            number,
            pieces: VecDeque::new(),
            taken: 0,
            room: None,
            has_asked: false,
            begun: Vec::new(),
            next: 0,
            due: VecDeque::new(),
            owed: Vec::new(),
            given: 0,
            tunnel: None,
        }
    }

    fn seat(&self) -> u64 {
        u64::from(self.number) + 2
    }

    fn owed(&self) -> &[u8] {
        &self.owed[self.given..]
    }

    fn can_go_on(&self) -> bool {
        self.due.is_empty() && self.owed().len() <= MOST_OWED
    }

    fn can_frame(&self) -> bool {
        self.can_go_on() && self.tunnel.as_ref().is_some_and(|tunnel| !tunnel.waiting.is_empty())
    }

    fn can_write(&self) -> bool {
        !self.owed().is_empty() && self.room != Some(0)
    }

    fn can_read(&self) -> bool {
        self.can_go_on() && !self.pieces.is_empty()
    }

    fn is_ready(&self) -> bool {
        !self.due.is_empty() || self.can_frame() || self.can_write() || self.can_read()
    }

    // ---- what is read

    fn payload(&mut self, mut value: &[u8], mtu: usize) {
        let n = self.next;
        self.next += 1;
        let context = varint(&mut value);
        self.due.push_back(if context != 0 {
            Due::Drop { n, why: "UnknownContext" }
        } else if value.len() > MOST_PACKET {
            Due::Drop { n, why: "TooLong" }
        } else {
            match flow_of(value) {
                None => Due::Drop { n, why: "BadHeader" },
                Some(_) if value.len() > mtu => Due::Drop { n, why: "TooLong" },
                Some(flow) => Due::Judge { n, packet: value.to_vec(), flow },
            }
        });
    }

    /// Reads the whole capsules, and answers how many bytes they have.
    fn capsules(&mut self, bytes: &[u8], mtu: usize) -> usize {
        let mut at = 0;
        while let Some((kind, value, size)) = first_capsule(&bytes[at..]) {
            match kind {
                0 => self.payload(value, mtu),
                2 => self.due.push_back(Due::Assign(request_of(value))),
                3 => self.due.push_back(Due::Advertise(ranges_of(value))),
                _ => unknown("this kind of capsule"),
            }
            at += size;
        }
        at
    }

    fn feed(&mut self, bytes: &[u8], mtu: usize) {
        if self.has_asked && self.begun.is_empty() {
            let used = self.capsules(bytes, mtu);
            self.begun.extend_from_slice(&bytes[used..]);
            return;
        }
        let mut begun = std::mem::take(&mut self.begun);
        begun.extend_from_slice(bytes);
        let mut used = 0;
        if !self.has_asked
            && let Some(end) = begun.windows(4).position(|window| window == b"\r\n\r\n")
        {
            used = end + 4;
            if !begun.starts_with(REQUEST) || !begun[..used].ends_with(UPGRADE) {
                unknown("this request");
            }
            self.has_asked = true;
            self.due.push_back(Due::Open);
        }
        if self.has_asked {
            used += self.capsules(&begun[used..], mtu);
        }
        begun.drain(..used);
        self.begun = begun;
    }

    // ---- acts

    fn open(&mut self, worker: usize, book: &mut Book, out: &mut impl Write) -> io::Result<()> {
        let (id, lease) = book.open(worker, self.number);
        let mut tunnel = Tunnel { id, lease, waiting: VecDeque::new(), packets: 0, size: 0 };
        tunnel.tell(routes_capsule(&book.routes));
        self.tunnel = Some(tunnel);
        self.owed.extend_from_slice(SUCCESS);
        writeln!(out, "opened {id} {} 0 ip", self.number)
    }

    /// What is due first, which opens the tunnel where there is none.
    fn act(&mut self, due: Due, worker: usize, shared: &mut Shared, out: &mut impl Write) -> io::Result<()> {
        let Some(tunnel) = &mut self.tunnel else { return self.open(worker, &mut shared.book, out) };
        let id = tunnel.id;
        match due {
            Due::Open => unknown("a second request"),
            Due::Judge { n, packet, flow } => match shared.book.judge(tunnel.lease, flow) {
                Ok(to) => {
                    self.due.push_front(Due::Push { n, packet, to });
                    writeln!(out, "passed {id} {n} at {} to {to}", shared.book.entries)
                }
                Err(why) => writeln!(out, "dropped {id} {n} {why}"),
            },
            Due::Push { n, packet, to } => shared.push(Parcel { from: Origin::Tunnel(id), n, to, packet }, out),
            Due::Drop { n, why } => writeln!(out, "dropped {id} {n} {why}"),
            Due::Assign(asked) => {
                if tunnel.waiting.len() - tunnel.packets == MOST_CONTROLS {
                    unknown("more control capsules than may wait");
                }
                let at = shared.book.write();
                let list = shared.book.assign(tunnel.lease, asked);
                tunnel.tell(assign_capsule(&list));
                write!(out, "assigned {id} at {at}")?;
                for (request, block) in list {
                    write!(out, " {request}={block}")?;
                }
                writeln!(out)
            }
            Due::Advertise(ranges) => {
                let at = shared.book.write();
                let accepts = shared.book.advertise(tunnel.lease, ranges);
                writeln!(out, "advertised {id} at {at} {}", if accepts { "yes" } else { "no" })
            }
        }
    }

    fn frame(&mut self, out: &mut impl Write) -> io::Result<()> {
        let Some(tunnel) = &mut self.tunnel else { return Ok(()) };
        match tunnel.waiting.pop_front() {
            None => Ok(()),
            Some(Waiting::Control(capsule)) => {
                tunnel.size -= capsule.len();
                self.owed.extend_from_slice(&capsule);
                write!(out, "control {} ", tunnel.id)?;
                replay::put_hex(out, &capsule)
            }
            Some(Waiting::Packet { from, n, packet }) => {
                tunnel.size -= replay::capsule_size(packet.len());
                tunnel.packets -= 1;
                replay::put_datagram(&mut self.owed, &packet);
                write!(out, "delivered {from} {n} to {} ", tunnel.id)?;
                replay::put_hex(out, &packet)
            }
        }
    }

    fn write(&mut self, out: &mut impl Write) -> io::Result<()> {
        let owed = self.owed();
        let count = self.room.map_or(owed.len(), |room| room.min(owed.len()));
        write!(out, "wrote {} ", self.number)?;
        replay::put_hex(out, &owed[..count])?;
        self.room = self.room.map(|room| room - count);
        self.given += count;
        if self.given == self.owed.len() {
            self.owed.clear();
            self.given = 0;
        }
        Ok(())
    }

    fn read(&mut self, mtu: usize, out: &mut impl Write) -> io::Result<()> {
        let Some(piece) = self.pieces.pop_front() else { return Ok(()) };
        let count = (piece.len() - self.taken).min(MOST_READ);
        self.feed(&piece[self.taken..self.taken + count], mtu);
        self.taken += count;
        if self.taken < piece.len() {
            self.pieces.push_front(piece);
        } else {
            self.taken = 0;
        }
        writeln!(out, "took {} {count}", self.number)
    }

    /// A parcel for its tunnel, from the inbox.
    fn receive(&mut self, parcel: Parcel, out: &mut impl Write) -> io::Result<()> {
        let Some(tunnel) = &mut self.tunnel else { unknown("a parcel for no tunnel") };
        let (from, n, mut packet) = (parcel.from, parcel.n, parcel.packet);
        if !onward(&mut packet) {
            return writeln!(out, "dropped {from} {n} HopLimit");
        }
        let size = replay::capsule_size(packet.len());
        if tunnel.packets == MOST_PACKETS || tunnel.size + size > MOST_WAITING {
            return writeln!(out, "dropped {from} {n} QueueFull");
        }
        tunnel.size += size;
        tunnel.packets += 1;
        tunnel.waiting.push_back(Waiting::Packet { from, n, packet });
        writeln!(out, "queued {from} {n} to {}", tunnel.id)
    }

    /// Does the first thing that can be done. False where there is none.
    fn step(&mut self, worker: usize, shared: &mut Shared, out: &mut impl Write) -> io::Result<bool> {
        if let Some(due) = self.due.pop_front() {
            self.act(due, worker, shared, out)?;
        } else if self.can_frame() {
            self.frame(out)?;
        } else if self.can_write() {
            self.write(out)?;
        } else if self.can_read() {
            self.read(shared.mtu, out)?;
        } else {
            return Ok(false);
        }
        Ok(true)
    }
}

// ---- workers

/// Links and connections are in the order of their numbers.
#[derive(Default)]
struct Worker {
    offered: VecDeque<Conn>,
    live: Vec<Conn>,
    next_seat: u64,
}

impl Worker {
    fn find(&mut self, number: u32) -> Option<&mut Conn> {
        if let Ok(place) = self.live.binary_search_by_key(&number, |conn| conn.number) {
            return Some(&mut self.live[place]);
        }
        let place = self.offered.binary_search_by_key(&number, |conn| conn.number).ok()?;
        Some(&mut self.offered[place])
    }

    fn can_accept(&self) -> bool {
        self.live.len() < MOST_LIVE && !self.offered.is_empty()
    }

    fn is_ready(&self, inbox: &VecDeque<Parcel>) -> bool {
        self.can_accept() || !inbox.is_empty() || self.live.iter().any(Conn::is_ready)
    }

    fn accept(&mut self, id: usize, out: &mut impl Write) -> io::Result<bool> {
        if !self.can_accept() {
            return Ok(false);
        }
        let Some(conn) = self.offered.pop_front() else { return Ok(false) };
        writeln!(out, "accepted {} {id}", conn.number)?;
        self.live.push(conn);
        self.next_seat = 1;
        Ok(true)
    }

    fn receive(&mut self, inbox: &mut VecDeque<Parcel>, out: &mut impl Write) -> io::Result<bool> {
        let Some(parcel) = inbox.pop_front() else { return Ok(false) };
        self.next_seat = 2;
        let conn = match parcel.to {
            Place::Tunnel { conn, .. } => self.find(conn),
            Place::Net => None,
        };
        let Some(conn) = conn else { unknown("a parcel for no tunnel") };
        conn.receive(parcel, out)?;
        Ok(true)
    }

    fn pass(&mut self, places: std::ops::Range<usize>, id: usize, shared: &mut Shared, out: &mut impl Write) -> io::Result<bool> {
        for conn in &mut self.live[places] {
            if conn.step(id, shared, out)? {
                self.next_seat = conn.seat() + 1;
                return Ok(true);
            }
        }
        Ok(false)
    }

    /// The first seat that can act does, in the ring from the next one on: that of the offered links, that of the inbox, and
    /// those of the connections.
    fn step(&mut self, id: usize, shared: &mut Shared, out: &mut impl Write) -> io::Result<bool> {
        let next = self.next_seat;
        if next == 0 && self.accept(id, out)? || next <= 1 && self.receive(&mut shared.inboxes[id], out)? {
            return Ok(true);
        }
        let from = self.live.partition_point(|conn| conn.seat() < next);
        if self.pass(from..self.live.len(), id, shared, out)? {
            return Ok(true);
        }
        if next > 0 && self.accept(id, out)? || next > 1 && self.receive(&mut shared.inboxes[id], out)? {
            return Ok(true);
        }
        self.pass(0..from, id, shared, out)
    }
}

// ---- the network and its pump

struct Arrival {
    packet: Vec<u8>,
    copies: u32,
    is_answer: bool,
}

#[derive(Default)]
struct Pump {
    to_push: Option<Parcel>,
    received: u64,
    hosts: Vec<u32>,
    arrived: VecDeque<Arrival>,
    answers: usize,
    answer_bytes: usize,
    send_fails: bool,
}

impl Pump {
    fn is_ready(&self, inbox: &VecDeque<Parcel>) -> bool {
        self.to_push.is_some() || !inbox.is_empty() || !self.arrived.is_empty()
    }

    fn send(&mut self, parcel: Parcel, out: &mut impl Write) -> io::Result<()> {
        let (from, n, mut packet) = (parcel.from, parcel.n, parcel.packet);
        if std::mem::take(&mut self.send_fails) {
            return writeln!(out, "dropped {from} {n} Port");
        }
        write!(out, "sent {from} {n} ")?;
        replay::put_hex(out, &packet)?;
        let has_room = self.answers < MOST_ANSWERS && self.answer_bytes + packet.len() <= MOST_ANSWER_BYTES;
        if has_room && self.hosts.contains(&word(&packet, 16)) && answer(&mut packet) {
            self.answers += 1;
            self.answer_bytes += packet.len();
            self.arrived.push_back(Arrival { packet, copies: 1, is_answer: true });
        }
        Ok(())
    }

    fn receive(&mut self, mut arrival: Arrival, shared: &mut Shared, out: &mut impl Write) -> io::Result<()> {
        let n = self.received;
        self.received += 1;
        let packet = if arrival.copies > 1 {
            let packet = arrival.packet.clone();
            arrival.copies -= 1;
            self.arrived.push_front(arrival);
            packet
        } else {
            if arrival.is_answer {
                self.answers -= 1;
                self.answer_bytes -= arrival.packet.len();
            }
            arrival.packet
        };
        let verdict = match flow_of(&packet) {
            None => Err("BadHeader"),
            Some(_) if packet.len() > shared.mtu => Err("TooLong"),
            Some(flow) => shared.book.judge_net(flow),
        };
        match verdict {
            Ok(to) => {
                self.to_push = Some(Parcel { from: Origin::Net, n, to, packet });
                writeln!(out, "passed net {n} at {} to {to}", shared.book.entries)
            }
            Err(why) => writeln!(out, "dropped net {n} {why}"),
        }
    }

    fn step(&mut self, shared: &mut Shared, out: &mut impl Write) -> io::Result<bool> {
        if let Some(parcel) = self.to_push.take() {
            shared.push(parcel, out)?;
        } else if let Some(parcel) = shared.inboxes.last_mut().and_then(VecDeque::pop_front) {
            self.send(parcel, out)?;
        } else if let Some(arrival) = self.arrived.pop_front() {
            self.receive(arrival, shared, out)?;
        } else {
            return Ok(false);
        }
        Ok(true)
    }
}

// ---- the world

pub struct World {
    workers: Vec<Worker>,
    /// For each link its worker.
    links: Vec<usize>,
    pump: Pump,
    shared: Shared,
    has_begun: bool,
}

impl World {
    pub fn new() -> World {
        let mut world = World {
            workers: Vec::new(),
            links: Vec::new(),
            pump: Pump::default(),
            shared: Shared { mtu: 1_500, book: Book::default(), inboxes: Vec::new() },
            has_begun: false,
        };
        world.set_workers(1);
        world
    }

    fn set_workers(&mut self, count: usize) {
        self.workers.resize_with(count, Worker::default);
        self.shared.inboxes.resize_with(count + 1, VecDeque::new);
    }

    fn offer(&mut self, worker: usize) -> bool {
        if worker >= self.workers.len() || self.links.len() >= MOST_LINKS {
            return false;
        }
        self.workers[worker].offered.push_back(Conn::new(self.links.len() as u32));
        self.links.push(worker);
        true
    }

    fn with_conn(&mut self, number: u32, change: impl FnOnce(&mut Conn)) -> bool {
        let Some(worker) = self.links.get(number as usize) else { return false };
        if let Some(conn) = self.workers[*worker].find(number) {
            change(conn);
        }
        true
    }

    /// A step of a worker, or of the pump, which comes behind them.
    fn step(&mut self, actor: usize, out: &mut impl Write) -> io::Result<bool> {
        match self.workers.get_mut(actor) {
            Some(worker) => worker.step(actor, &mut self.shared, out),
            None => self.pump.step(&mut self.shared, out),
        }
    }

    fn is_ready(&self, actor: usize) -> bool {
        let inbox = &self.shared.inboxes[actor];
        self.workers.get(actor).map_or_else(|| self.pump.is_ready(inbox), |worker| worker.is_ready(inbox))
    }

    fn steps(&mut self, actor: Actor, count: u32, out: &mut impl Write) -> io::Result<bool> {
        let number = match actor {
            Actor::Worker(id) if id as usize >= self.workers.len() => return Ok(false),
            Actor::Worker(id) => id as usize,
            Actor::Net => self.workers.len(),
        };
        for _ in 0..count {
            if !self.step(number, out)? {
                match actor {
                    Actor::Worker(id) => writeln!(out, "idle {id}")?,
                    Actor::Net => writeln!(out, "idle net")?,
                }
                break;
            }
        }
        Ok(true)
    }

    fn run(&mut self, count: u32, out: &mut impl Write) -> io::Result<()> {
        let actors = self.workers.len() + 1;
        let (mut at, mut left, mut idle) = (0, count, 0);
        while left > 0 {
            if self.step(at, out)? {
                left -= 1;
                idle = 0;
            } else {
                idle += 1;
                if idle == actors {
                    return Ok(());
                }
            }
            at = (at + 1) % actors;
        }
        if (0..actors).any(|actor| self.is_ready(actor)) {
            writeln!(out, "more")?;
        }
        Ok(())
    }

    /// Plays a line that begins with this word, where it is a setting. None where it is bad.
    fn set(&mut self, word: &[u8], text: &[u8]) -> Option<()> {
        let Shared { mtu, book, .. } = &mut self.shared;
        match word {
            b"pool" => book.pool.push(block_of(text)?),
            b"reach" => book.reach.push(block_of(text)?),
            b"route" => book.add_route(range_of(text)?),
            b"host" => self.pump.hosts.push(addr_of(text)?),
            b"mtu" => *mtu = replay::number(text, 1_280, 65_535)? as usize,
            b"workers" => self.set_workers(replay::number(text, 1, 4)? as usize),
            _ => unknown("this line"),
        }
        Some(())
    }

    /// How many entries the book has.
    pub fn entries(&self) -> usize {
        self.shared.book.entries
    }

    /// Plays a line. False where it is bad.
    pub fn play(&mut self, line: &[u8], out: &mut impl Write) -> io::Result<bool> {
        let (word, text) = replay::cut(line).unwrap_or((line, b""));
        match word {
            b"pool" | b"reach" | b"route" | b"host" | b"mtu" | b"workers" => {
                return Ok(!self.has_begun && self.set(word, text).is_some());
            }
            b"packet" => {
                self.has_begun = true;
                let packets = packets_of(text);
                let is_good = packets.is_some();
                self.pump.arrived.extend(packets);
                return Ok(is_good);
            }
            b"failnet" => {
                self.has_begun = true;
                self.pump.send_fails = true;
                return Ok(line == b"failnet");
            }
            _ => (),
        }
        let Some(line) = replay::parse(line) else { return Ok(false) };
        self.has_begun |= !matches!(line, Line::Blank);
        Ok(match line {
            Line::Blank => true,
            Line::Conn(worker) => self.offer(worker as usize),
            Line::Piece(conn, bytes) => self.with_conn(conn, |conn| conn.pieces.push_back(bytes)),
            Line::Room(conn, room) => self.with_conn(conn, |conn| conn.room = room),
            Line::Steps(actor, count) => self.steps(actor, count, out)?,
            Line::Run(count) => {
                self.run(count, out)?;
                true
            }
            _ => unknown("this line"),
        })
    }
}

fn main() -> io::Result<ExitCode> {
    replay::play_script(World::new(), |world, line, out| world.play(line, out))
}
