// What `mq_bench book_N COUNT`, `book_any_N COUNT` and `judge_N COUNT` do, as a plain program over the same lists:
// `book_plain WORD COUNT` prints the same checksum. `desk_plain.rs` has the same book behind a mutex.
use std::env;

#[derive(Clone, Copy, PartialEq)]
pub struct Prefix {
    pub addr: u32,
    pub length: u8,
}

#[derive(Clone, Copy)]
pub struct Range {
    pub first: u32,
    pub last: u32,
    pub protocol: u8,
}

#[derive(Clone, Copy)]
struct Given {
    id: u64,
    block: Prefix,
}

enum Call {
    Open,
    Assign { tunnel: u32, asked: Vec<Given> },
    Close { tunnel: u32 },
}

enum Reply {
    Opened { tunnel: u32, routes: Vec<Range> },
    Assigned { list: Vec<Given>, at: u32 },
    Closed,
}

struct Entry {
    actor: u32,
    call: Call,
    reply: Reply,
}

struct Tunnel {
    number: u32,
    actor: u32,
    held: Vec<Given>,
    ranges: Vec<Range>,
    routes: Vec<Range>,
}

pub enum Verdict {
    Source,
    NoRoute,
    Net,
    To(u32),
}

fn free_bits(block: &Prefix) -> u32 {
    32 - u32::from(block.length)
}

fn contains(block: &Prefix, addr: u32) -> bool {
    let free = free_bits(block);
    free == 32 || addr >> free == block.addr >> free
}

fn overlaps(a: &Prefix, b: &Prefix) -> bool {
    if a.length <= b.length { contains(a, b.addr) } else { contains(b, a.addr) }
}

fn last_of(addr: u32, free: u32) -> u64 {
    u64::from(addr) | ((1u64 << free) - 1)
}

/// The free block of this length that starts first in one block of the pool.
fn first_spare(whole: &Prefix, taken: &[Prefix], length: u8) -> Option<Prefix> {
    if length < whole.length {
        return None;
    }
    let end = last_of(whole.addr, free_bits(whole));
    let mut addr = whole.addr;
    loop {
        let block = Prefix { addr, length };
        let Some(other) = taken.iter().find(|other| overlaps(other, &block)) else {
            return Some(block);
        };
        let next = last_of(addr, free_bits(&block).max(free_bits(other))) + 1;
        if next > end {
            return None;
        }
        addr = next as u32;
    }
}

fn leads(ranges: &[Range], addr: u32, protocol: u8) -> bool {
    ranges.iter().any(|range| {
        let allowed = range.protocol == 0 || range.protocol == protocol || protocol == 1;
        allowed && range.first <= addr && addr <= range.last
    })
}

impl Tunnel {
    fn has(&self, addr: u32) -> bool {
        self.held.iter().any(|given| contains(&given.block, addr))
            || self.ranges.iter().any(|range| range.first <= addr && addr <= range.last)
    }

    fn owns(&self, addr: u32, protocol: u8) -> bool {
        self.held.iter().any(|given| contains(&given.block, addr)) || leads(&self.ranges, addr, protocol)
    }
}

pub struct Book {
    pool: Vec<Prefix>,
    routes: Vec<Range>,
    history: Vec<Entry>,
    live: Vec<Tunnel>,
}

impl Book {
    pub fn new(pool: Prefix, routes: Range) -> Book {
        Book { pool: vec![pool], routes: vec![routes], history: Vec::new(), live: Vec::new() }
    }

    fn write(&mut self, actor: u32, call: Call, reply: Reply) {
        self.history.push(Entry { actor, call, reply });
    }

    pub fn open(&mut self, actor: u32) -> u32 {
        let number = self.history.len() as u32;
        let routes = self.routes.clone();
        self.live.push(Tunnel { number, actor, held: Vec::new(), ranges: Vec::new(), routes: routes.clone() });
        self.write(actor, Call::Open, Reply::Opened { tunnel: number, routes });
        number
    }

    fn is_mine(&self, actor: u32, tunnel: u32) -> bool {
        self.live.iter().any(|one| one.number == tunnel) && self.history[tunnel as usize].actor == actor
    }

    fn offer(&self, taken: &[Prefix], block: &Prefix) -> Option<Prefix> {
        if block.addr == 0 {
            let finds = self.pool.iter().filter_map(|whole| first_spare(whole, taken, block.length));
            return finds.min_by_key(|one| one.addr);
        }
        let inside = self.pool.iter().any(|whole| block.length >= whole.length && contains(whole, block.addr));
        if inside && !taken.iter().any(|other| overlaps(other, block)) { Some(*block) } else { None }
    }

    pub fn assign(&mut self, actor: u32, tunnel: u32, block: Prefix) -> u64 {
        assert!(self.is_mine(actor, tunnel));
        let asked = vec![Given { id: 1, block }];
        let held = self.live.iter().flat_map(|one| &one.held);
        let mut taken: Vec<Prefix> = held.map(|given| given.block).collect();
        let place = self.live.iter().position(|one| one.number == tunnel).unwrap();
        let mut held = self.live[place].held.clone();
        let mut denied = Vec::new();
        for one in &asked {
            if held.iter().any(|given| given.id == one.id) {
                continue;
            }
            match if held.len() < 16 { self.offer(&taken, &one.block) } else { None } {
                Some(block) => {
                    taken.push(block);
                    held.push(Given { id: one.id, block });
                }
                None => denied.push(Given { id: one.id, block: Prefix { addr: 0, length: 32 } }),
            }
        }
        let mut list = held.clone();
        list.extend_from_slice(&denied);
        let last = u64::from(list.last().unwrap().block.addr);
        self.live[place].held = held;
        let at = self.history.len() as u32;
        self.write(actor, Call::Assign { tunnel, asked }, Reply::Assigned { list, at });
        last
    }

    pub fn close(&mut self, actor: u32, tunnel: u32) {
        assert!(self.is_mine(actor, tunnel));
        self.live.retain(|one| one.number != tunnel);
        self.write(actor, Call::Close { tunnel }, Reply::Closed);
    }

    pub fn judge(&self, from: u32, source: u32, target: u32, protocol: u8) -> Verdict {
        let Some(own) = self.live.iter().find(|one| one.number == from) else {
            return Verdict::Source;
        };
        if !own.owns(source, protocol) {
            Verdict::Source
        } else if !leads(&own.routes, target, protocol) {
            Verdict::NoRoute
        } else if let Some(to) = self.live.iter().find(|one| one.has(target)) {
            let reaches = to.owns(target, protocol) && leads(&to.routes, source, protocol);
            if reaches { Verdict::To(to.number) } else { Verdict::NoRoute }
        } else if self.pool.iter().any(|whole| contains(whole, target)) {
            Verdict::NoRoute
        } else {
            Verdict::Net
        }
    }
}

fn addr_of(tunnel: u32) -> u32 {
    0x0a00_0000 + tunnel
}

fn filled(live: u32) -> Book {
    let routes = Range { first: 0, last: u32::MAX, protocol: 0 };
    let mut book = Book::new(Prefix { addr: 0x0a00_0000, length: 16 }, routes);
    for tunnel in 0..live {
        let number = book.open(0);
        book.assign(0, number, Prefix { addr: addr_of(tunnel), length: 32 });
    }
    book
}

fn rounds(live: u32, count: u32, block: Prefix) -> u64 {
    let mut book = filled(live);
    let mut sum = 0u64;
    for _ in 0..count {
        let number = book.open(0);
        let told = book.assign(0, number, block);
        book.close(0, number);
        sum = sum.wrapping_add(u64::from(number)).wrapping_add(told);
    }
    sum + u64::from(keeps(&book))
}

/// Nothing, but so that no entry is left out as unread.
fn keeps(book: &Book) -> u32 {
    let read = book.history.iter().map(|entry| {
        entry.actor
            + match &entry.call {
                Call::Open => 0,
                Call::Assign { tunnel, asked } => tunnel + asked.len() as u32,
                Call::Close { tunnel } => *tunnel,
            }
            + match &entry.reply {
                Reply::Opened { tunnel, routes } => tunnel + routes.len() as u32,
                Reply::Assigned { list, at } => list.len() as u32 + at,
                Reply::Closed => 0,
            }
    });
    let sum = read.fold(0u32, u32::wrapping_add);
    let live = book.live.iter().map(|one| one.actor).fold(0, u32::wrapping_add);
    u32::from(sum == u32::MAX && live == u32::MAX)
}

fn judgements(live: u32, count: u32) -> u64 {
    let book = filled(live);
    let mut sum = 0u64;
    for packet in 0..count {
        let from = packet.wrapping_mul(7_919) % live;
        let to = packet.wrapping_mul(104_729) % live;
        sum = sum.wrapping_add(match book.judge(from * 2, addr_of(from), addr_of(to), 17) {
            Verdict::To(tunnel) => u64::from(tunnel) + 3,
            Verdict::Net => 2,
            Verdict::NoRoute => 1,
            Verdict::Source => 0,
        });
    }
    sum
}

fn main() {
    let words: Vec<String> = env::args().collect();
    let (word, live) = words[1].rsplit_once('_').unwrap();
    let (live, count) = (live.parse().unwrap(), words[2].parse().unwrap());
    let sum = match word {
        "book" => rounds(live, count, Prefix { addr: addr_of(live), length: 32 }),
        "book_any" => rounds(live, count, Prefix { addr: 0, length: 32 }),
        _ => judgements(live, count),
    };
    println!("{} {sum}", words[1]);
}
