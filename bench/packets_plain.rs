// What `mq_bench packets COUNT` does, as a plain program: `packets_plain COUNT` checks an IPv4 packet of 1,500 bytes and sends it
// on to the next hop so often, and prints the same checksum.
use std::env;

struct View {
    header: usize,
    hop: u8,
    length: usize,
    source: u32,
    target: u32,
}

/// The ones' complement sum of the words of a header.
fn ones_sum(header: &[u8]) -> u16 {
    let mut sum = 0u32;
    for word in header.chunks_exact(2) {
        sum += u32::from(u16::from_be_bytes([word[0], word[1]]));
    }
    while sum > 0xffff {
        sum = (sum & 0xffff) + (sum >> 16);
    }
    sum as u16
}

fn is_nowhere(addr: u32) -> bool {
    addr == 0 || addr >> 24 == 127 || addr >> 16 == 0xa9fe || addr >> 28 == 0xe || addr == 0xffff_ffff
}

fn number(bytes: &[u8]) -> u32 {
    u32::from_be_bytes([bytes[0], bytes[1], bytes[2], bytes[3]])
}

fn check(packet: &[u8]) -> Option<View> {
    if packet.len() < 20 || packet[0] >> 4 != 4 {
        return None;
    }
    let view = View {
        header: usize::from(packet[0] & 15) * 4,
        hop: packet[8],
        length: usize::from(u16::from_be_bytes([packet[2], packet[3]])),
        source: number(&packet[12..]),
        target: number(&packet[16..]),
    };
    if view.length != packet.len() || view.header < 20 || view.header > packet.len() {
        return None;
    }
    if ones_sum(&packet[..view.header]) != 0xffff || is_nowhere(view.source) || is_nowhere(view.target) {
        return None;
    }
    Some(view)
}

fn onward(packet: &mut [u8], view: &View) -> bool {
    if view.hop <= 1 {
        return false;
    }
    packet[8] -= 1;
    packet[10..12].fill(0);
    let sum = !ones_sum(&packet[..view.header]);
    packet[10..12].copy_from_slice(&sum.to_be_bytes());
    true
}

fn main() {
    let count: u32 = env::args().nth(1).unwrap().parse().unwrap();
    let mut first = b"\x45\x00\x05\xdc\x00\x01\x00\x00\xff\x11\xc9\xd1\xc0\x00\x02\x01\xc6\x33\x64\x09".to_vec();
    first.extend_from_slice(&[61; 1_480]);
    let mut packet = first.clone();
    let mut sum = 0u64;
    for _ in 0..count {
        let Some(view) = check(&packet) else { break };
        if !onward(&mut packet, &view) {
            packet = first.clone();
        }
        sum = sum.wrapping_add(u64::from(view.hop)).wrapping_add(view.length as u64);
    }
    println!("packets {sum}");
}
