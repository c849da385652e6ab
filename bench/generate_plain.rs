//! Prints the generated script of a seed and a count of packets, as docs/generator.md says it, in plain Rust.
use std::io::{BufWriter, Write};

const DIGITS: &[u8; 16] = b"0123456789abcdef";

/// The checksum of an IPv4 header (RFC 1071).
fn checksum(header: &[u8]) -> u16 {
    let mut sum: u32 = header.chunks_exact(2).map(|pair| u32::from(u16::from_be_bytes([pair[0], pair[1]]))).sum();
    while sum >> 16 != 0 {
        sum = (sum & 0xffff) + (sum >> 16);
    }
    !(sum as u16)
}

fn packet(client: u8, target: [u8; 4], payload: &[u8]) -> Vec<u8> {
    let size = 28 + payload.len() as u16;
    let mut bytes = vec![0x45, 0];
    bytes.extend_from_slice(&size.to_be_bytes());
    bytes.extend_from_slice(&[0, 0, 0, 0, 64, 17, 0, 0, 10, 0, 0, client]);
    bytes.extend_from_slice(&target);
    let sum = checksum(&bytes);
    bytes[10..12].copy_from_slice(&sum.to_be_bytes());
    for word in [4000, 7, size - 20, 0] {
        bytes.extend_from_slice(&word.to_be_bytes());
    }
    bytes.extend_from_slice(payload);
    bytes
}

pub fn script(seed: u64, count: u32, out: &mut impl Write) -> std::io::Result<()> {
    out.write_all(b"workers 2\npool 10.0.0.0/16\nroute 0.0.0.0 255.255.255.255 0\nhost 203.0.113.5\n")?;
    out.write_all(b"conn 0\nconn 1\nconn 0\nconn 1\n")?;
    for client in 0..4 {
        writeln!(out, "text {client} GET /.well-known/masque/ip/*/*/ HTTP/1.1\\r\\nHost: p\\r\\nConnection: Upgrade\\r\\nUpgrade: connect-ip\\r\\n\\r\\n")?;
        writeln!(out, "bytes {client} 020701040a0000{client:02x}20")?;
    }
    out.write_all(b"run 1000\n")?;
    let mut state = seed;
    for number in 0..count {
        state = state.wrapping_mul(6364136223846793005).wrapping_add(1442695040888963407);
        let drawn = (state >> 32) as u32;
        let client = (drawn % 4) as u8;
        let target = match drawn / 4 % 5 {
            4 => [203, 0, 113, 5],
            other => [10, 0, 0, other as u8],
        };
        let payload = vec![(number % 256) as u8; (drawn / 20 % 8) as usize];
        let packet = packet(client, target, &payload);
        write!(out, "bytes {client} 00{:02x}00", packet.len() + 1)?;
        let digits: Vec<u8> = packet.iter().flat_map(|byte| [DIGITS[(byte >> 4) as usize], DIGITS[(byte & 15) as usize]]).collect();
        out.write_all(&digits)?;
        match drawn / 160 % 3 {
            2 => out.write_all(b"\nstep net 2\n")?,
            worker => writeln!(out, "\nstep {worker} 2")?,
        }
    }
    out.write_all(b"run 1000000\n")
}

fn main() -> std::io::Result<()> {
    let words: Vec<u64> = std::env::args().skip(1).filter_map(|word| word.parse().ok()).collect();
    let mut out = BufWriter::with_capacity(65_536, std::io::stdout().lock());
    script(words[0], words[1] as u32, &mut out)?;
    out.flush()
}
