// What `mq_bench capsules_SIZE COUNT` does, as a plain program: `capsules_plain SIZE COUNT` reads so many rounds of capsules
// in pieces of so many bytes, and prints the same checksum.
use std::env;

enum State {
    Front(Vec<u8>),
    Keep { context: u64, payload: Vec<u8>, missing: usize },
    Skip(u64),
}

fn varint(bytes: &[u8]) -> Option<(u64, usize)> {
    let first = *bytes.first()?;
    let size = 1usize << (first >> 6);
    if bytes.len() < size {
        return None;
    }
    let mut value = u64::from(first & 0x3f);
    for byte in &bytes[1..size] {
        value = value << 8 | u64::from(*byte);
    }
    Some((value, size))
}

/// The state behind a front, where it is whole.
fn behind(front: &[u8]) -> Option<State> {
    let (kind, a) = varint(front)?;
    let (length, b) = varint(&front[a..])?;
    if kind != 0 {
        return Some(State::Skip(length));
    }
    let (context, c) = varint(&front[a + b..])?;
    let missing = length as usize - c;
    if missing > 65_535 {
        return Some(State::Skip(missing as u64));
    }
    Some(State::Keep { context, payload: Vec::new(), missing })
}

fn feed(state: &mut State, mut piece: &[u8], told: &mut Vec<(u64, Vec<u8>)>) {
    loop {
        match state {
            State::Front(front) => {
                let Some((byte, rest)) = piece.split_first() else { return };
                piece = rest;
                front.push(*byte);
                if let Some(next) = behind(front) {
                    *state = next;
                }
            }
            State::Keep { context, payload, missing } => {
                let count = piece.len().min(*missing);
                payload.extend_from_slice(&piece[..count]);
                piece = &piece[count..];
                *missing -= count;
                if *missing > 0 {
                    return;
                }
                told.push((*context, std::mem::take(payload)));
                *state = State::Front(Vec::new());
            }
            State::Skip(missing) => {
                let count = (piece.len() as u64).min(*missing);
                piece = &piece[count as usize..];
                *missing -= count;
                if *missing > 0 {
                    return;
                }
                *state = State::Front(Vec::new());
            }
        }
    }
}

fn datagram(out: &mut Vec<u8>, payload: &[u8]) {
    let length = payload.len() as u64 + 1;
    out.push(0);
    if length < 64 {
        out.push(length as u8);
    } else {
        out.extend_from_slice(&[0x40 | (length >> 8) as u8, length as u8]);
    }
    out.push(0);
    out.extend_from_slice(payload);
}

fn main() {
    let words: Vec<usize> = env::args().skip(1).map(|word| word.parse().unwrap()).collect();
    let (size, count) = (words[0], words[1]);
    let mut round = Vec::new();
    for _ in 0..16 {
        datagram(&mut round, &[61; 1_200]);
    }
    datagram(&mut round, &[62; 20]);
    round.extend_from_slice(&[0x2a, 0x43, 0x00]);
    round.extend_from_slice(&[63; 768]);
    let mut state = State::Front(Vec::new());
    let mut sum = 0u64;
    for _ in 0..count {
        for piece in round.chunks(size) {
            let mut told = Vec::new();
            feed(&mut state, piece, &mut told);
            for (context, payload) in &told {
                sum = sum.wrapping_add(context + payload.len() as u64 + u64::from(*payload.first().unwrap_or(&0)));
            }
        }
    }
    println!("capsules_{size} {sum}");
}
