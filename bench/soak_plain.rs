// The plain program that bench/generate.sh compares with: what `masque soak` does, by ordinary Rust. It makes each line of the
// generated script (generate_plain.rs), plays it as bench/ip_plain.rs does, and counts what that would print by the first
// part of each printed line, which is all of them that it looks at and keeps. It proves nothing and refuses nothing.
#[allow(dead_code)]
#[path = "generate_plain.rs"]
mod generate;
#[allow(dead_code)]
#[path = "ip_plain.rs"]
mod ip;

use std::io::{self, Write};

const NAMES: [&str; 6] = ["passed", "pushed", "sent", "queued", "delivered", "dropped"];

/// Counts lines that are printed, by their names.
#[derive(Default)]
struct Counts {
    of: [u64; 6],
    more: bool,
}

impl Write for Counts {
    fn write(&mut self, part: &[u8]) -> io::Result<usize> {
        for (count, name) in self.of.iter_mut().zip(NAMES) {
            if part.strip_prefix(name.as_bytes()).is_some_and(|rest| rest.first() == Some(&b' ')) {
                *count += 1;
            }
        }
        self.more |= part == b"more\n";
        Ok(part.len())
    }

    fn flush(&mut self) -> io::Result<()> {
        Ok(())
    }
}

/// Plays the lines that are written to it.
struct Player {
    world: ip::World,
    line: Vec<u8>,
    counts: Counts,
}

impl Write for Player {
    fn write(&mut self, part: &[u8]) -> io::Result<usize> {
        for piece in part.split_inclusive(|byte| *byte == b'\n') {
            self.line.extend_from_slice(piece);
            if let Some(line) = self.line.strip_suffix(b"\n") {
                assert!(self.world.play(line, &mut self.counts)?, "a line is bad");
                self.line.clear();
            }
        }
        Ok(part.len())
    }

    fn flush(&mut self) -> io::Result<()> {
        Ok(())
    }
}

fn main() -> io::Result<()> {
    let words: Vec<u64> = std::env::args().skip(1).filter_map(|word| word.parse().ok()).collect();
    let mut player = Player { world: ip::World::new(), line: Vec::new(), counts: Counts::default() };
    generate::script(words[0], words[1] as u32, &mut player)?;
    let mut out = io::stdout().lock();
    for (name, count) in NAMES.iter().zip(player.counts.of) {
        writeln!(out, "{name} {count}")?;
    }
    writeln!(out, "history {}", player.world.entries())?;
    if player.counts.more {
        writeln!(out, "more")?;
    }
    Ok(())
}
