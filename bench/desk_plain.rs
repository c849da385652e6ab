// What tests of mq_desk do, in plain Rust: `desk_plain calls|judgements THREADS COUNT` has so many threads ask one
// book, that of `book_plain.rs`, behind a mutex, which each call takes anew. COUNT is of all threads together: so many
// tunnels open, ask for an address and close, or so many packets are judged.
#[allow(dead_code)]
#[path = "book_plain.rs"]
mod book_plain;

use book_plain::{Book, Prefix, Range, Verdict};
use std::env;
use std::sync::Mutex;
use std::thread;

const ANY: Prefix = Prefix { addr: 0, length: 32 };

fn begin(book: &Mutex<Book>, actor: u32) -> (u32, u32) {
    let tunnel = book.lock().unwrap().open(actor);
    let told = book.lock().unwrap().assign(actor, tunnel, ANY);
    (tunnel, told as u32)
}

fn open_many(book: &Mutex<Book>, actor: u32, count: u32) {
    for _ in 0..count {
        let (tunnel, _) = begin(book, actor);
        book.lock().unwrap().close(actor, tunnel);
    }
}

fn judge_many(book: &Mutex<Book>, actor: u32, count: u32) {
    let (tunnel, addr) = begin(book, actor);
    for _ in 0..count {
        let verdict = book.lock().unwrap().judge(tunnel, addr, addr, 17);
        assert!(matches!(verdict, Verdict::To(to) if to == tunnel));
    }
}

fn main() {
    let words: Vec<String> = env::args().collect();
    let (threads, count): (u32, u32) = (words[2].parse().unwrap(), words[3].parse().unwrap());
    let routes = Range { first: 0, last: u32::MAX, protocol: 0 };
    let book = Mutex::new(Book::new(Prefix { addr: 0x0a00_0000, length: 30 }, routes));
    thread::scope(|scope| {
        for actor in 0..threads {
            let book = &book;
            let calls = words[1] == "calls";
            scope.spawn(move || if calls { open_many } else { judge_many }(book, actor, count / threads));
        }
    });
}
