// What tests of mq_mail do, in plain Rust: `inboxes_plain channel|ring PUSHERS` pushes 400,000 parcels of 40 bytes from so
// many threads through a queue of 256 and pops them in another; `inboxes_plain lane` puts 400,000 numbers through a
// channel of 32. Each parcel is looked at as it is popped: those of one pusher are numbered in order.
use std::cell::UnsafeCell;
use std::env;
use std::mem::MaybeUninit;
use std::sync::atomic::{AtomicUsize, Ordering};
use std::sync::mpsc::{TrySendError, sync_channel};
use std::thread;

const ALL: u64 = 400_000;

struct Parcel {
    from: u32,
    n: u64,
    packet: Vec<u8>,
}

struct Slot<T> {
    turn: AtomicUsize,
    value: UnsafeCell<MaybeUninit<T>>,
}

/// A bounded queue for many threads: a slot may be written at its own turn, and read at the one behind.
struct Ring<T> {
    slots: Vec<Slot<T>>,
    tail: AtomicUsize,
    head: AtomicUsize,
}

unsafe impl<T: Send> Sync for Ring<T> {}

impl<T> Ring<T> {
    fn new(capacity: usize) -> Ring<T> {
        let slots = (0..capacity)
            .map(|i| Slot { turn: AtomicUsize::new(i), value: UnsafeCell::new(MaybeUninit::uninit()) })
            .collect();
        Ring { slots, tail: AtomicUsize::new(0), head: AtomicUsize::new(0) }
    }

    fn push(&self, value: T) -> Result<(), T> {
        let mut at = self.tail.load(Ordering::Relaxed);
        loop {
            let slot = &self.slots[at % self.slots.len()];
            let turn = slot.turn.load(Ordering::Acquire);
            if turn == at {
                match self.tail.compare_exchange_weak(at, at + 1, Ordering::Relaxed, Ordering::Relaxed) {
                    Ok(_) => {
                        unsafe { (*slot.value.get()).write(value) };
                        slot.turn.store(at + 1, Ordering::Release);
                        return Ok(());
                    }
                    Err(now) => at = now,
                }
            } else if turn < at {
                return Err(value);
            } else {
                at = self.tail.load(Ordering::Relaxed);
            }
        }
    }

    fn pop(&self) -> Option<T> {
        let mut at = self.head.load(Ordering::Relaxed);
        loop {
            let slot = &self.slots[at % self.slots.len()];
            let turn = slot.turn.load(Ordering::Acquire);
            if turn == at + 1 {
                match self.head.compare_exchange_weak(at, at + 1, Ordering::Relaxed, Ordering::Relaxed) {
                    Ok(_) => {
                        let value = unsafe { (*slot.value.get()).assume_init_read() };
                        slot.turn.store(at + self.slots.len(), Ordering::Release);
                        return Some(value);
                    }
                    Err(now) => at = now,
                }
            } else if turn <= at {
                return None;
            } else {
                at = self.head.load(Ordering::Relaxed);
            }
        }
    }
}

fn parcel(header: &[u8; 40], from: u32, n: u64) -> Parcel {
    Parcel { from, n, packet: header.to_vec() }
}

fn push_all(from: u32, count: u64, push: impl Fn(Parcel) -> Option<Parcel>) {
    let header = [0x60; 40];
    for n in 0..count {
        let mut next = parcel(&header, from, n);
        while let Some(back) = push(next) {
            next = back;
            thread::yield_now();
        }
    }
}

fn pop_all(pop: impl Fn() -> Option<Parcel>) {
    let mut next = [0; 4];
    let mut popped = 0;
    while popped < ALL {
        match pop() {
            Some(parcel) => {
                assert!(parcel.n == next[parcel.from as usize] && parcel.packet.len() == 40);
                next[parcel.from as usize] += 1;
                popped += 1;
            }
            None => thread::yield_now(),
        }
    }
}

fn by_channel(pushers: u32) {
    let (sender, receiver) = sync_channel(256);
    thread::scope(|scope| {
        for from in 0..pushers {
            let sender = sender.clone();
            scope.spawn(move || {
                push_all(from, ALL / u64::from(pushers), |parcel| match sender.try_send(parcel) {
                    Ok(()) => None,
                    Err(TrySendError::Full(back) | TrySendError::Disconnected(back)) => Some(back),
                })
            });
        }
        scope.spawn(move || pop_all(|| receiver.try_recv().ok()));
    });
}

fn by_ring(pushers: u32) {
    let ring = Ring::new(256);
    thread::scope(|scope| {
        for from in 0..pushers {
            let ring = &ring;
            scope.spawn(move || push_all(from, ALL / u64::from(pushers), |parcel| ring.push(parcel).err()));
        }
        scope.spawn(|| pop_all(|| ring.pop()));
    });
}

fn lane() {
    let (sender, receiver) = sync_channel(32);
    thread::scope(|scope| {
        scope.spawn(move || {
            for n in 0..ALL as u32 {
                while sender.try_send(n).is_err() {
                    thread::yield_now();
                }
            }
        });
        scope.spawn(move || {
            let mut taken = 0;
            while taken < ALL as u32 {
                match receiver.try_recv() {
                    Ok(n) => {
                        assert_eq!(n, taken);
                        taken += 1;
                    }
                    Err(_) => thread::yield_now(),
                }
            }
        });
    });
}

fn main() {
    let words: Vec<String> = env::args().skip(1).collect();
    let pushers = words.get(1).map_or(1, |word| word.parse().unwrap());
    match words[0].as_str() {
        "channel" => by_channel(pushers),
        "ring" => by_ring(pushers),
        _ => lane(),
    }
}
