// The yardsticks of the exchange: plain Rust that does what the program mailcount does. Without a word the messages
// wait in blocks, as the proved ones do; with the word `vectors`, in one vector for each sender and each recipient.
// Either way it writes how many nanoseconds of the processor each exchange took, and then how many messages arrived.

use std::hint::black_box;

#[allow(dead_code)]
#[derive(Clone, Copy)]
enum Slot {
    Register(u32),
    Field { object: u64, index: u32 },
    Entry { line: u32, part: u8 },
    Wait { object: u64 },
    Nothing,
}

#[allow(dead_code)]
#[derive(Clone, Copy)]
enum Message {
    Forward { target: u64, back: Slot },
    Watch { key: u64, back: Slot },
    Moved { back: Slot, new: u64 },
}

const SWEEPERS: usize = 8;
const EACH: u32 = 125_000;
const ROUNDS: usize = 9;
const BLOCK: usize = 512;

fn recipient(message: &Message) -> usize {
    let of = |address: u64| (address >> 55) as usize % SWEEPERS;
    match *message {
        Message::Forward { target, .. } => of(target),
        Message::Watch { key, .. } => of(key),
        Message::Moved { back, .. } => match back {
            Slot::Register(r) => r as usize % SWEEPERS,
            Slot::Field { object, .. } | Slot::Wait { object } => of(object),
            Slot::Entry { line, .. } => line as usize % SWEEPERS,
            Slot::Nothing => 0,
        },
    }
}

/// What both kinds of boxes do.
trait Mail: Default {
    fn put(&mut self, message: Message);

    fn take_all(self, take: impl FnMut(Message));
}

/// Messages in blocks, of which the last one is not full.
#[derive(Default)]
struct Blocks {
    full: Vec<Vec<Message>>,
    last: Vec<Message>,
}

impl Mail for Blocks {
    fn put(&mut self, message: Message) {
        if self.last.len() == self.last.capacity() {
            let full = std::mem::replace(&mut self.last, Vec::with_capacity(BLOCK));
            if !full.is_empty() {
                self.full.push(full);
            }
        }
        self.last.push(message);
    }

    fn take_all(self, mut take: impl FnMut(Message)) {
        for block in self.full.into_iter().chain([self.last]) {
            for message in block {
                take(message);
            }
        }
    }
}

impl Mail for Vec<Message> {
    fn put(&mut self, message: Message) {
        self.push(message);
    }

    fn take_all(self, take: impl FnMut(Message)) {
        self.into_iter().for_each(take);
    }
}

/// Blocks go from sender to recipient as they come; vectors get their room first.
fn exchange<M: Mail>(outboxes: Vec<M>, mut inboxes: Vec<M>) -> Vec<M> {
    for outbox in outboxes {
        outbox.take_all(|message| inboxes[recipient(&message)].put(message));
    }
    inboxes
}

fn no_blocks(_: &[Blocks]) -> Vec<Blocks> {
    (0..SWEEPERS).map(|_| Blocks::default()).collect()
}

fn vectors_with_room(outboxes: &[Vec<Message>]) -> Vec<Vec<Message>> {
    let mut sizes = [0; SWEEPERS];
    for message in outboxes.iter().flatten() {
        sizes[recipient(message)] += 1;
    }
    sizes.iter().map(|size| Vec::with_capacity(*size)).collect()
}

#[repr(C)]
struct TimeSpec {
    seconds: i64,
    nanoseconds: i64,
}

unsafe extern "C" {
    fn clock_gettime(clock: i32, time: *mut TimeSpec) -> i32;
}

/// The processor time of this thread in nanoseconds, by Linux's clock 3.
fn processor_time() -> i64 {
    let mut time = TimeSpec { seconds: 0, nanoseconds: 0 };
    unsafe { clock_gettime(3, &mut time) };
    time.seconds * 1_000_000_000 + time.nanoseconds
}

fn full_outbox<M: Mail>() -> M {
    let mut outbox = M::default();
    for i in 0..EACH {
        outbox.put(Message::Forward { target: (u64::from(i % 64) << 55) + 2, back: Slot::Register(i % 4096) });
    }
    outbox
}

fn run<M: Mail>(empty: fn(&[M]) -> Vec<M>) {
    let mut count = 0;
    for _ in 0..ROUNDS {
        let outboxes: Vec<M> = black_box((0..SWEEPERS).map(|_| full_outbox()).collect());
        let start = processor_time();
        let inboxes = empty(&outboxes);
        let inboxes = black_box(exchange(outboxes, inboxes));
        println!("{}", processor_time() - start);
        for inbox in inboxes {
            inbox.take_all(|message| {
                black_box(message);
                count += 1;
            });
        }
    }
    println!("{count} messages");
}

fn main() {
    match std::env::args().nth(1).as_deref() {
        Some("vectors") => run(vectors_with_room),
        _ => run(no_blocks),
    }
}
