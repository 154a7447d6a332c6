//! Times marks and look-ups of both spent books beside plain Rust: the same two layouts written plainly, and
//! Rust's `HashSet`. First compares answers, and the bytes that the calls leave. Prints tables as Markdown.
//!
//! Every side is one call behind the same C signature: it makes a book over the memory, marks nonces in one
//! epoch, then looks up others as many rounds as it is told, and answers how many of them were found. So one
//! call times many look-ups, and a call without look-ups times the marks, the making of the book among them.

use clock::seconds;
use std::hint::black_box;

type Calls = unsafe extern "C" fn(*mut u8, usize, *const u8, usize, *const u8, usize, u32) -> u32;

mod clock;
mod plain_books;

mod part {
    unsafe extern "C" {
        pub fn dilkortxi_chained_look_ups(
            memory: *mut u8,
            memory_len: usize,
            marked: *const u8,
            marked_len: usize,
            sought: *const u8,
            sought_len: usize,
            rounds: u32,
        ) -> u32;
        pub fn dilkortxi_tape_look_ups(
            memory: *mut u8,
            memory_len: usize,
            marked: *const u8,
            marked_len: usize,
            sought: *const u8,
            sought_len: usize,
            rounds: u32,
        ) -> u32;
    }
}

/// The same in plain Rust.
mod plain {
    use crate::plain_books::{Book, Chained, Nonce, Tape, room};
    use std::collections::HashSet;
    use std::slice::{from_raw_parts, from_raw_parts_mut};

    /// A set on the heap. It is as large from the start as the chained memory would be.
    pub struct Set {
        pairs: HashSet<(u16, Nonce)>,
        capacity: usize,
    }

    impl<'a> Book<'a> for Set {
        fn over(memory: &'a mut [u8]) -> Option<Self> {
            let capacity = room(memory.len(), 132, 36)? as usize;
            Some(Set { pairs: HashSet::with_capacity(capacity), capacity })
        }

        fn has(&self, epoch: u16, nonce: &Nonce) -> bool {
            self.pairs.contains(&(epoch, *nonce))
        }

        fn mark(&mut self, epoch: u16, nonce: &Nonce) -> bool {
            self.pairs.len() < self.capacity && self.pairs.insert((epoch, *nonce))
        }
    }

    fn look_ups<'a, B: Book<'a>>(memory: &'a mut [u8], marked: &[u8], sought: &[u8], rounds: u32) -> u32 {
        let Some(mut book) = B::over(memory) else { return 0 };
        for nonce in marked.as_chunks().0 {
            book.mark(1, nonce);
        }
        let mut found = 0;
        for _ in 0..rounds {
            for nonce in sought.as_chunks().0 {
                if book.has(1, nonce) {
                    found += 1;
                }
            }
        }
        found
    }

    macro_rules! call {
        ($name:ident, $book:ty) => {
            pub unsafe extern "C" fn $name(
                memory: *mut u8,
                memory_len: usize,
                marked: *const u8,
                marked_len: usize,
                sought: *const u8,
                sought_len: usize,
                rounds: u32,
            ) -> u32 {
                let memory = unsafe { from_raw_parts_mut(memory, memory_len) };
                let (marked, sought) =
                    unsafe { (from_raw_parts(marked, marked_len), from_raw_parts(sought, sought_len)) };
                look_ups::<$book>(memory, marked, sought, rounds)
            }
        };
    }

    call!(tape, Tape);
    call!(chained, Chained);
    call!(set, Set);
}

/// One side: its call, and how long memory is that has room for so many records.
#[derive(Clone, Copy)]
struct Side {
    call: Calls,
    before: usize,
    record: usize,
}

const CHAINED: Side = Side { call: part::dilkortxi_chained_look_ups, before: 132, record: 36 };
const TAPE: Side = Side { call: part::dilkortxi_tape_look_ups, before: 2, record: 34 };
const PLAIN_CHAINED: Side = Side { call: plain::chained, before: 132, record: 36 };
const PLAIN_TAPE: Side = Side { call: plain::tape, before: 2, record: 34 };
const SET: Side = Side { call: plain::set, before: 132, record: 36 };

impl Side {
    fn memory(self, records: usize) -> Vec<u8> {
        vec![0xee; self.before + self.record * records]
    }

    fn run(self, memory: &mut [u8], marked: &[u8], sought: &[u8], rounds: u32) -> u32 {
        let (m, s) = (marked, sought);
        unsafe { (self.call)(memory.as_mut_ptr(), memory.len(), m.as_ptr(), m.len(), s.as_ptr(), s.len(), rounds) }
    }
}

/// Bytes that look random, the same in every run.
fn nonces(count: usize, seed: u64) -> Vec<u8> {
    let mut state = seed;
    let mut byte = || {
        state = state.wrapping_mul(6364136223846793005).wrapping_add(1442695040888963407);
        (state >> 56) as u8
    };
    (0..32 * count).map(|_| byte()).collect()
}

/// Books of many lengths, full ones and short memory among them: the answers, and the bytes where both sides
/// keep the same layout.
fn compare() -> usize {
    let mut count = 0;
    for case in 0..400 {
        let wide = nonces(1, case);
        let records = [0, 1, 2, 31, 32, 33, 256, 1024, 1025][case as usize % 9];
        let marks = wide[0] as usize * if case % 3 == 0 { 5 } else { 1 };
        let mut marked = nonces(marks, case + 1000);
        if case % 2 == 0 {
            for nonce in marked.chunks_exact_mut(32) {
                nonce[..31].fill(wide[1]);
                nonce[31] &= 0xf3;
            }
        }
        let sought = [&marked[..], &nonces(40, case + 2000), &wide[..7]].concat();
        let [a, b, c, d, e] = [CHAINED, PLAIN_CHAINED, TAPE, PLAIN_TAPE, SET].map(|side| {
            let mut memory = side.memory(records);
            memory.extend_from_slice(&wide[..5]);
            let found = side.run(&mut memory, &marked, &sought, 1 + case as u32 % 3);
            (found, memory)
        });
        assert_eq!(a, b, "case {case}: the chained books differ");
        assert_eq!(c, d, "case {case}: the tapes differ");
        assert_eq!([a.0, a.0], [c.0, e.0], "case {case}: the kinds differ");
        count += 1;
    }
    count
}

const TURNS: usize = 9;
const SIDES: [Side; 5] = [CHAINED, TAPE, PLAIN_CHAINED, PLAIN_TAPE, SET];

/// How long one turn of a side shall take.
const TURN: f64 = 0.02;

/// Calls a second of each side: the best of several turns, taken in alternation.
fn rates(carry_out: impl Fn(Side, usize) -> usize) -> [f64; 5] {
    let time = |side, repeats| {
        let start = seconds();
        let calls = carry_out(black_box(side), repeats);
        (calls, seconds() - start)
    };
    let repeats = SIDES.map(|side| {
        let mut repeats = 1;
        while time(side, repeats).1 < TURN {
            repeats *= 2;
        }
        repeats
    });
    let mut best = [0f64; 5];
    for _ in 0..TURNS {
        for ((best, side), repeats) in best.iter_mut().zip(SIDES).zip(repeats) {
            let (calls, passed) = time(side, repeats);
            *best = best.max(calls as f64 / passed);
        }
    }
    best
}

/// Look-ups in a book of so many pairs; what making and marking it takes is small beside them.
fn look_ups(size: usize, marked: &[u8], sought: &[u8]) -> [f64; 5] {
    let wanted = (sought.len() / 32) as u32;
    let all = marked[..32] == sought[..32];
    rates(|side, repeats| {
        let mut memory = side.memory(size);
        let rounds = 64 * repeats as u32;
        let found = side.run(&mut memory, marked, sought, rounds);
        assert_eq!(found, if all { rounds * wanted } else { 0 });
        (rounds * wanted) as usize
    })
}

/// Marks that fill a book of so many places, from the making of the book on.
fn marks(size: usize, marked: &[u8]) -> [f64; 5] {
    rates(|side, repeats| {
        let mut memory = side.memory(size);
        for _ in 0..repeats {
            black_box(side.run(black_box(&mut memory), marked, &[], 0));
        }
        repeats * size
    })
}

fn row(size: usize, what: &str, [chained, tape, plain_chained, plain_tape, set]: [f64; 5]) {
    let shown = [chained, tape, plain_chained, plain_tape, set].map(|rate| format!("{:.2}", rate / 1e6)).join(" | ");
    let ratios = [chained / tape, chained / plain_chained, tape / plain_tape, chained / set];
    let ratios = ratios.map(|ratio| format!("{ratio:.2}")).join(" | ");
    println!("| {size} | {what} | {shown} | {ratios} |");
}

fn main() {
    println!("{} books answer as those of plain Rust do, and leave the same bytes.\n", compare());
    println!("Millions of calls a second:\n");
    print!("| Size | Call | chained | tape | plain chained | plain tape | `HashSet` | chained beside tape ");
    println!("| chained beside plain | tape beside plain | chained beside `HashSet` |");
    println!("|---|---|---|---|---|---|---|---|---|---|---|");
    let mut multiples = [0f64; 2];
    for size in [1, 32, 256, 1024] {
        let (marked, absent) = (nonces(size, 1), nonces(size, 2));
        row(size, "mark", marks(size, &marked));
        for (multiple, what, sought) in [(0, "has, in the book", &marked), (1, "has, absent", &absent)] {
            let rates = look_ups(size, &marked, sought);
            row(size, what, rates);
            multiples[multiple] = rates[0] / rates[1];
        }
    }
    let [found, absent] = multiples;
    print!("\nAt 1,024 entries the chained book looks up {found:.1} times as fast as the tape where the pair is in it, ");
    println!("and {absent:.1} times where it is not.");
}
