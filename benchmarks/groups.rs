//! Times decodings and multiples of both groups beside plain Rust of the same algorithms, in one run on one
//! core, and first compares the answers of the two. Prints tables as Markdown.
//!
//! Both sides take codes and answer codes behind the same C signatures: a multiple is the decoding of its
//! element and of its scalar, the doubling, and the writing of the answer's code.

use clock::seconds;
use std::hint::black_box;

type Decode = unsafe extern "C" fn(*const u8, usize) -> u8;
type Multiple = unsafe extern "C" fn(*const u8, usize, *const u8, usize, *mut u8, usize) -> u8;

mod clock;

mod part {
    unsafe extern "C" {
        pub fn dilkortxi_res2039_decode(code: *const u8, len: usize) -> u8;
        pub fn dilkortxi_circ523_decode(code: *const u8, len: usize) -> u8;
        pub fn dilkortxi_res2039_multiple(c: *const u8, cn: usize, s: *const u8, sn: usize, o: *mut u8, on: usize) -> u8;
        pub fn dilkortxi_circ523_multiple(c: *const u8, cn: usize, s: *const u8, sn: usize, o: *mut u8, on: usize) -> u8;
    }
}

/// The same groups in plain Rust.
mod plain {
    use std::slice::{from_raw_parts, from_raw_parts_mut};

    pub trait Group: Copy {
        const ORDER: u16;
        const ELEMENT: usize;
        const SCALAR: usize;
        fn null() -> Self;
        fn sum(self, other: Self) -> Self;
        fn decode(code: &[u8]) -> Option<Self>;
        fn encode(self, out: &mut [u8]);
    }

    #[derive(Clone, Copy, PartialEq)]
    pub struct Residue(u16);

    fn raised(a: u16, e: u16) -> u16 {
        let (mut r, mut d, mut k) = (1u32, a as u32, e);
        while k > 0 {
            if k % 2 == 1 {
                r = r * d % 2039;
            }
            d = d * d % 2039;
            k /= 2;
        }
        r as u16
    }

    impl Group for Residue {
        const ORDER: u16 = 1019;
        const ELEMENT: usize = 2;
        const SCALAR: usize = 2;

        fn null() -> Self {
            Residue(1)
        }

        fn sum(self, other: Self) -> Self {
            Residue((self.0 as u32 * other.0 as u32 % 2039) as u16)
        }

        fn decode(code: &[u8]) -> Option<Self> {
            let &[high, low] = code else { return None };
            let value = high as u16 * 256 + low as u16;
            (value < 2039 && raised(value, 1019) == 1).then_some(Residue(value))
        }

        fn encode(self, out: &mut [u8]) {
            out[..2].copy_from_slice(&self.0.to_be_bytes());
        }
    }

    #[derive(Clone, Copy, PartialEq)]
    pub struct Point {
        x: u16,
        y: u16,
    }

    const P: u64 = 523;

    impl Point {
        fn times(self, n: u16) -> Self {
            let (mut total, mut doubled, mut left) = (Point { x: 1, y: 0 }, self, n);
            while left > 0 {
                if left % 2 == 1 {
                    total = total.sum(doubled);
                }
                doubled = doubled.sum(doubled);
                left /= 2;
            }
            total
        }
    }

    impl Group for Point {
        const ORDER: u16 = 131;
        const ELEMENT: usize = 4;
        const SCALAR: usize = 1;

        fn null() -> Self {
            Point { x: 1, y: 0 }
        }

        fn sum(self, other: Self) -> Self {
            let (x1, y1) = (self.x as u64, self.y as u64);
            let (x2, y2) = (other.x as u64, other.y as u64);
            Point {
                x: ((x1 * x2 + (P - 1) * (y1 * y2)) % P) as u16,
                y: ((x1 * y2 + x2 * y1) % P) as u16,
            }
        }

        fn decode(code: &[u8]) -> Option<Self> {
            let &[a, b, c, d] = code else { return None };
            let point = Point {
                x: u16::from_be_bytes([a, b]),
                y: u16::from_be_bytes([c, d]),
            };
            let (x, y) = (point.x as u64, point.y as u64);
            let on_circle = x < P && y < P && (x * x + y * y) % P == 1;
            (on_circle && point.times(131) == Point::null()).then_some(point)
        }

        fn encode(self, out: &mut [u8]) {
            out[..2].copy_from_slice(&self.x.to_be_bytes());
            out[2..4].copy_from_slice(&self.y.to_be_bytes());
        }
    }

    fn scalar<G: Group>(code: &[u8]) -> Option<u16> {
        if code.len() != G::SCALAR {
            return None;
        }
        let value = code.iter().fold(0, |n, &b| n * 256 + b as u16);
        (value < G::ORDER).then_some(value)
    }

    fn multiple<G: Group>(s: u16, p: G) -> G {
        let mut r = G::null();
        for place in (0..8 * G::SCALAR).rev() {
            r = r.sum(r);
            if s >> place & 1 == 1 {
                r = r.sum(p);
            }
        }
        r
    }

    pub unsafe extern "C" fn decode<G: Group>(code: *const u8, len: usize) -> u8 {
        let code = unsafe { from_raw_parts(code, len) };
        if code.len() != G::ELEMENT {
            return 2;
        }
        if G::decode(code).is_some() { 0 } else { 6 }
    }

    pub unsafe extern "C" fn multiplied<G: Group>(
        code: *const u8,
        code_len: usize,
        s: *const u8,
        s_len: usize,
        out: *mut u8,
        out_len: usize,
    ) -> u8 {
        let (code, s) = unsafe { (from_raw_parts(code, code_len), from_raw_parts(s, s_len)) };
        let out = unsafe { from_raw_parts_mut(out, out_len) };
        let Some(p) = G::decode(code) else { return 6 };
        let Some(s) = scalar::<G>(s) else { return 8 };
        if out.len() < G::ELEMENT {
            return 9;
        }
        multiple(s, p).encode(out);
        0
    }
}

/// A group as both sides offer it. Every call is through a pointer, so neither side is built into the loop.
struct Kind {
    name: &'static str,
    order: u16,
    element: usize,
    scalar: usize,
    generator: &'static [u8],
    decode: [Decode; 2],
    multiple: [Multiple; 2],
}

const KINDS: [Kind; 2] = [
    Kind {
        name: "res2039",
        order: 1019,
        element: 2,
        scalar: 2,
        generator: &[0, 4],
        decode: [part::dilkortxi_res2039_decode, plain::decode::<plain::Residue>],
        multiple: [part::dilkortxi_res2039_multiple, plain::multiplied::<plain::Residue>],
    },
    Kind {
        name: "circ523",
        order: 131,
        element: 4,
        scalar: 1,
        generator: &[0, 82, 1, 178],
        decode: [part::dilkortxi_circ523_decode, plain::decode::<plain::Point>],
        multiple: [part::dilkortxi_circ523_multiple, plain::multiplied::<plain::Point>],
    },
];

fn decode(side: Decode, code: &[u8]) -> u8 {
    unsafe { side(code.as_ptr(), code.len()) }
}

fn multiply(side: Multiple, code: &[u8], s: &[u8], out: &mut [u8]) -> u8 {
    unsafe { side(code.as_ptr(), code.len(), s.as_ptr(), s.len(), out.as_mut_ptr(), out.len()) }
}

fn scalar_code(kind: &Kind, s: u16) -> Vec<u8> {
    s.to_be_bytes()[2 - kind.scalar..].to_vec()
}

/// The codes of all elements.
fn elements(kind: &Kind) -> Vec<Vec<u8>> {
    let multiple = |s| {
        let mut out = vec![0; kind.element];
        let told = multiply(kind.multiple[1], kind.generator, &scalar_code(kind, s), &mut out);
        assert_eq!(told, 0);
        out
    };
    (0..kind.order).map(multiple).collect()
}

/// Codes to decode: all elements, and as many byte strings one bit away from them.
fn codes(kind: &Kind) -> Vec<Vec<u8>> {
    let mut all = elements(kind);
    for i in 0..all.len() {
        let mut near = all[i].clone();
        near[i % kind.element] ^= 1 << (i / kind.element % 8);
        all.push(near);
    }
    all
}

fn compare(kind: &Kind) -> usize {
    let mut count = 0;
    let decodings = codes(kind);
    for code in decodings.iter().map(Vec::as_slice).chain([&[][..], &[1], &[0, 1, 0], &[0; 5]]) {
        let [a, b] = kind.decode.map(|side| decode(side, code));
        assert_eq!(a, b, "{}: the decodings of {code:?} differ", kind.name);
        count += 1;
    }
    for code in decodings.iter().step_by(7) {
        for s in (0..if kind.scalar == 1 { 256 } else { 1100 }).step_by(3) {
            let s = scalar_code(kind, s);
            for room in [kind.element + 1, kind.element - 1] {
                let [a, b] = kind.multiple.map(|side| {
                    let mut out = vec![7; room];
                    (multiply(side, code, &s, &mut out), out)
                });
                assert_eq!(a, b, "{}: the multiples {s:?} of {code:?} differ", kind.name);
                count += 1;
            }
        }
    }
    count
}

const TURNS: usize = 9;

/// Calls a second of each of two sides: the best of several turns, taken in alternation.
fn rates<F: Copy>(sides: [F; 2], calls: usize, carry_out: impl Fn(F)) -> [f64; 2] {
    let mut best = [0f64; 2];
    for _ in 0..TURNS {
        for (best, side) in best.iter_mut().zip(sides) {
            let start = seconds();
            carry_out(black_box(side));
            *best = best.max(calls as f64 / (seconds() - start));
        }
    }
    best
}

fn row(kind: &Kind, what: &str, [part, plain]: [f64; 2]) {
    let millions = |rate: f64| format!("{:.2} million", rate / 1e6);
    println!("| {} | {what} | {} | {} | {:.2} |", kind.name, millions(part), millions(plain), part / plain);
}

fn time_decodings(kind: &Kind) {
    let codes = codes(kind);
    let rounds = 200_000 / codes.len() + 1;
    let found = rates(kind.decode, codes.len() * rounds, |side| {
        let mut told = 0u64;
        for _ in 0..rounds {
            for code in &codes {
                told += decode(side, code) as u64;
            }
        }
        black_box(told);
    });
    row(kind, "decode", found);
}

/// Each multiple is the element of the next, so the calls cannot overlap.
fn time_multiples(kind: &Kind) {
    let scalars: Vec<_> = (0..256).map(|i| scalar_code(kind, 1 + i * 577 % (kind.order - 1))).collect();
    let rounds = 100_000 / scalars.len() + 1;
    let found = rates(kind.multiple, scalars.len() * rounds, |side| {
        let (mut element, mut next) = (kind.generator.to_vec(), kind.generator.to_vec());
        for _ in 0..rounds {
            for s in &scalars {
                assert_eq!(multiply(side, &element, s, &mut next), 0);
                element.copy_from_slice(&next);
            }
        }
        black_box(element);
    });
    row(kind, "multiple", found);
}

fn main() {
    let compared: usize = KINDS.iter().map(compare).sum();
    println!("{compared} decodings and multiples are those of plain Rust.\n");
    println!("| Group | What | Dilkortxi a second | plain Rust a second | ratio |");
    println!("|---|---|---|---|---|");
    for kind in &KINDS {
        time_decodings(kind);
        time_multiples(kind);
    }
}
