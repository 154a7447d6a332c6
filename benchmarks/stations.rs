//! Times redemptions and issues of a station, and batches of a shop, beside plain Rust of the same protocol, in
//! either group and over either book. First compares answers, the bytes of the book, the requests, the replies and
//! the tokens. Prints tables as Markdown.
//!
//! Every side is one call behind the same C signature: it makes a station over the memory, opens an epoch under
//! the key, and then redeems the tokens, or answers the request, as many rounds as it is told. In the first
//! round the tokens are accepted; in each further round the book must find every one of them spent. A shop blinds
//! one batch and finishes it with one reply, round after round.

use clock::seconds;
use std::hint::black_box;

type Redeem = unsafe extern "C" fn(*mut u8, usize, *const u8, usize, *const u8, usize, u32) -> u32;
type Issue = unsafe extern "C" fn(
    *mut u8,
    usize,
    *const u8,
    usize,
    *const u8,
    usize,
    *const u8,
    usize,
    *mut u8,
    usize,
    u32,
) -> u32;

type Batches = unsafe extern "C" fn(
    *const u8,
    usize,
    *const u8,
    usize,
    *const u8,
    usize,
    *const u8,
    usize,
    *mut u8,
    usize,
    *mut u8,
    usize,
    u32,
) -> u32;

mod clock;
mod plain_books;

mod part {
    unsafe extern "C" {
        #[rustfmt::skip]
        pub fn dilkortxi_res2039_batches(pk: *const u8, pn: usize, s: *const u8, sn: usize, b: *const u8, bn: usize, r: *const u8, rn: usize, q: *mut u8, qn: usize, t: *mut u8, tn: usize, rounds: u32) -> u32;
        #[rustfmt::skip]
        pub fn dilkortxi_circ523_batches(pk: *const u8, pn: usize, s: *const u8, sn: usize, b: *const u8, bn: usize, r: *const u8, rn: usize, q: *mut u8, qn: usize, t: *mut u8, tn: usize, rounds: u32) -> u32;
        pub fn dilkortxi_res2039_chained_redemptions(m: *mut u8, mn: usize, k: *const u8, kn: usize, t: *const u8, tn: usize, rounds: u32) -> u32;
        pub fn dilkortxi_res2039_tape_redemptions(m: *mut u8, mn: usize, k: *const u8, kn: usize, t: *const u8, tn: usize, rounds: u32) -> u32;
        pub fn dilkortxi_circ523_chained_redemptions(m: *mut u8, mn: usize, k: *const u8, kn: usize, t: *const u8, tn: usize, rounds: u32) -> u32;
        pub fn dilkortxi_circ523_tape_redemptions(m: *mut u8, mn: usize, k: *const u8, kn: usize, t: *const u8, tn: usize, rounds: u32) -> u32;
        #[rustfmt::skip]
        pub fn dilkortxi_res2039_issues(m: *mut u8, mn: usize, k: *const u8, kn: usize, r: *const u8, rn: usize, n: *const u8, nn: usize, o: *mut u8, on: usize, rounds: u32) -> u32;
        #[rustfmt::skip]
        pub fn dilkortxi_circ523_issues(m: *mut u8, mn: usize, k: *const u8, kn: usize, r: *const u8, rn: usize, n: *const u8, nn: usize, o: *mut u8, on: usize, rounds: u32) -> u32;
    }
}

/// The same protocol in plain Rust.
mod plain {
    use crate::plain_books::{Book, Tape, word};
    use std::slice::{from_raw_parts, from_raw_parts_mut};

    // The digest.

    #[rustfmt::skip]
    const K: [u32; 64] = [
        0x428a2f98, 0x71374491, 0xb5c0fbcf, 0xe9b5dba5, 0x3956c25b, 0x59f111f1, 0x923f82a4, 0xab1c5ed5,
        0xd807aa98, 0x12835b01, 0x243185be, 0x550c7dc3, 0x72be5d74, 0x80deb1fe, 0x9bdc06a7, 0xc19bf174,
        0xe49b69c1, 0xefbe4786, 0x0fc19dc6, 0x240ca1cc, 0x2de92c6f, 0x4a7484aa, 0x5cb0a9dc, 0x76f988da,
        0x983e5152, 0xa831c66d, 0xb00327c8, 0xbf597fc7, 0xc6e00bf3, 0xd5a79147, 0x06ca6351, 0x14292967,
        0x27b70a85, 0x2e1b2138, 0x4d2c6dfc, 0x53380d13, 0x650a7354, 0x766a0abb, 0x81c2c92e, 0x92722c85,
        0xa2bfe8a1, 0xa81a664b, 0xc24b8b70, 0xc76c51a3, 0xd192e819, 0xd6990624, 0xf40e3585, 0x106aa070,
        0x19a4c116, 0x1e376c08, 0x2748774c, 0x34b0bcb5, 0x391c0cb3, 0x4ed8aa4a, 0x5b9cca4f, 0x682e6ff3,
        0x748f82ee, 0x78a5636f, 0x84c87814, 0x8cc70208, 0x90befffa, 0xa4506ceb, 0xbef9a3f7, 0xc67178f2,
    ];

    fn compress(state: &mut [u32; 8], block: &[u8; 64]) {
        let mut w = [0u32; 64];
        for (word, bytes) in w.iter_mut().zip(block.as_chunks().0) {
            *word = u32::from_be_bytes(*bytes);
        }
        for i in 16..64 {
            let s0 = w[i - 15].rotate_right(7) ^ w[i - 15].rotate_right(18) ^ (w[i - 15] >> 3);
            let s1 = w[i - 2].rotate_right(17) ^ w[i - 2].rotate_right(19) ^ (w[i - 2] >> 10);
            w[i] = w[i - 16].wrapping_add(s0).wrapping_add(w[i - 7]).wrapping_add(s1);
        }
        let [mut a, mut b, mut c, mut d, mut e, mut f, mut g, mut h] = *state;
        for i in 0..64 {
            let s1 = e.rotate_right(6) ^ e.rotate_right(11) ^ e.rotate_right(25);
            let choice = (e & f) ^ (!e & g);
            let t1 = h.wrapping_add(s1).wrapping_add(choice).wrapping_add(K[i]).wrapping_add(w[i]);
            let s0 = a.rotate_right(2) ^ a.rotate_right(13) ^ a.rotate_right(22);
            let t2 = s0.wrapping_add((a & b) ^ (a & c) ^ (b & c));
            (h, g, f, e, d, c, b, a) = (g, f, e, d.wrapping_add(t1), c, b, a, t1.wrapping_add(t2));
        }
        for (old, new) in state.iter_mut().zip([a, b, c, d, e, f, g, h]) {
            *old = old.wrapping_add(new);
        }
    }

    pub fn sha256(input: &[u8]) -> [u8; 32] {
        let mut state = [
            0x6a09e667, 0xbb67ae85, 0x3c6ef372, 0xa54ff53a, 0x510e527f, 0x9b05688c, 0x1f83d9ab, 0x5be0cd19,
        ];
        let (blocks, rest) = input.as_chunks();
        for block in blocks {
            compress(&mut state, block);
        }
        let mut last = [0; 128];
        last[..rest.len()].copy_from_slice(rest);
        last[rest.len()] = 0x80;
        let end = if rest.len() < 56 { 64 } else { 128 };
        last[end - 8..end].copy_from_slice(&(8 * input.len() as u64).to_be_bytes());
        for block in last[..end].as_chunks().0 {
            compress(&mut state, block);
        }
        let mut out = [0; 32];
        for (bytes, word) in out.as_chunks_mut().0.iter_mut().zip(state) {
            *bytes = word.to_be_bytes();
        }
        out
    }

    /// Bytes that are put together to be hashed: 135 at most.
    struct Bytes {
        bytes: [u8; 192],
        len: usize,
    }

    impl Bytes {
        fn new() -> Bytes {
            Bytes { bytes: [0; 192], len: 0 }
        }

        fn put(&mut self, part: &[u8]) -> &mut Bytes {
            self.bytes[self.len..self.len + part.len()].copy_from_slice(part);
            self.len += part.len();
            self
        }

        fn code<G: Group>(&mut self, element: G) -> &mut Bytes {
            let mut code = [0; 8];
            element.encode(&mut code);
            self.put(&(G::ELEMENT as u16).to_be_bytes()).put(&code[..G::ELEMENT])
        }

        fn context<G: Group>(&mut self) -> &mut Bytes {
            self.put(b"BBTV4-\x01-").put(G::NAME).put(b"-SHA256")
        }

        fn tagged<G: Group>(&mut self, label: &[u8]) -> [u8; 32] {
            let len = self.len;
            self.put(label).context::<G>();
            let tag = self.len - len;
            self.put(&[tag as u8]).digest()
        }

        fn digest(&self) -> [u8; 32] {
            sha256(&self.bytes[..self.len])
        }
    }

    fn first_word(bytes: [u8; 32]) -> u64 {
        u64::from_be_bytes(bytes[..8].try_into().unwrap())
    }

    // The groups.

    pub trait Group: Copy + PartialEq {
        const KIND: u16;
        const NAME: &'static [u8];
        const ORDER: u32;
        const ELEMENT: usize;
        const SCALAR: usize;
        fn null() -> Self;
        fn generator() -> Self;
        fn sum(self, other: Self) -> Self;
        fn map(n: u64) -> Self;
        fn decode(code: &[u8]) -> Option<Self>;
        fn encode(self, out: &mut [u8]);

        fn multiple(self, s: u32) -> Self {
            let mut r = Self::null();
            for bit in (0..8 * Self::SCALAR).rev() {
                r = r.sum(r);
                if s >> bit & 1 == 1 {
                    r = r.sum(self);
                }
            }
            r
        }
    }

    #[derive(Clone, Copy, PartialEq)]
    pub struct Residue(u32);

    impl Group for Residue {
        const KIND: u16 = 0xe101;
        const NAME: &'static [u8] = b"res2039";
        const ORDER: u32 = 1019;
        const ELEMENT: usize = 2;
        const SCALAR: usize = 2;

        fn null() -> Self {
            Residue(1)
        }

        fn generator() -> Self {
            Residue(4)
        }

        fn sum(self, other: Self) -> Self {
            Residue(self.0 * other.0 % 2039)
        }

        fn map(n: u64) -> Self {
            let w = Residue(1 + (n % 2038) as u32);
            w.sum(w)
        }

        fn decode(code: &[u8]) -> Option<Self> {
            let value = Residue(u16::from_be_bytes(code.try_into().ok()?) as u32);
            (value.0 < 2039 && value.multiple(1019) == Residue(1)).then_some(value)
        }

        fn encode(self, out: &mut [u8]) {
            out[..2].copy_from_slice(&(self.0 as u16).to_be_bytes());
        }
    }

    #[derive(Clone, Copy, PartialEq)]
    pub struct Point(u32, u32);

    const P: u32 = 523;

    fn raised(a: u32, e: u32) -> u32 {
        let (mut r, mut d, mut k) = (1, a, e);
        while k > 0 {
            if k % 2 == 1 {
                r = r * d % P;
            }
            d = d * d % P;
            k /= 2;
        }
        r
    }

    impl Group for Point {
        const KIND: u16 = 0xe102;
        const NAME: &'static [u8] = b"circ523";
        const ORDER: u32 = 131;
        const ELEMENT: usize = 4;
        const SCALAR: usize = 1;

        fn null() -> Self {
            Point(1, 0)
        }

        fn generator() -> Self {
            Point(82, 434)
        }

        fn sum(self, other: Self) -> Self {
            let (Point(x1, y1), Point(x2, y2)) = (self, other);
            Point((x1 * x2 + (P - 1) * (y1 * y2 % P)) % P, (x1 * y2 + x2 * y1) % P)
        }

        fn map(n: u64) -> Self {
            let t = (n % P as u64) as u32;
            let square = t * t % P;
            let u = raised(1 + square, P - 2);
            let point = Point((1 + P - square) % P * u % P, 2 * t * u % P);
            let twice = point.sum(point);
            twice.sum(twice)
        }

        fn decode(code: &[u8]) -> Option<Self> {
            let &[a, b, c, d] = code else { return None };
            let point = Point(u16::from_be_bytes([a, b]) as u32, u16::from_be_bytes([c, d]) as u32);
            let Point(x, y) = point;
            (x < P && y < P && (x * x + y * y) % P == 1 && point.multiple(131) == Point(1, 0)).then_some(point)
        }

        fn encode(self, out: &mut [u8]) {
            out[..2].copy_from_slice(&(self.0 as u16).to_be_bytes());
            out[2..4].copy_from_slice(&(self.1 as u16).to_be_bytes());
        }
    }

    pub fn code<G: Group>(element: G) -> Vec<u8> {
        let mut code = vec![0; G::ELEMENT];
        element.encode(&mut code);
        code
    }

    pub fn scalar_code<G: Group>(s: u32) -> Vec<u8> {
        s.to_be_bytes()[4 - G::SCALAR..].to_vec()
    }

    fn scalar<G: Group>(code: &[u8]) -> Option<u32> {
        let value = code.iter().take(4).fold(0u64, |n, &b| n * 256 + b as u64);
        (code.len() == G::SCALAR && value < G::ORDER as u64).then_some(value as u32)
    }

    fn nonzero<G: Group>(code: &[u8]) -> Option<u32> {
        scalar::<G>(code).filter(|&s| s != 0)
    }

    fn some_element<G: Group>(code: &[u8]) -> Option<G> {
        G::decode(code).filter(|&p| p != G::null())
    }

    fn inverse<G: Group>(s: u32) -> u32 {
        let (mut r, mut d, mut k) = (1, s, G::ORDER - 2);
        while k > 0 {
            if k % 2 == 1 {
                r = r * d % G::ORDER;
            }
            d = d * d % G::ORDER;
            k /= 2;
        }
        r
    }

    // The steps.

    pub fn key_id<G: Group>(key: u32) -> [u8; 32] {
        let mut code = [0; 8];
        G::generator().multiple(key).encode(&mut code);
        sha256(&code[..G::ELEMENT])
    }

    fn hash_to_group<G: Group>(input: &[u8]) -> G {
        G::map(first_word(Bytes::new().put(input).tagged::<G>(b"HashToGroup-")))
    }

    fn hash_to_scalar<G: Group>(bytes: &mut Bytes) -> u32 {
        (first_word(bytes.tagged::<G>(b"HashToScalar-")) % G::ORDER as u64) as u32
    }

    /// The authenticator by the key itself, where the input does not map to the null.
    pub fn direct<G: Group>(key: u32, input: &[u8]) -> Option<[u8; 32]> {
        let mapped = hash_to_group::<G>(input);
        if mapped == G::null() {
            return None;
        }
        let u = mapped.multiple(key);
        Some(Bytes::new().put(&(input.len() as u16).to_be_bytes()).put(input).code(u).put(b"Finalize").digest())
    }

    fn composites<G: Group>(pk: G, sent: &[G], got: &[G]) -> (G, G) {
        let label = (20 + G::NAME.len()) as u16;
        let seed = Bytes::new().code(pk).put(&label.to_be_bytes()).put(b"Seed-").context::<G>().digest();
        let (mut m, mut w) = (G::null(), G::null());
        for (i, (&b, &e)) in sent.iter().zip(got).enumerate() {
            let mut bytes = Bytes::new();
            bytes.put(&[0, 32]).put(&seed).put(&(i as u16).to_be_bytes()).code(b).code(e).put(b"Composite");
            let weight = hash_to_scalar::<G>(&mut bytes);
            m = m.sum(b.multiple(weight));
            w = w.sum(e.multiple(weight));
        }
        (m, w)
    }

    fn challenge<G: Group>(elements: [G; 5]) -> u32 {
        let mut bytes = Bytes::new();
        for element in elements {
            bytes.code(element);
        }
        hash_to_scalar::<G>(bytes.put(b"Challenge"))
    }

    fn prove<G: Group>(key: u32, nonce: u32, sent: &[G], got: &[G]) -> (u32, u32) {
        let pk = G::generator().multiple(key);
        let (m, w) = composites(pk, sent, got);
        let c = challenge([pk, m, w, G::generator().multiple(nonce), m.multiple(nonce)]);
        (c, (nonce + G::ORDER * G::ORDER - c * key) % G::ORDER)
    }

    fn proves<G: Group>(pk: G, sent: &[G], got: &[G], c: u32, s: u32) -> bool {
        let (m, w) = composites(pk, sent, got);
        let t2 = G::generator().multiple(s).sum(pk.multiple(c));
        let t3 = m.multiple(s).sum(w.multiple(c));
        challenge([pk, m, w, t2, t3]) == c
    }

    // The station, with one epoch.

    const EPOCH: u16 = 1;

    fn redeem<'a, G: Group, B: Book<'a>>(key: Option<u32>, book: &mut B, token: &[u8; 132]) -> bool {
        let (kind, epoch) = (word(token, 0), word(token, 2));
        let Some(key) = key.filter(|_| kind == G::KIND && epoch == EPOCH) else { return false };
        token[68..100] == key_id::<G>(key)
            && direct::<G>(key, &token[..100]).is_some_and(|a| token[100..] == a)
            && book.mark(epoch, token[4..36].try_into().unwrap())
    }

    /// The reply at the front of `out`, where the request may be answered.
    fn issue<G: Group>(key: Option<u32>, request: &[u8], nonce: &[u8], out: &mut [u8; 137]) -> Option<()> {
        let (&[k1, k2, e1, e2, n], codes) = request.split_first_chunk()?;
        let whole = (1..=16).contains(&n) && codes.len() == n as usize * G::ELEMENT;
        let mine = u16::from_be_bytes([k1, k2]) == G::KIND && u16::from_be_bytes([e1, e2]) == EPOCH;
        let (key, nonce) = (key.filter(|_| whole && mine)?, nonzero::<G>(nonce)?);
        let (mut sent, mut got) = ([G::null(); 16], [G::null(); 16]);
        for (i, code) in codes.chunks_exact(G::ELEMENT).enumerate() {
            sent[i] = some_element(code)?;
            got[i] = sent[i].multiple(key);
        }
        let n = n as usize;
        let (c, s) = prove(key, nonce, &sent[..n], &got[..n]);
        out[..5].copy_from_slice(&request[..5]);
        let mut at = 5;
        for e in &got[..n] {
            e.encode(&mut out[at..]);
            at += G::ELEMENT;
        }
        for s in [c, s] {
            out[at..at + G::SCALAR].copy_from_slice(&s.to_be_bytes()[4 - G::SCALAR..]);
            at += G::SCALAR;
        }
        Some(())
    }

    // The shop.

    /// The items of a batch: their inputs, blinds and blinded elements.
    struct Items<G> {
        inputs: [[u8; 100]; 16],
        blinds: [u32; 16],
        sent: [G; 16],
    }

    fn items<G: Group>(pk: G, seeds: &[u8], blinds: &[u8]) -> Option<Items<G>> {
        let mut code = [0; 8];
        pk.encode(&mut code);
        let id = sha256(&code[..G::ELEMENT]);
        let mut items = Items { inputs: [[0; 100]; 16], blinds: [0; 16], sent: [G::null(); 16] };
        for (i, (seed, blind)) in seeds.chunks_exact(64).zip(blinds.chunks_exact(G::SCALAR)).enumerate() {
            let input = &mut items.inputs[i];
            input[..2].copy_from_slice(&G::KIND.to_be_bytes());
            input[2..4].copy_from_slice(&EPOCH.to_be_bytes());
            input[4..68].copy_from_slice(seed);
            input[68..].copy_from_slice(&id);
            items.blinds[i] = nonzero::<G>(blind)?;
            let mapped = Some(hash_to_group::<G>(input)).filter(|&p| p != G::null())?;
            items.sent[i] = mapped.multiple(items.blinds[i]);
        }
        Some(items)
    }

    fn count_of(seeds: &[u8]) -> Option<usize> {
        let n = seeds.len() / 64;
        (seeds.len() % 64 == 0 && (1..=16).contains(&n)).then_some(n)
    }

    fn head_bytes<G: Group>(n: usize) -> [u8; 5] {
        let ([k1, k2], [e1, e2]) = (G::KIND.to_be_bytes(), EPOCH.to_be_bytes());
        [k1, k2, e1, e2, n as u8]
    }

    fn blind<G: Group>(pk: &[u8], seeds: &[u8], blinds: &[u8], request: &mut [u8]) -> Option<()> {
        let n = count_of(seeds)?;
        let end = 5 + n * G::ELEMENT;
        if blinds.len() != n * G::SCALAR || request.len() < end {
            return None;
        }
        let items = items::<G>(some_element(pk)?, seeds, blinds)?;
        request[..5].copy_from_slice(&head_bytes::<G>(n));
        for (sent, code) in items.sent[..n].iter().zip(request[5..end].chunks_exact_mut(G::ELEMENT)) {
            sent.encode(code);
        }
        Some(())
    }

    fn finish<G: Group>(pk: &[u8], seeds: &[u8], blinds: &[u8], reply: &[u8], tokens: &mut [u8]) -> Option<()> {
        let n = count_of(seeds)?;
        let end = 5 + n * G::ELEMENT;
        let whole = reply.len() == end + 2 * G::SCALAR && reply[..5] == head_bytes::<G>(n);
        if !whole || tokens.len() < 132 * n {
            return None;
        }
        let pk = some_element::<G>(pk)?;
        let items = items(pk, seeds, blinds)?;
        let mut got = [G::null(); 16];
        for (e, code) in got.iter_mut().zip(reply[5..end].chunks_exact(G::ELEMENT)) {
            *e = some_element(code)?;
        }
        let (c, s) = (scalar::<G>(&reply[end..end + G::SCALAR])?, scalar::<G>(&reply[end + G::SCALAR..])?);
        if !proves(pk, &items.sent[..n], &got[..n], c, s) {
            return None;
        }
        for (i, token) in tokens.chunks_exact_mut(132).take(n).enumerate() {
            let u = got[i].multiple(inverse::<G>(items.blinds[i]));
            token[..100].copy_from_slice(&items.inputs[i]);
            let told = Bytes::new().put(&[0, 100]).put(&items.inputs[i]).code(u).put(b"Finalize").digest();
            token[100..].copy_from_slice(&told);
        }
        Some(())
    }

    pub unsafe extern "C" fn batches<G: Group>(
        pk: *const u8,
        pk_len: usize,
        seeds: *const u8,
        seeds_len: usize,
        blinds: *const u8,
        blinds_len: usize,
        reply: *const u8,
        reply_len: usize,
        request: *mut u8,
        request_len: usize,
        tokens: *mut u8,
        tokens_len: usize,
        rounds: u32,
    ) -> u32 {
        let (pk, seeds) = unsafe { (from_raw_parts(pk, pk_len), from_raw_parts(seeds, seeds_len)) };
        let (blinds, reply) = unsafe { (from_raw_parts(blinds, blinds_len), from_raw_parts(reply, reply_len)) };
        let (request, tokens) =
            unsafe { (from_raw_parts_mut(request, request_len), from_raw_parts_mut(tokens, tokens_len)) };
        let mut done = 0;
        for _ in 0..rounds {
            let sent = blind::<G>(pk, seeds, blinds, request);
            done += sent.and_then(|_| finish::<G>(pk, seeds, blinds, reply, tokens)).is_some() as u32;
        }
        done
    }

    pub unsafe extern "C" fn redemptions<'a, G: Group, B: Book<'a>>(
        memory: *mut u8,
        memory_len: usize,
        key: *const u8,
        key_len: usize,
        tokens: *const u8,
        tokens_len: usize,
        rounds: u32,
    ) -> u32 {
        let memory = unsafe { from_raw_parts_mut(memory, memory_len) };
        let (key, tokens) = unsafe { (from_raw_parts(key, key_len), from_raw_parts(tokens, tokens_len)) };
        let Some(mut book) = B::over(memory) else { return 0 };
        let key = nonzero::<G>(key);
        let mut accepted = 0;
        for _ in 0..rounds {
            for token in tokens.as_chunks().0 {
                accepted += redeem::<G, B>(key, &mut book, token) as u32;
            }
        }
        accepted
    }

    pub unsafe extern "C" fn issues<G: Group>(
        memory: *mut u8,
        memory_len: usize,
        key: *const u8,
        key_len: usize,
        request: *const u8,
        request_len: usize,
        nonce: *const u8,
        nonce_len: usize,
        out: *mut u8,
        out_len: usize,
        rounds: u32,
    ) -> u32 {
        let memory = unsafe { from_raw_parts_mut(memory, memory_len) };
        let (key, request) = unsafe { (from_raw_parts(key, key_len), from_raw_parts(request, request_len)) };
        let (nonce, out) = unsafe { (from_raw_parts(nonce, nonce_len), from_raw_parts_mut(out, out_len)) };
        if Tape::over(memory).is_none() || out.len() < 137 {
            return 0;
        }
        let key = nonzero::<G>(key);
        let mut reply = [0; 137];
        // what an opening writes there
        if let Some(key) = key {
            G::generator().multiple(key).encode(&mut reply);
        }
        let mut accepted = 0;
        for _ in 0..rounds {
            accepted += issue::<G>(key, request, nonce, &mut reply).is_some() as u32;
        }
        out[..137].copy_from_slice(&reply);
        accepted
    }
}

use plain::{Group, Point, Residue};
use plain_books::{Chained, Tape};

/// Numbers that look random, the same in every run.
struct Chance(u64);

impl Chance {
    fn byte(&mut self) -> u8 {
        self.0 = self.0.wrapping_mul(6364136223846793005).wrapping_add(1442695040888963407);
        (self.0 >> 56) as u8
    }

    fn below(&mut self, n: usize) -> usize {
        (0..4).fold(0, |x, _| x * 256 + self.byte() as usize) % n
    }

    fn bytes(&mut self, n: usize) -> Vec<u8> {
        (0..n).map(|_| self.byte()).collect()
    }
}

/// A token under a key, good unless its input maps to the null.
fn token<G: Group>(key: u32, chance: &mut Chance) -> Vec<u8> {
    let mut token = [&G::KIND.to_be_bytes()[..], &[0, 1], &chance.bytes(64), &plain::key_id::<G>(key)].concat();
    let told = plain::direct::<G>(key, &token).unwrap_or([0; 32]);
    token.extend_from_slice(&told);
    token
}

fn good_token<G: Group>(key: u32, chance: &mut Chance) -> Vec<u8> {
    loop {
        let token = token::<G>(key, chance);
        if plain::direct::<G>(key, &token[..100]).is_some() {
            return token;
        }
    }
}

fn request<G: Group>(n: usize, chance: &mut Chance) -> Vec<u8> {
    let mut request = [&G::KIND.to_be_bytes()[..], &[0, 1, n as u8]].concat();
    for _ in 0..n {
        let s = 1 + chance.below(G::ORDER as usize - 1);
        request.extend_from_slice(&plain::code(G::generator().multiple(s as u32)));
    }
    request
}

fn run_redeem(call: Redeem, memory: &mut [u8], key: &[u8], tokens: &[u8], rounds: u32) -> u32 {
    let (m, k, t) = (memory, key, tokens);
    unsafe { call(m.as_mut_ptr(), m.len(), k.as_ptr(), k.len(), t.as_ptr(), t.len(), rounds) }
}

fn run_issue(call: Issue, key: &[u8], request: &[u8], nonce: &[u8], out: &mut [u8], rounds: u32) -> u32 {
    let (mut m, k, r, n, o) = ([0; 36], key, request, nonce, out);
    #[rustfmt::skip]
    let accepted = unsafe {
        call(m.as_mut_ptr(), m.len(), k.as_ptr(), k.len(), r.as_ptr(), r.len(), n.as_ptr(), n.len(), o.as_mut_ptr(), o.len(), rounds)
    };
    accepted
}

/// What a shop has of a batch of n items, and an honest station's reply to it.
struct Order {
    pk: Vec<u8>,
    seeds: Vec<u8>,
    blinds: Vec<u8>,
    reply: Vec<u8>,
}

fn order<G: Group>(key: u32, n: usize, chance: &mut Chance) -> Order {
    loop {
        let pk = plain::code(G::generator().multiple(key));
        let seeds = chance.bytes(64 * n);
        let blinds = (0..n).flat_map(|_| plain::scalar_code::<G>(1 + chance.below(G::ORDER as usize - 1) as u32)).collect();
        let mut order = Order { pk, seeds, blinds, reply: Vec::new() };
        let (mut request, mut out) = (vec![0; 5 + n * G::ELEMENT], [0; 137]);
        run_batches(plain::batches::<G>, &order, &mut request, &mut [], 1);
        let (code, nonce) = (plain::scalar_code::<G>(key), plain::scalar_code::<G>(1 + chance.below(100) as u32));
        // an input that maps to the null is blinded by nobody
        if run_issue(plain::issues::<G>, &code, &request, &nonce, &mut out, 1) == 1 {
            order.reply = out[..5 + n * G::ELEMENT + 2 * G::SCALAR].to_vec();
            return order;
        }
    }
}

fn run_batches(call: Batches, order: &Order, request: &mut [u8], tokens: &mut [u8], rounds: u32) -> u32 {
    let (p, s, b, r) = (&order.pk, &order.seeds, &order.blinds, &order.reply);
    #[rustfmt::skip]
    let done = unsafe {
        call(p.as_ptr(), p.len(), s.as_ptr(), s.len(), b.as_ptr(), b.len(), r.as_ptr(), r.len(),
            request.as_mut_ptr(), request.len(), tokens.as_mut_ptr(), tokens.len(), rounds)
    };
    done
}

/// Batches of every length, with replies that were altered, wrong blinds and short outlets among them.
fn compare_batches<G: Group>(part: Batches, group: &str) -> usize {
    let mut finished = 0;
    for case in 0..600 {
        let mut chance = Chance(case + 20_000);
        let key = 1 + chance.below(G::ORDER as usize - 1) as u32;
        let n = 1 + case as usize % 16;
        let mut order = order::<G>(key, n, &mut chance);
        match case % 8 {
            3 => {
                let at = chance.below(order.reply.len());
                order.reply[at] ^= 1 << chance.below(8);
            }
            4 => order.blinds[..G::SCALAR].fill([0, 0xff][case as usize / 8 % 2]),
            5 => drop(order.seeds.pop()),
            6 => order.pk = [plain::code(G::null()), vec![0xff; G::ELEMENT]][case as usize / 8 % 2].clone(),
            _ => {}
        }
        let (short, few) = ([0, 1][(case % 9 == 8) as usize], [0, 1][(case % 10 == 9) as usize]);
        let [a, b] = [part, plain::batches::<G>].map(|call| {
            let mut request = vec![0xee; 8 + n * G::ELEMENT - 4 * short];
            let mut tokens = vec![0xee; 132 * n + 5 - 6 * few];
            (run_batches(call, &order, &mut request, &mut tokens, 1 + case as u32 % 2), request, tokens)
        });
        assert_eq!(a, b, "{group}, case {case}");
        finished += (a.0 > 0) as usize;
    }
    assert!(finished > 200, "{group}: only {finished} batches were finished");
    600
}

/// One kind of book: the calls of both sides, and how long memory is that has room for so many records.
struct Pace {
    group: &'static str,
    book: &'static str,
    part: Redeem,
    plain: Redeem,
    before: usize,
    record: usize,
}

fn paces<G: Group>(group: &'static str, part: [Redeem; 2]) -> [Pace; 2] {
    [
        Pace { group, book: "chained", part: part[0], plain: plain::redemptions::<G, Chained>, before: 132, record: 36 },
        Pace { group, book: "tape", part: part[1], plain: plain::redemptions::<G, Tape>, before: 2, record: 34 },
    ]
}

/// Rows of tokens with forged, foreign and repeated ones among them, over books of many sizes.
fn compare_redemptions<G: Group>(paces: &[Pace; 2]) -> usize {
    for case in 0..300 {
        let mut chance = Chance(case);
        let key = 1 + chance.below(G::ORDER as usize - 1) as u32;
        let mut tokens = Vec::new();
        for i in 0..chance.below(60) {
            let mut token = token::<G>(if i % 11 == 10 { 1 } else { key }, &mut chance);
            if chance.below(3) == 0 {
                let at = chance.below(132);
                token[at] ^= 1 << chance.below(8);
            }
            if chance.below(6) == 0 && !tokens.is_empty() {
                token = tokens[..132].to_vec();
            }
            tokens.extend_from_slice(&token);
        }
        let spare = chance.below(132);
        tokens.extend_from_slice(&chance.bytes(spare));
        let mut code = plain::scalar_code::<G>(if case % 20 == 19 { 0 } else { key });
        if case % 20 == 18 {
            code.push(0);
        }
        for pace in paces {
            let len = pace.before + pace.record * [0, 1, 7, 64][case as usize % 4] + chance.below(pace.record);
            let [a, b] = [pace.part, pace.plain].map(|call| {
                let mut memory = vec![0xee; len];
                (run_redeem(call, &mut memory, &code, &tokens, 1 + case as u32 % 3), memory)
            });
            assert_eq!(a, b, "{} {}, case {case}", pace.group, pace.book);
        }
    }
    600
}

/// Requests of every length, with items that are null or no element among them.
fn compare_issues<G: Group>(part: Issue, group: &str) -> usize {
    for case in 0..600 {
        let mut chance = Chance(case + 10_000);
        let key = 1 + chance.below(G::ORDER as usize - 1) as u32;
        let mut asked = request::<G>(1 + case as usize % 16, &mut chance);
        match case % 5 {
            3 => {
                let at = chance.below(asked.len());
                asked[at] ^= 1 << chance.below(8);
            }
            4 => asked.truncate(chance.below(asked.len())),
            _ => {}
        }
        if case % 7 == 6 && asked.len() >= 5 + G::ELEMENT {
            asked[5..5 + G::ELEMENT].copy_from_slice(&plain::code(G::null()));
        }
        let nonce = plain::scalar_code::<G>(chance.below(G::ORDER as usize + 2) as u32);
        let code = plain::scalar_code::<G>(key);
        let [a, b] = [part, plain::issues::<G>].map(|call| {
            let mut out = vec![0xee; 137 + case as usize % 3];
            (run_issue(call, &code, &asked, &nonce, &mut out, 1 + case as u32 % 2), out)
        });
        assert_eq!(a, b, "{group}, case {case}");
    }
    600
}

const TURNS: usize = 9;

/// How long one turn of a side shall take.
const TURN: f64 = 0.02;

/// Rounds a second of both sides: the best of several turns, taken in alternation.
fn rates<C: Copy>(sides: [C; 2], carry_out: impl Fn(C, u32)) -> [f64; 2] {
    let time = |side, rounds| {
        let start = seconds();
        carry_out(black_box(side), rounds);
        seconds() - start
    };
    let rounds = sides.map(|side| {
        let mut rounds = 1;
        while time(side, rounds) < TURN {
            rounds *= 2;
        }
        rounds
    });
    let mut best = [0f64; 2];
    for _ in 0..TURNS {
        for ((best, side), rounds) in best.iter_mut().zip(sides).zip(rounds) {
            *best = best.max(rounds as f64 / time(side, rounds));
        }
    }
    best
}

fn time_redemptions<G: Group>(pace: &Pace, spent: usize) {
    let mut chance = Chance(7);
    let (key, code) = (77, plain::scalar_code::<G>(77));
    let tokens: Vec<u8> = (0..spent).flat_map(|_| good_token::<G>(key, &mut chance)).collect();
    let [part, plain] = rates([pace.part, pace.plain], |call, rounds| {
        let mut memory = vec![0; pace.before + pace.record * spent];
        assert_eq!(run_redeem(call, &mut memory, &code, &tokens, rounds), spent as u32);
    });
    let (part, plain) = (part * spent as f64, plain * spent as f64);
    println!("| {} | {} | {spent} | {:.0} | {:.0} | {:.2} |", pace.group, pace.book, part / 1e3, plain / 1e3, part / plain);
}

fn time_issues<G: Group>(group: &str, part: Issue, n: usize) {
    let mut chance = Chance(8);
    let (code, nonce) = (plain::scalar_code::<G>(77), plain::scalar_code::<G>(55));
    let asked = request::<G>(n, &mut chance);
    let [part, plain] = rates([part, plain::issues::<G>], |call, rounds| {
        let mut out = [0; 137];
        assert_eq!(run_issue(call, &code, &asked, &nonce, &mut out, rounds), rounds);
    });
    println!("| {group} | {n} | {:.1} | {:.1} | {:.2} |", part / 1e3, plain / 1e3, part / plain);
}

fn time_batches<G: Group>(group: &str, part: Batches, n: usize) {
    let order = order::<G>(77, n, &mut Chance(9));
    let [part, plain] = rates([part, plain::batches::<G>], |call, rounds| {
        let (mut request, mut tokens) = ([0; 133], [0; 132 * 16]);
        assert_eq!(run_batches(call, &order, &mut request, &mut tokens, rounds), rounds);
    });
    println!("| {group} | {n} | {:.1} | {:.1} | {:.2} |", part / 1e3, plain / 1e3, part / plain);
}

fn main() {
    let residues = paces::<Residue>("res2039", [part::dilkortxi_res2039_chained_redemptions, part::dilkortxi_res2039_tape_redemptions]);
    let points = paces::<Point>("circ523", [part::dilkortxi_circ523_chained_redemptions, part::dilkortxi_circ523_tape_redemptions]);
    let stations = compare_redemptions::<Residue>(&residues) + compare_redemptions::<Point>(&points);
    let issues = compare_issues::<Residue>(part::dilkortxi_res2039_issues, "res2039")
        + compare_issues::<Point>(part::dilkortxi_circ523_issues, "circ523");
    let batches = compare_batches::<Residue>(part::dilkortxi_res2039_batches, "res2039")
        + compare_batches::<Point>(part::dilkortxi_circ523_batches, "circ523");
    print!("{stations} stations redeem as those of plain Rust do, and leave the same book; {issues} replies are the same; ");
    println!("{batches} batches have the same request and the same tokens.\n");
    println!("Thousands of redemptions a second:\n");
    println!("| Group | Book | Spent | Dilkortxi | plain Rust | ratio |");
    println!("|---|---|---|---|---|---|");
    for spent in [1, 32, 256, 1024] {
        residues.iter().for_each(|pace| time_redemptions::<Residue>(pace, spent));
        points.iter().for_each(|pace| time_redemptions::<Point>(pace, spent));
    }
    println!("\nThousands of replies a second:\n");
    println!("| Group | Items | Dilkortxi | plain Rust | ratio |");
    println!("|---|---|---|---|---|");
    for n in [1, 16] {
        time_issues::<Residue>("res2039", part::dilkortxi_res2039_issues, n);
        time_issues::<Point>("circ523", part::dilkortxi_circ523_issues, n);
    }
    println!("\nThousands of batches a second, each blinded and finished:\n");
    println!("| Group | Items | Dilkortxi | plain Rust | ratio |");
    println!("|---|---|---|---|---|");
    for n in [1, 16] {
        time_batches::<Residue>("res2039", part::dilkortxi_res2039_batches, n);
        time_batches::<Point>("circ523", part::dilkortxi_circ523_batches, n);
    }
}
