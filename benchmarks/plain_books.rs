//! Both layouts of a spent book in plain Rust, which the benchmarks time the part beside.

pub type Nonce = [u8; 32];

pub trait Book<'a>: Sized {
    fn over(memory: &'a mut [u8]) -> Option<Self>;
    fn has(&self, epoch: u16, nonce: &Nonce) -> bool;
    /// Whether the pair was added.
    fn mark(&mut self, epoch: u16, nonce: &Nonce) -> bool;
}

pub fn word(m: &[u8], at: usize) -> u16 {
    u16::from_be_bytes([m[at], m[at + 1]])
}

fn put_word(m: &mut [u8], at: usize, x: u16) {
    m[at..at + 2].copy_from_slice(&x.to_be_bytes());
}

pub fn room(len: usize, before: usize, record: usize) -> Option<u16> {
    let fit = len.checked_sub(before)? / record;
    (fit > 0).then_some(fit.min(1024) as u16)
}

pub struct Tape<'a> {
    memory: &'a mut [u8],
    capacity: u16,
}

impl<'a> Book<'a> for Tape<'a> {
    fn over(memory: &'a mut [u8]) -> Option<Self> {
        let capacity = room(memory.len(), 2, 34)?;
        memory[..2 + 34 * capacity as usize].fill(0);
        Some(Tape { memory, capacity })
    }

    fn has(&self, epoch: u16, nonce: &Nonce) -> bool {
        let size = word(self.memory, 0) as usize;
        self.memory[2..2 + 34 * size].chunks_exact(34).any(|record| word(record, 0) == epoch && &record[2..] == nonce)
    }

    fn mark(&mut self, epoch: u16, nonce: &Nonce) -> bool {
        let size = word(self.memory, 0);
        if self.has(epoch, nonce) || size == self.capacity {
            return false;
        }
        let at = 2 + 34 * size as usize;
        put_word(self.memory, at, epoch);
        self.memory[at + 2..at + 34].copy_from_slice(nonce);
        put_word(self.memory, 0, size + 1);
        true
    }
}

pub struct Chained<'a> {
    memory: &'a mut [u8],
    capacity: u16,
}

const FREE: usize = 128;
const SIZE: usize = 130;

fn head(nonce: &Nonce) -> usize {
    2 * (nonce[31] % 64) as usize
}

fn start(number: u16) -> usize {
    132 + 36 * (number as usize - 1)
}

impl<'a> Book<'a> for Chained<'a> {
    fn over(memory: &'a mut [u8]) -> Option<Self> {
        let capacity = room(memory.len(), 132, 36)?;
        memory[..132 + 36 * capacity as usize].fill(0);
        put_word(memory, FREE, 1);
        for number in 1..capacity {
            put_word(memory, start(number), number + 1);
        }
        Some(Chained { memory, capacity })
    }

    fn has(&self, epoch: u16, nonce: &Nonce) -> bool {
        let mut number = word(self.memory, head(nonce));
        while number != 0 {
            let at = start(number);
            if word(self.memory, at + 2) == epoch && &self.memory[at + 4..at + 36] == nonce {
                return true;
            }
            number = word(self.memory, at);
        }
        false
    }

    fn mark(&mut self, epoch: u16, nonce: &Nonce) -> bool {
        let size = word(self.memory, SIZE);
        if self.has(epoch, nonce) || size == self.capacity {
            return false;
        }
        let number = word(self.memory, FREE);
        let at = start(number);
        let free = word(self.memory, at);
        let first = word(self.memory, head(nonce));
        put_word(self.memory, at, first);
        put_word(self.memory, at + 2, epoch);
        self.memory[at + 4..at + 36].copy_from_slice(nonce);
        put_word(self.memory, FREE, free);
        put_word(self.memory, head(nonce), number);
        put_word(self.memory, SIZE, size + 1);
        true
    }
}
