"""The spent books: what they mean, and the bytes that each kind leaves in its memory.

`Meaning` is the set alone. A kind keeps its own records beside it and tells the whole image of its memory;
that the records and the set agree is checked after every call.
"""

from .faults import FULL, SPENT, WRONG_LENGTH, check
from .steps import i2

LARGEST = 1024


class Meaning:
    """A set of pairs (epoch, nonce) of at most `capacity` members."""

    def __init__(self, capacity):
        self.capacity = capacity
        self.pairs = set()

    def clear(self):
        self.pairs = set()

    def has(self, epoch, nonce):
        return (epoch, nonce) in self.pairs

    def mark(self, epoch, nonce):
        check((epoch, nonce) not in self.pairs, SPENT)
        check(len(self.pairs) < self.capacity, FULL)
        self.pairs.add((epoch, nonce))

    def drop(self, epoch):
        kept = {pair for pair in self.pairs if pair[0] != epoch}
        dropped = len(self.pairs) - len(kept)
        self.pairs = kept
        return dropped

    @property
    def size(self):
        return len(self.pairs)


class Book(Meaning):
    """A book over handed-in memory. A kind gives its widths, its records and their image."""

    front = 0
    record = 0

    def __init__(self, memory):
        check(len(memory) >= self.front + self.record, WRONG_LENGTH)
        super().__init__(min((len(memory) - self.front) // self.record, LARGEST))
        self.later = memory[self.front + self.capacity * self.record :]
        self.clear()

    def clear(self):
        super().clear()
        self.clear_records()

    def mark(self, epoch, nonce):
        super().mark(epoch, nonce)
        self.mark_record(epoch, nonce)
        self.agree()

    def drop(self, epoch):
        dropped = super().drop(epoch)
        if self.drop_records(epoch) != dropped:
            raise AssertionError("the records and the set drop unlike numbers")
        self.agree()
        return dropped

    def agree(self):
        held = self.held()
        if len(held) != self.size or set(held) != self.pairs:
            raise AssertionError("the records are not the set")

    @property
    def image(self):
        """All the memory, with the later bytes that no call touches."""
        return self.records_image() + self.later


class Tape(Book):
    """The size (2), then epoch (2) and nonce (32) in marking order, then zeros."""

    front = 2
    record = 34

    def clear_records(self):
        self.entries = []

    def mark_record(self, epoch, nonce):
        self.entries.append((epoch, nonce))

    def drop_records(self, epoch):
        before = len(self.entries)
        self.entries = [entry for entry in self.entries if entry[0] != epoch]
        return before - len(self.entries)

    def held(self):
        return self.entries

    def records_image(self):
        used = b"".join(i2(epoch) + nonce for epoch, nonce in self.entries)
        return i2(self.size) + used + bytes(self.record * (self.capacity - self.size))


class Chained(Book):
    """64 heads (2), the free head (2), the size (2), then records of next (2), epoch (2), nonce (32)."""

    front = 132
    record = 36

    def clear_records(self):
        """No chain has a record; the free ones are chained 1, 2, .. in order."""
        self.chains = [[] for _ in range(64)]
        self.free = list(range(1, self.capacity + 1))
        self.written = {}

    def mark_record(self, epoch, nonce):
        """The first free record goes to the front of its chain."""
        number = self.free.pop(0)
        self.written[number] = (epoch, nonce)
        self.chains[nonce[31] % 64].insert(0, number)

    def drop_records(self, epoch):
        """Chains 0 to 63 from the front; each removed record goes to the front of the free chain."""
        dropped = 0
        for chain in self.chains:
            for number in list(chain):
                if self.written[number][0] == epoch:
                    chain.remove(number)
                    del self.written[number]
                    self.free.insert(0, number)
                    dropped += 1
        return dropped

    def held(self):
        return [self.written[number] for chain in self.chains for number in chain]

    def records_image(self):
        following = {}
        for chain in self.chains + [self.free]:
            for number, after in zip(chain, chain[1:] + [0]):
                following[number] = after
        heads = b"".join(i2(chain[0] if chain else 0) for chain in self.chains)
        front = heads + i2(self.free[0] if self.free else 0) + i2(self.size)
        records = []
        for number in range(1, self.capacity + 1):
            epoch, nonce = self.written.get(number, (0, bytes(32)))
            records.append(i2(following[number]) + i2(epoch) + nonce)
        return front + b"".join(records)


BOOKS = {"chained": Chained, "tape": Tape}
