"""The station: opens and closes epochs, issues replies, redeems tokens once, counts."""

from . import steps
from .client import SCRATCH
from .faults import (
    FORGED,
    Fault,
    OLD_EPOCH,
    OTHER_KEY,
    RING_FULL,
    SHORT_OUTLET,
    SHORT_SCRATCH,
    WRONG_COUNT,
    WRONG_EPOCH,
    WRONG_LENGTH,
    WRONG_TYPE,
    check,
)
from .messages import (
    HEAD,
    LARGEST_BATCH,
    TOKEN,
    parts,
    read_head,
    read_token,
    reply_length,
    request_length,
    write_reply,
)

RING = 4


class Station:
    """A station over a book, which it clears."""

    def __init__(self, group, book):
        book.clear()
        self.group = group
        self.book = book
        self.keys = {}  # of the open epochs
        self.highest = 0  # of all epochs opened so far

    def open(self, scratch, epoch, key_code, outlet):
        """The code of the epoch's public key."""
        group = self.group
        check(scratch >= SCRATCH, SHORT_SCRATCH)
        check(len(key_code) == group.scalar_width, WRONG_LENGTH)
        key = group.decode_nonzero(key_code)
        check(epoch > self.highest, OLD_EPOCH)
        check(len(self.keys) < RING, RING_FULL)
        check(outlet >= group.element_width, SHORT_OUTLET)
        self.keys[epoch] = key
        self.highest = epoch
        return group.encode(steps.public_key(group, key))

    def close(self, epoch):
        """How many pairs of the epoch were dropped."""
        check(epoch in self.keys, WRONG_EPOCH)
        del self.keys[epoch]
        return self.book.drop(epoch)

    def issue(self, scratch, request, nonce_code, outlet):
        """The reply."""
        group = self.group
        check(scratch >= SCRATCH, SHORT_SCRATCH)
        check(len(request) >= HEAD, WRONG_LENGTH)
        kind, epoch, n, rest = read_head(request)
        check(kind == group.type, WRONG_TYPE)
        check(1 <= n <= LARGEST_BATCH, WRONG_COUNT)
        check(len(request) == request_length(group, n), WRONG_LENGTH)
        check(epoch in self.keys, WRONG_EPOCH)
        check(len(nonce_code) == group.scalar_width, WRONG_LENGTH)
        nonce = group.decode_nonzero(nonce_code)
        check(outlet >= reply_length(group, n), SHORT_OUTLET)
        key = self.keys[epoch]
        items = []
        for i, code in enumerate(parts(rest, group.element_width), 1):
            try:
                items.append(group.decode_some(code))
            except Fault as fault:
                raise fault.at(i) from None
        answers = [steps.answered(group, key, item) for item in items]
        return write_reply(group, epoch, answers, *steps.proof(group, key, nonce, items, answers))

    def redeem(self, scratch, token):
        """Marks the token's pair as spent."""
        group = self.group
        check(scratch >= SCRATCH, SHORT_SCRATCH)
        check(len(token) == TOKEN, WRONG_LENGTH)
        kind, epoch, nonce, key_id, message, told = read_token(token)
        check(kind == group.type, WRONG_TYPE)
        check(epoch in self.keys, WRONG_EPOCH)
        key = self.keys[epoch]
        check(key_id == steps.key_id(group, steps.public_key(group, key)), OTHER_KEY)
        check(told == steps.direct(group, key, message), FORGED)
        self.book.mark(epoch, nonce)

    def count(self):
        return self.book.size
