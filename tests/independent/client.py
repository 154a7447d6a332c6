"""The client: blinds a batch, finishes it with the station's reply, or abandons it.

Lengths of the scratch and of the outlet are handed in as numbers. A call answers the bytes that stand at the
front of the outlet; the rest of the outlet stays, and after a fault all of it, which is for the caller to see.
"""

from . import steps
from .faults import (
    Fault,
    SHORT_OUTLET,
    SHORT_SCRATCH,
    WRONG_COUNT,
    WRONG_EPOCH,
    WRONG_LENGTH,
    WRONG_TYPE,
    check,
)
from .messages import (
    LARGEST_BATCH,
    SEED,
    TOKEN,
    parts,
    read_head,
    reply_length,
    request_length,
    token_input,
    write_request,
)

SCRATCH = 1024


class Pending:
    """A batch that waits for its reply: it must be ended by an accepted finish or by abandon."""

    def __init__(self, epoch, n):
        self.epoch = epoch
        self.n = n

    def abandon(self):
        return self.epoch, self.n


def item_input(group, epoch, seed, pk):
    return token_input(group, epoch, seed[:32], seed[32:], pk)


def blind(group, scratch, epoch, pk_code, seeds, blinds, outlet):
    """The request, and the pending batch."""
    check(scratch >= SCRATCH, SHORT_SCRATCH)
    check(epoch != 0, WRONG_EPOCH)
    check(len(pk_code) == group.element_width and len(seeds) % SEED == 0, WRONG_LENGTH)
    n = len(seeds) // SEED
    check(1 <= n <= LARGEST_BATCH, WRONG_COUNT)
    check(len(blinds) == n * group.scalar_width, WRONG_LENGTH)
    pk = group.decode_some(pk_code)
    check(outlet >= request_length(group, n), SHORT_OUTLET)
    items = []
    for i, (seed, code) in enumerate(zip(parts(seeds, SEED), parts(blinds, group.scalar_width)), 1):
        try:
            r = group.decode_nonzero(code)
            mapped = steps.mapped_input(group, item_input(group, epoch, seed, pk))
        except Fault as fault:
            raise fault.at(i) from None
        items.append(steps.blinded(group, mapped, r))
    return write_request(group, epoch, items), Pending(epoch, n)


def finish(group, scratch, batch, pk_code, seeds, blinds, reply, outlet):
    """The tokens; a refused finish leaves the batch pending."""
    n = batch.n
    check(scratch >= SCRATCH, SHORT_SCRATCH)
    check(len(pk_code) == group.element_width, WRONG_LENGTH)
    check(len(seeds) == n * SEED, WRONG_LENGTH)
    check(len(blinds) == n * group.scalar_width, WRONG_LENGTH)
    check(len(reply) == reply_length(group, n), WRONG_LENGTH)
    kind, epoch, count, rest = read_head(reply)
    check(kind == group.type, WRONG_TYPE)
    check(epoch == batch.epoch, WRONG_EPOCH)
    check(count == n, WRONG_COUNT)
    pk = group.decode_some(pk_code)
    check(outlet >= n * TOKEN, SHORT_OUTLET)
    codes, proof = rest[: n * group.element_width], rest[n * group.element_width :]
    inputs, items, answers, unblinded = [], [], [], []
    lines = zip(parts(seeds, SEED), parts(blinds, group.scalar_width), parts(codes, group.element_width))
    for i, (seed, blind_code, code) in enumerate(lines, 1):
        try:
            r = group.decode_nonzero(blind_code)
            message = item_input(group, batch.epoch, seed, pk)
            mapped = steps.mapped_input(group, message)
            answer = group.decode_some(code)
        except Fault as fault:
            raise fault.at(i) from None
        inputs.append(message)
        items.append(steps.blinded(group, mapped, r))
        answers.append(answer)
        unblinded.append(steps.unblinded(group, r, answer))
    c, s = (group.decode_scalar(code) for code in parts(proof, group.scalar_width))
    steps.check_proof(group, pk, items, answers, c, s)
    return b"".join(m + steps.authenticator(group, m, u) for m, u in zip(inputs, unblinded))
