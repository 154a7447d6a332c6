"""The blind steps: what blind, issue, finish and redeem reckon, over any group."""

from hashlib import sha256

from .faults import BAD_PROOF, NULL_INPUT, check
from .groups import big_endian


def digest(data):
    return sha256(data).digest()


def i2(number):
    return big_endian(number, 2)


def context(group):
    return b"BBTV4-" + b"\x01" + b"-" + group.name + b"-SHA256"


def prefixed(group, element):
    """L(P): the width of a code, then the code."""
    return i2(group.element_width) + group.encode(element)


def labelled(group, label, message):
    label = label + context(group)
    return digest(message + label + bytes([len(label)]))


def hash_to_scalar(group, message):
    return group.reduce(labelled(group, b"HashToScalar-", message))


def hash_to_group(group, message):
    return group.map(labelled(group, b"HashToGroup-", message))


def mapped_input(group, message):
    """HashToGroup of an input, which may not be the null: fault 10."""
    element = hash_to_group(group, message)
    check(element != group.null, NULL_INPUT)
    return element


def public_key(group, key):
    return group.base(key)


def key_id(group, pk):
    return digest(group.encode(pk))


def blinded(group, mapped, blind):
    return group.multiple(blind, mapped)


def answered(group, key, item):
    return group.multiple(key, item)


def unblinded(group, blind, answer):
    return group.multiple(group.inverse(blind), answer)


def authenticator(group, message, unblinded_answer):
    return digest(i2(len(message)) + message + prefixed(group, unblinded_answer) + b"Finalize")


def direct(group, key, message):
    """What the holder of the key reckons alone, without a blind."""
    return authenticator(group, message, group.multiple(key, mapped_input(group, message)))


def weights(group, pk, items, answers):
    label = b"Seed-" + context(group)
    seed = digest(prefixed(group, pk) + i2(len(label)) + label)
    return [
        hash_to_scalar(
            group,
            i2(32) + seed + i2(i) + prefixed(group, item) + prefixed(group, answer) + b"Composite",
        )
        for i, (item, answer) in enumerate(zip(items, answers))
    ]


def weighted_sum(group, scalars, elements):
    total = group.null
    for scalar, element in zip(scalars, elements):
        total = group.sum(total, group.multiple(scalar, element))
    return total


def composites(group, pk, items, answers):
    """M and W: the items and the answers, each weighted and summed."""
    scalars = weights(group, pk, items, answers)
    return weighted_sum(group, scalars, items), weighted_sum(group, scalars, answers)


def challenge(group, *elements):
    return hash_to_scalar(group, b"".join(prefixed(group, e) for e in elements) + b"Challenge")


def proof(group, key, nonce, items, answers):
    """(c, s): one key made all the answers."""
    pk = public_key(group, key)
    m, w = composites(group, pk, items, answers)
    c = challenge(group, pk, m, w, group.base(nonce), group.multiple(nonce, m))
    return c, (nonce - c * key) % group.order


def check_proof(group, pk, items, answers, c, s):
    """Refuses a proof that does not fit: fault 11."""
    m, w = composites(group, pk, items, answers)
    t2 = group.sum(group.base(s), group.multiple(c, pk))
    t3 = group.sum(group.multiple(s, m), group.multiple(c, w))
    check(challenge(group, pk, m, w, t2, t3) == c, BAD_PROOF)
