"""The bytes that travel: request, reply, token input, token."""

from .groups import big_endian
from .steps import i2, key_id

HEAD = 5  # type (2), epoch (2), n (1)
INPUT = 100
TOKEN = 132
SEED = 64  # nonce (32), context (32)
LARGEST_BATCH = 16


def head(group, epoch, n):
    return group.type + i2(epoch) + big_endian(n, 1)


def read_head(message):
    """Type, epoch and n off the front, and the rest."""
    return message[:2], int.from_bytes(message[2:4], "big"), message[4], message[5:]


def parts(data, width):
    """The data cut into pieces of that width."""
    return [data[i : i + width] for i in range(0, len(data), width)]


def request_length(group, n):
    return HEAD + n * group.element_width


def reply_length(group, n):
    return request_length(group, n) + 2 * group.scalar_width


def write_request(group, epoch, items):
    return head(group, epoch, len(items)) + b"".join(map(group.encode, items))


def write_reply(group, epoch, answers, c, s):
    return write_request(group, epoch, answers) + group.encode_scalar(c) + group.encode_scalar(s)


def token_input(group, epoch, nonce, context, pk):
    return group.type + i2(epoch) + nonce + context + key_id(group, pk)


def read_token(token):
    """Type, epoch, nonce, key id, the whole input, and the authenticator."""
    return token[:2], int.from_bytes(token[2:4], "big"), token[4:36], token[68:100], token[:100], token[100:]
