"""What the bench program prints for a script, by this implementation.

Scripts handed to it are whole: a line that is no command is an error of the check itself and is told as one.
"""

from . import client, steps
from .books import BOOKS
from .faults import Fault, WRONG_LENGTH, check
from .groups import GROUPS, RES2039
from .messages import INPUT, TOKEN, parts, token_input
from .station import Station

FULL = 1 << 20  # an outlet that everything fits
LONGEST_DIGEST = 4096


class NoCommand(Exception):
    """A line that the bench program would refuse."""


class Bench:
    """The state of a script: names, group, book, buffers, batch, station."""

    def __init__(self):
        self.names = {}
        self.group = RES2039
        self.book = None
        self.scratch = client.SCRATCH
        self.outlet = FULL
        self.batch = None
        self.station = None

    def line(self, text):
        """The line that is printed for a line of the script; None where that has no command."""
        words = text.split("#")[0].split()
        if not words:
            return None
        name = None
        if len(words) > 1 and words[1] == "=":
            name, words = words[0], words[2:]
        command, arguments = words[0], words[1:]
        carry_out = getattr(self, "do_" + command, None)
        if carry_out is None:
            raise NoCommand(text)
        try:
            answer = carry_out(*arguments)
        except Fault as fault:
            return f"{command}: {fault}"
        if isinstance(answer, bytes):
            if name is not None:
                self.names[name] = answer
            answer = answer.hex() or "-"
        return f"{command}: ok" if answer is None else f"{command}: ok {answer}"

    def data(self, word):
        if word == "-":
            return b""
        if not word.startswith("$"):
            return bytes.fromhex(word)
        name, _, number = word[1:].partition(".")
        kept = self.names[name]
        return parts(kept, TOKEN)[int(number) - 1] if number else kept

    def nonce(self, word):
        nonce = self.data(word)
        check(len(nonce) == 32, WRONG_LENGTH)
        return nonce

    # Digest and groups.

    def do_digest(self, data):
        data = self.data(data)
        check(len(data) <= LONGEST_DIGEST, WRONG_LENGTH)
        return steps.digest(data)

    def do_group(self, name):
        self.group = GROUPS[name]
        self.station = None

    def do_decode(self, code):
        code = self.data(code)
        check(len(code) == self.group.element_width, WRONG_LENGTH)
        self.group.decode(code)

    def do_map(self, data):
        data = self.data(data)
        check(len(data) == 32, WRONG_LENGTH)
        return self.group.encode(self.group.map(data))

    def do_base(self, scalar):
        scalar = self.data(scalar)
        check(len(scalar) == self.group.scalar_width, WRONG_LENGTH)
        return self.group.encode(self.group.base(self.group.decode_scalar(scalar)))

    # Steps.

    def do_input(self, epoch, nonce, context, pk):
        nonce, context, pk = self.data(nonce), self.data(context), self.data(pk)
        check(len(nonce) == 32 and len(context) == 32, WRONG_LENGTH)
        check(len(pk) == self.group.element_width, WRONG_LENGTH)
        return token_input(self.group, int(epoch), nonce, context, self.group.decode_some(pk))

    def do_direct(self, key, message):
        key, message = self.data(key), self.data(message)
        check(len(key) == self.group.scalar_width and len(message) == INPUT, WRONG_LENGTH)
        return steps.direct(self.group, self.group.decode_nonzero(key), message)

    # A lone book.

    def do_book(self, kind, length):
        self.book = None
        self.book = BOOKS[kind](bytes(int(length)))
        return self.book.capacity

    def do_mark(self, epoch, nonce):
        self.book.mark(int(epoch), self.nonce(nonce))

    def do_has(self, epoch, nonce):
        return "yes" if self.book.has(int(epoch), self.nonce(nonce)) else "no"

    def do_drop(self, epoch):
        return self.book.drop(int(epoch))

    def do_size(self):
        return self.book.size

    def do_clear(self):
        self.book.clear()

    def do_image(self):
        return self.book.image

    # Client.

    def do_scratch(self, length):
        self.scratch = int(length)

    def do_outlet(self, length):
        self.outlet = FULL if length == "full" else int(length)

    def do_blind(self, epoch, pk, seeds, blinds):
        if self.batch is not None:
            raise NoCommand("a batch is pending")
        request, self.batch = client.blind(
            self.group, self.scratch, int(epoch), self.data(pk), self.data(seeds), self.data(blinds), self.outlet
        )
        return request

    def do_finish(self, pk, seeds, blinds, reply):
        tokens = client.finish(
            self.group,
            self.scratch,
            self.batch,
            self.data(pk),
            self.data(seeds),
            self.data(blinds),
            self.data(reply),
            self.outlet,
        )
        self.batch = None
        return tokens

    def do_abandon(self):
        epoch, n = self.batch.abandon()
        self.batch = None
        return f"{epoch} {n}"

    # Station.

    def do_station(self, kind, length):
        self.station = None
        book = BOOKS[kind](bytes(int(length)))
        self.station = Station(self.group, book)

    def do_open(self, epoch, key):
        return self.station.open(self.scratch, int(epoch), self.data(key), self.outlet)

    def do_close(self, epoch):
        return self.station.close(int(epoch))

    def do_issue(self, request, nonce):
        return self.station.issue(self.scratch, self.data(request), self.data(nonce), self.outlet)

    def do_redeem(self, token):
        self.station.redeem(self.scratch, self.data(token))

    def do_count(self):
        return self.station.count()


def expected(script):
    """The lines that are printed for the lines of a script, each with the number of its script line."""
    bench = Bench()
    answers = []
    for number, text in enumerate(script, 1):
        answer = bench.line(text)
        if answer is not None:
            answers.append((number, answer))
    return answers
