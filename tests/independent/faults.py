"""Refusals: a number, the layer that tells it, and the item of a batch (0 if of no item)."""

LAYERS = {
    1: "wire", 2: "wire", 3: "wire", 4: "wire", 9: "wire",
    6: "group", 7: "group", 8: "group", 10: "group",
    11: "proof",
    12: "token", 13: "token",
    14: "book", 15: "book",
    5: "ring", 16: "ring", 17: "ring",
}

SHORT_SCRATCH = 1
WRONG_LENGTH = 2
WRONG_TYPE = 3
WRONG_COUNT = 4
WRONG_EPOCH = 5
NO_ELEMENT = 6
NULL_ELEMENT = 7
NO_SCALAR = 8
SHORT_OUTLET = 9
NULL_INPUT = 10
BAD_PROOF = 11
OTHER_KEY = 12
FORGED = 13
SPENT = 14
FULL = 15
OLD_EPOCH = 16
RING_FULL = 17


class Fault(Exception):
    """A refused call."""

    def __init__(self, number, item=0):
        super().__init__(number, item)
        self.number = number
        self.item = item

    @property
    def layer(self):
        return LAYERS[self.number]

    def at(self, item):
        """The same fault, told of an item of a batch."""
        return Fault(self.number, item)

    def __str__(self):
        return f"fault {self.number} {self.layer} item {self.item}"


def check(holds, number, item=0):
    """Refuses with that number where the check does not hold."""
    if not holds:
        raise Fault(number, item)
