"""The two kinds of group.

An element is a value of Python (a number, or a pair of numbers). Everything above uses the methods of `Group`
only. Multiples are sums repeated one by one, and membership is tried by its definition: nothing here is
clever, so that nothing is shared with the part.
"""

from .faults import NO_ELEMENT, NO_SCALAR, NULL_ELEMENT, check


def big_endian(number, width):
    return number.to_bytes(width, "big")


def leading_word(data):
    """N, the number in the first 8 of 32 bytes."""
    if len(data) != 32:
        raise ValueError("32 bytes are needed")
    return int.from_bytes(data[:8], "big")


class Group:
    """What every kind has: the scalars, which are the numbers modulo the order, and multiples."""

    name: bytes
    type: bytes
    order: int
    scalar_width: int
    element_width: int

    # Elements: a kind gives null, generator, sum, opposite, encode, numbers_of, belongs and map.

    def decode(self, code):
        """The element of a code of the right length, or fault 6."""
        element = self.numbers_of(code)
        check(element is not None and self.belongs(element), NO_ELEMENT)
        return element

    def decode_some(self, code):
        """An element that is not the null, or fault 6 or 7."""
        element = self.decode(code)
        check(element != self.null, NULL_ELEMENT)
        return element

    def multiple(self, scalar, element):
        """The element added to the null as often as the scalar says."""
        total = self.null
        for _ in range(scalar):
            total = self.sum(total, element)
        return total

    def base(self, scalar):
        return self.multiple(scalar, self.generator)

    # Scalars.

    def encode_scalar(self, scalar):
        return big_endian(scalar, self.scalar_width)

    def decode_scalar(self, code):
        """The number of a scalar's code of the right length, or fault 8."""
        scalar = int.from_bytes(code, "big")
        check(scalar < self.order, NO_SCALAR)
        return scalar

    def decode_nonzero(self, code):
        scalar = self.decode_scalar(code)
        check(scalar != 0, NO_SCALAR)
        return scalar

    def inverse(self, scalar):
        """The one number whose product with the scalar is 1; of 0 it is 0."""
        for other in range(self.order):
            if scalar * other % self.order == 1:
                return other
        return 0

    def reduce(self, data):
        return leading_word(data) % self.order


class Residues(Group):
    """res2039: the numbers modulo 2039 whose power 1019 is 1; the sum is the product."""

    name = b"res2039"
    type = b"\xe1\x01"
    order = 1019
    scalar_width = 2
    element_width = 2
    null = 1
    generator = 4

    def sum(self, a, b):
        return a * b % 2039

    def opposite(self, a):
        return next(b for b in range(1, 2039) if a * b % 2039 == 1)

    def belongs(self, a):
        return 1 <= a <= 2038 and a**1019 % 2039 == 1

    def encode(self, a):
        return big_endian(a, 2)

    def numbers_of(self, code):
        return int.from_bytes(code, "big") if len(code) == 2 else None

    def map(self, data):
        w = 1 + leading_word(data) % 2038
        return w * w % 2039


class Circle(Group):
    """circ523: points of the circle modulo 523 whose 131-fold sum is null; angles are added."""

    name = b"circ523"
    type = b"\xe1\x02"
    order = 131
    scalar_width = 1
    element_width = 4
    null = (1, 0)
    generator = (82, 434)

    def sum(self, a, b):
        (x1, y1), (x2, y2) = a, b
        return (x1 * x2 - y1 * y2) % 523, (x1 * y2 + x2 * y1) % 523

    def opposite(self, a):
        x, y = a
        return x, -y % 523

    def belongs(self, a):
        x, y = a
        in_range = 0 <= x <= 522 and 0 <= y <= 522
        return in_range and (x * x + y * y) % 523 == 1 and self.multiple(131, a) == self.null

    def encode(self, a):
        x, y = a
        return big_endian(x, 2) + big_endian(y, 2)

    def numbers_of(self, code):
        if len(code) != 4:
            return None
        return int.from_bytes(code[:2], "big"), int.from_bytes(code[2:], "big")

    def map(self, data):
        t = leading_word(data) % 523
        u = next(u for u in range(523) if (1 + t * t) * u % 523 == 1)
        return self.multiple(4, ((1 - t * t) * u % 523, 2 * t * u % 523))


RES2039 = Residues()
CIRC523 = Circle()
GROUPS = {"res2039": RES2039, "circ523": CIRC523}
