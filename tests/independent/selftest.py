"""Worked values of this implementation, and its own laws over whole runs."""

import random

from . import client, steps
from .books import BOOKS, Chained, Tape
from .faults import Fault
from .groups import CIRC523, GROUPS, RES2039
from .messages import TOKEN, parts
from .station import Station

COUNT = 0


def same(case, got, wanted):
    global COUNT
    COUNT += 1
    if got != wanted:
        raise SystemExit(f"{case}: expected {wanted}, got {got}")


def number_of(call, *arguments):
    """The number of the fault, 0 for none."""
    try:
        call(*arguments)
    except Fault as fault:
        return fault.number
    return 0


def word(n):
    """32 bytes whose leading word is n."""
    return n.to_bytes(8, "big") + bytes(24)


def residues():
    group = RES2039
    for scalar, element in ((0, 1), (1, 4), (3, 64), (6, 18), (1018, 510), (510, 2)):
        same(f"res2039: {scalar}·G", group.base(scalar), element)
    same("res2039: 1019·G", group.multiple(1019, group.generator), group.null)
    same("res2039: 0x0002 decodes", group.decode(b"\x00\x02"), 2)
    for code in ("0000", "07f6", "07f7"):
        same(f"res2039: 0x{code}", number_of(group.decode, bytes.fromhex(code)), 6)
    for n, element in ((6, 49), (0, 1), (2037, 1), (2038, 1)):
        same(f"res2039: the map of {n}", group.map(word(n)), element)
    belonging = [a for a in range(2040) if group.belongs(a)]
    same("res2039: elements are the multiples of G", belonging, sorted(group.base(s) for s in range(1019)))


def circle():
    group = CIRC523
    for scalar, element in ((0, (1, 0)), (1, (82, 434)), (2, (372, 48)), (130, (82, 89))):
        same(f"circ523: {scalar}·G", group.base(scalar), element)
    for point in ((104, 210), (0, 1)):
        x, y = point
        same(f"circ523: {point} meets the equation", (x * x + y * y) % 523, 1)
        same(f"circ523: {point}", number_of(group.decode, group.encode(point)), 6)
    for n, element in ((2, group.generator), (0, group.null), (1, group.null), (522, group.null)):
        same(f"circ523: the map of {n}", group.map(word(n)), element)
    for t in range(523):
        same(f"circ523: the map of {t} belongs", group.belongs(group.map(word(t))), True)


def laws():
    for group in GROUPS.values():
        chance = random.Random(11)
        for _ in range(40):
            s, t = chance.randrange(group.order), chance.randrange(group.order)
            p, q = group.base(s), group.base(t)
            case = f"{group.name.decode()}: {s}, {t}"
            same(f"{case}: sum", group.sum(p, q), group.base((s + t) % group.order))
            same(f"{case}: opposite", group.sum(p, group.opposite(p)), group.null)
            same(f"{case}: multiple", group.multiple(t, p), group.base(s * t % group.order))
            same(f"{case}: code", group.decode(group.encode(p)), p)
            same(f"{case}: scalar code", group.decode_scalar(group.encode_scalar(s)), s)
            same(f"{case}: inverse", s * group.inverse(s) % group.order, 1 if s else 0)


def blinding():
    group = RES2039
    for mapped, blind, item, key, answer, unblinded in ((49, 3, 1426, 2, 593, 362), (362, 511, 1426, 2, 593, 548)):
        same(f"blinded {mapped}", steps.blinded(group, mapped, blind), item)
        same(f"answered {item}", steps.answered(group, key, item), answer)
        same(f"unblinded {answer}", steps.unblinded(group, blind, answer), unblinded)
        same(f"directly {mapped}", group.multiple(key, mapped), unblinded)
    same("digest of abc", steps.digest(b"abc").hex()[:16], "ba7816bf8f01cfea")
    same("context", steps.context(group), b"BBTV4-\x01-res2039-SHA256")


def books():
    a, b = bytes([7] * 32), bytes([9] * 32)
    for kind, length in (("chained", 168), ("tape", 36)):
        book = BOOKS[kind](bytes(length))
        same(f"{kind}: capacity", book.capacity, 1)
        for name, call, arguments, wanted in (
            ("mark (1, a)", book.mark, (1, a), 0),
            ("again", book.mark, (1, a), 14),
            ("mark (1, b)", book.mark, (1, b), 15),
        ):
            same(f"{kind}: {name}", number_of(call, *arguments), wanted)
        same(f"{kind}: drop", book.drop(1), 1)
        same(f"{kind}: mark (2, b)", number_of(book.mark, 2, b), 0)
    for length, capacity in ((204, 2), (203, 1), (168, 1), (132 + 36 * 1024, 1024), (60000, 1024)):
        same(f"chained: {length} bytes", Chained(bytes(length)).capacity, capacity)
    for length, capacity in ((36, 1), (69, 1), (70, 2), (2 + 34 * 1024, 1024), (60000, 1024)):
        same(f"tape: {length} bytes", Tape(bytes(length)).capacity, capacity)
    same("chained: 167 bytes", number_of(Chained, bytes(167)), 2)
    same("tape: 35 bytes", number_of(Tape, bytes(35)), 2)
    images()


def images():
    """A chained book of 3 places, byte by byte."""
    a, b = bytes(31) + b"\x01", bytes([5] * 31) + b"\x41"
    book = Chained(bytes(132 + 3 * 36) + b"\xee\xee")
    book.mark(7, a)
    book.mark(8, b)
    heads = bytes(2) + b"\x00\x02" + bytes(62 * 2)
    records = b"\x00\x00" + b"\x00\x07" + a + b"\x00\x01" + b"\x00\x08" + b + bytes(36)
    same("chained: the image of two in one chain", book.image, heads + b"\x00\x03\x00\x02" + records + b"\xee\xee")
    book.drop(8)
    heads = bytes(2) + b"\x00\x01" + bytes(62 * 2)
    records = b"\x00\x00" + b"\x00\x07" + a + b"\x00\x03" + bytes(34) + bytes(36)
    same("chained: the image after a drop", book.image, heads + b"\x00\x02\x00\x01" + records + b"\xee\xee")
    tape = Tape(bytes(2 + 34 * 3) + b"\xee")
    for epoch, nonce in ((7, a), (8, b), (7, b)):
        tape.mark(epoch, nonce)
    tape.drop(8)
    wanted = b"\x00\x02" + b"\x00\x07" + a + b"\x00\x07" + b + bytes(34) + b"\xee"
    same("tape: the image after a drop", tape.image, wanted)


def random_scalars(chance, group, n):
    return b"".join(group.encode_scalar(chance.randrange(1, group.order)) for _ in range(n))


def orders():
    """Whole orders: what is issued for a request finishes, and its tokens are redeemed once."""
    chance = random.Random(23)
    for group in GROUPS.values():
        station = Station(group, Tape(bytes(2 + 34 * 20)))
        for epoch, n in ((1, 1), (2, 2), (5, 16)):
            pk = station.open(1024, epoch, random_scalars(chance, group, 1), 1024)
            seeds, blinds = chance.randbytes(64 * n), random_scalars(chance, group, n)
            try:
                request, batch = client.blind(group, 1024, epoch, pk, seeds, blinds, 1024)
            except Fault as fault:
                same("a fault of a random order", (fault.number, fault.layer), (10, "group"))
                continue
            reply = station.issue(1024, request, random_scalars(chance, group, 1), 1024)
            tokens = parts(client.finish(group, 1024, batch, pk, seeds, blinds, reply, 4096), TOKEN)
            same("tokens", len(tokens), n)
            for token in tokens:
                forged = token[:-1] + bytes([token[-1] ^ 1])
                same("a forged token", number_of(station.redeem, 1024, forged), 13)
                same("a token", number_of(station.redeem, 1024, token), 0)
                same("a token twice", number_of(station.redeem, 1024, token), 14)
            same("count", station.count(), n)
            same("close", station.close(epoch), n)


def main():
    for part in (residues, circle, laws, blinding, books, orders):
        part()
    print(f"independent: {COUNT} worked values and laws of the second implementation hold")
