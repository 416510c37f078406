"""The workloads of crates/speed: the name of each, and what it reads, which is the same at each run."""

from collections import namedtuple
from random import Random

from sources import CRATES

# A name, the number in crates/speed, the octets, and how often it is done, which is the count of the results.
Workload = namedtuple("Workload", "name number octets times")
RSA, P256 = [(CRATES / f"pkix_cli/cases/form-certificate-{key}/stdin").read_bytes() for key in ("rsa", "p256")]


def element(tag, contents):
    """The encoding of an element with one identifier octet."""
    if len(contents) < 128:
        return bytes([tag, len(contents)]) + contents
    length = len(contents).to_bytes((len(contents).bit_length() + 7) // 8, "big")
    return bytes([tag, 128 | len(length)]) + length + contents


def integer(number):
    bits = (number if number >= 0 else ~number).bit_length()
    return element(2, number.to_bytes(bits // 8 + 1, "big", signed=True))


def sequence(*parts):
    return element(0x30, b"".join(parts))


def changed(octets, at, octet):
    return octets[:at] + bytes([octet]) + octets[at:][1:]


class Chosen(Random):
    """Chooses values, of many lengths, and encodes them."""

    def octets(self):
        return self.randbytes(self.randrange(40))

    def number(self, bits):
        return self.getrandbits(bits) >> self.randrange(bits)

    def signed(self):
        return integer(self.getrandbits(64) - 2**63 >> self.randrange(64))

    def integers(self, count):
        return [integer(self.number(64)) for _ in range(count)]

    def identifier(self):
        arcs = [self.getrandbits(self.choice([7, 14])) for _ in range(self.randrange(8))]
        parts = [[128 | arc >> 7, arc & 127] if arc > 127 else [arc] for arc in arcs]
        return element(6, b"\x2a\x86\x48" + bytes(sum(parts, [])))

    def text(self):
        return element(12, "".join(self.choices("azQ xék語", k=self.randrange(40))).encode())

    def time(self):
        parts = [self.randrange(100), *(1 + self.randrange(count) for count in (12, 28, 23, 59, 59))]
        return element(23, b"".join(b"%02d" % part for part in parts) + b"Z")

    def pair(self):
        return sequence(integer(self.getrandbits(256)), integer(self.getrandbits(256)))


def workloads(count):
    """Each workload, on so many values; on fewer that are large."""
    chosen, some = Chosen(1), count // 50
    certificate = lambda: chosen.choice([RSA, P256])

    def many(name, number, make, times=count):
        return Workload(name, number, b"".join(make() for _ in range(times)), times)

    def one(name, number, octets, times=count):
        return Workload(name, number, octets, times)

    yield many("any element, read", 0, lambda: element(4, chosen.octets()))
    yield many("`bool`, read", 1, lambda: element(1, chosen.choice([b"\x00", b"\xff"])))
    yield many("`u8`, read", 2, lambda: integer(chosen.number(8)))
    yield many("`i64`, read", 3, chosen.signed)
    yield many("`u64`, read", 4, lambda: integer(chosen.number(64)))
    yield many("`ObjectIdentifier`, read", 5, chosen.identifier)
    yield many("`Utf8String`, read", 6, chosen.text)
    yield many("`UtcTime`, read", 7, chosen.time)
    yield many("`&[u8]`, read", 8, lambda: element(4, chosen.octets()))
    yield many("`BitString`, read", 9, lambda: element(3, b"\x00" + chosen.octets()))
    yield many("two integers in a structure, read", 10, chosen.pair)
    yield many("certificate, read", 11, certificate, some)
    for length in (10, 1000):
        walked, lists = f"{length} numbers, read, walked", count // length
        yield many(f"`SequenceOf` {walked}", 12, lambda: sequence(*chosen.integers(length)), lists)
        yield many(f"`SetOf` {walked}", 13, lambda: element(0x31, b"".join(sorted(chosen.integers(length)))), lists)

    yield many("`bool`, rejected", 14, lambda: element(1, b"\x01"))
    yield many("`u64`, rejected", 15, lambda: element(2, b"\x00\x01"))
    yield many("`Utf8String`, rejected at its end", 16, lambda: element(12, b"Beispiel Gmb\xc3"))
    yield many("two integers, rejected at the second", 17, lambda: sequence(integer(1), element(1, b"\xff")))
    # What tbsCertificate begins with, behind two headers of four octets; the unused bits of 256 octets at the end.
    yield many("certificate, rejected at its start", 18, lambda: changed(RSA, 8, 15), some)
    yield many("certificate, rejected at its end", 18, lambda: changed(RSA, -257, 8), some)

    yield one("`bool`, written", 19, element(1, b"\xff"))
    yield one("`u8`, written", 20, integer(7))
    yield one("`i64`, written", 21, integer(-(2**20)))
    yield one("`u64`, written", 22, integer(2**40))
    yield one("`ObjectIdentifier`, written", 23, element(6, b"\x55\x04\x03"))
    yield one("two integers in a structure, written", 24, chosen.pair())
    yield one("sequences in one another by closures, 4 deep, written", 25, b"")
    yield one("lists in one another, 4 deep, written", 26, sequence(sequence(sequence(sequence(*chosen.integers(4))))))
    yield many("`SequenceOf` 10 numbers, read, written", 27, lambda: sequence(*chosen.integers(10)), count // 10)
    yield many("certificate, read, written", 28, certificate, some)
    for length in (10, 1000):
        items = sequence(*chosen.integers(length))
        yield one(f"`SequenceOfWriter`, {length} numbers", 29, items, count // length)
        yield one(f"`SetOfWriter`, {length} numbers", 30, items, count // length)
