"""Attributes: the host's values and the store's, one to one and in order."""
from __future__ import annotations

import random
import unittest

from mdeh import Attribute, Keys, Refusal, Unusable
from mdeh.attributes import bits_for, reversed_bits

SPECS = ["code:7", "code:7:from=0,to=99", "release:7:from=398,to=479", "release:9:from=398", "offset:6:signed", "a:1",
         "slot:5:reversed", "slot:5:from=-3,reversed", "code:7:from=-50,to=49,reversed", "one:1:from=5,to=5",
         "full:3:from=2,to=9", "error code:4", "a:b:4:from=-1,to=3"]


class Maps(unittest.TestCase):
    """The map of one attribute."""

    def test_inverse_and_monotone(self) -> None:
        """decode undoes encode, within the width; order is kept where bits are not reversed."""
        for spec in SPECS:
            attribute = Attribute.parse(spec)
            values = range(attribute.least, attribute.greatest + 1)
            codes = [attribute.encode(value) for value in values]
            self.assertEqual([attribute.decode(code) for code in codes], list(values), spec)
            bounds = (-(1 << attribute.width - 1), 1 << attribute.width - 1) if attribute.signed \
                else (0, 1 << attribute.width)
            self.assertTrue(all(bounds[0] <= code < bounds[1] for code in codes), spec)
            self.assertEqual(len(set(codes)), len(codes))
            if not attribute.reversed:
                self.assertEqual(codes, sorted(codes), spec)

    def test_outside(self) -> None:
        """Values and codes that the attribute does not have are refused with 3."""
        for spec in SPECS:
            attribute = Attribute.parse(spec)
            for value in (attribute.least - 1, attribute.greatest + 1, 10**30, -10**30):
                with self.assertRaises(Refusal) as raised:
                    attribute.encode(value)
                self.assertEqual(raised.exception.number, 3)
        with self.assertRaises(Refusal):
            Attribute.parse("code:7:from=0,to=99").decode(127)

    def test_known_values(self) -> None:
        """Values worked out by hand: floor(r * 2^w / count), a bias, bits from the other end."""
        spread = Attribute.parse("code:7:from=0,to=99")
        self.assertEqual([spread.encode(value) for value in (0, 1, 30, 50, 99)], [0, 1, 38, 64, 126])
        self.assertEqual(Attribute.parse("release:9:from=398").encode(412), 14)
        self.assertEqual([reversed_bits(value, 5) for value in (1, 6, 16, 31)], [16, 12, 1, 31])
        self.assertEqual([bits_for(0, high) for high in (0, 1, 2, 99, 127, 128)], [1, 1, 2, 7, 7, 8])

    def test_values_between(self) -> None:
        """The values of an interval of encodings are those whose encodings lie in it."""
        draw = random.Random(3)
        for spec in SPECS:
            attribute = Attribute.parse(spec)
            offset = 1 << attribute.width - 1 if attribute.signed else 0
            for _ in range(20):
                low, high = sorted(draw.randrange(1 << attribute.width) for _ in range(2))
                wanted = [value for value in range(attribute.least, attribute.greatest + 1)
                          if low <= attribute.encode(value) + offset <= high]
                self.assertEqual(attribute.values_between(low, high), wanted, (spec, low, high))


class Specs(unittest.TestCase):
    """The texts of attributes."""

    def test_round_trip(self) -> None:
        """spec gives the text that parse read."""
        for spec in SPECS:
            self.assertEqual(Attribute.parse(spec).spec(), spec)
        self.assertEqual(Attribute.parse("a:b:4").name, "a:b")

    def test_unusable(self) -> None:
        """Texts that are no attribute, and options that do not go together."""
        cases = ["", "code", "code:", ":7", "code:x", "code:0", "code:17", "code:7:", "code:7:foo", "code:7:from=",
                 "code:7:from=1.5", "code:7:to=9", "code:7:from=9,to=8", "code:3:from=0,to=8", "code:7:signed,from=1",
                 "code:7:signed,reversed", "code:7:signed,signed", "code:7:from=1,from=2", "co\tde:7", "code:7:From=1"]
        for spec in cases:
            with self.assertRaises(Unusable, msg=spec):
                Attribute.parse(spec)


class Spare(unittest.TestCase):
    """Keys of several attributes, with a spare one."""

    KEYS = Keys((Attribute.parse("code:7:from=0,to=99"), Attribute.parse("o:4:signed"),
                 Attribute.parse("r:7:from=398,to=479")), 2)

    def test_columns(self) -> None:
        """Rows and columns are encoded alike, and decoded; the spare value is the sum of ranks modulo 4."""
        draw = random.Random(5)
        rows = [(draw.randrange(100), draw.randrange(-8, 8), draw.randrange(398, 480)) for _ in range(500)]
        encoded = self.KEYS.encode_columns(list(zip(*rows)))
        self.assertEqual(encoded, [self.KEYS.encode(row) for row in rows])
        self.assertEqual([self.KEYS.decode(key) for key in encoded], rows)
        self.assertEqual(list(zip(*self.KEYS.decode_columns(list(zip(*encoded))))), rows)
        self.assertEqual(self.KEYS.encode((30, -1, 412))[-1], (30 + 7 + 14) % 4)
        self.assertEqual(self.KEYS.encode_columns([[100, 1], [0, 0], [398, 398]])[0], None)

    def test_wrong_spare(self) -> None:
        """A key whose spare value is another is that of no row."""
        key = self.KEYS.encode((30, -1, 412))
        for call, argument in ((self.KEYS.decode, key[:3] + (key[3] ^ 1,)),
                               (self.KEYS.decode_columns, [[code] for code in key[:3]] + [[key[3] ^ 2]])):
            with self.assertRaises(Refusal):
                call(argument)

    def test_unusable(self) -> None:
        """No attributes, too many, names that come twice, a spare one without a place."""
        one = Attribute("a", 3)
        four = tuple(Attribute(name, 3) for name in "abcd")
        for attributes, spare in (((), 0), (four + (Attribute("e", 3),), 0), ((one, one), 0), (four, 2), ((one,), 9)):
            with self.assertRaises(Unusable):
                Keys(attributes, spare)
