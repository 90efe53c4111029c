"""Records: descriptions, values and their bytes."""
from __future__ import annotations

import unittest

from romp801 import Failure, Records, records

ALL = Records.of("all", "a u1, b s1, c u2 3, d s2, skip 2, e u4, f s4 2, g text 5, h u1 3", segment=2, size=48, count=4)


class Values(unittest.TestCase):
    """Bytes of fields."""

    def test_offsets(self) -> None:
        """Fields lie one after another."""
        self.assertEqual(
            {it.name: (it.offset, it.size) for it in ALL.fields.values()},
            dict(a=(0, 1), b=(1, 1), c=(2, 6), d=(8, 2), e=(12, 4), f=(16, 8), g=(24, 5), h=(29, 3)),
        )
        self.assertEqual((ALL[3].offset, ALL.end, len(list(ALL)), str(ALL[1])), (144, 192, 4, "all[1]"))

    def test_ends_of_ranges(self) -> None:
        """Both ends of each range are written and read, and what is past them is refused."""
        for name, width, low, high in (
            ("a", 1, 0, 255),
            ("b", 1, -128, 127),
            ("d", 2, -32768, 32767),
            ("e", 4, 0, 2**32 - 1),
        ):
            field = ALL.field(name)
            for value in (low, high):
                self.assertEqual(len(field.data(value)), width)
                self.assertEqual(field.value(field.data(value)), value)
            for wrong in (low - 1, high + 1, "1", None, 1.0, [1]):
                with self.assertRaises(Failure, msg=f"{name} {wrong!r}"):
                    field.data(wrong)
        field = ALL.field("f")
        self.assertEqual(field.value(field.data([-1, 2**31 - 1])), [-1, 2**31 - 1])
        for values in ([1], [1, 2, 3], 1, [1, 2**31], "12"):
            with self.assertRaises(Failure):
                field.data(values)

    def test_texts(self) -> None:
        """Texts are UTF-8 with zeros at the end; other bytes are kept."""
        field = ALL.field("g")
        for text in ("", "abcde", "åå", "a\0b"):
            self.assertEqual(field.value(field.data(text)), text)
        for data in (b"\xff\xfe\0\0\0", b"\0a\0\0\0"):
            self.assertEqual(field.data(field.value(data)), data)
        for wrong in ("abcdef", "ååå", "a\0", 5, b"a"):
            with self.assertRaises(Failure):
                field.data(wrong)

    def test_values(self) -> None:
        """All the values of a record."""
        data = bytes(range(48))
        found = ALL.values(data)
        self.assertEqual((found["a"], found["c"], found["h"]), (0, [0x203, 0x405, 0x607], [29, 30, 31]))


class Descriptions(unittest.TestCase):
    """Descriptions as text."""

    def test_read(self) -> None:
        """A description of two sorts."""
        text = "; two\nrecords one segment 1 from 0 size 0x80 count 32\n  balance u4 ; in pence\n  owner text 16\n"
        found = records.read(text + "records two segment 7 from 4 size 4 count 1\nn s4\n")
        self.assertEqual(list(found), ["one", "two"])
        self.assertEqual(found["one"], Records.of("one", "balance u4, owner text 16", segment=1, size=128, count=32))
        self.assertEqual(found["two"][0].offset, 4)

    def test_mistakes(self) -> None:
        """What is none is told with its line."""
        head = "records one segment 1 from 0 size 8 count 2\n"
        for text, why in (
            ("a u4\n", "line 1: in front of fields"),
            ("records one segment 1 size 8 count 2 from 0\na u4\n", "line 1: it is"),
            (head, "is no field"),
            (head + "a u3\n", "is no field"),
            (head + "a text\n", "count is at least 1"),
            (head + "a u1 0\n", "count is at least 1"),
            (head + "a u1 x\n", "count is at least 1"),
            (head + "1a u1\n", "is no field"),
            (head + "a u1\na u1\n", "two fields a"),
            (head + "a u1\nb u4\n", "isn't at a multiple of 4 bytes"),
            (head + "a u4\nb u4\nc u1\n", "have 9 bytes, and a record 8"),
            (head + "a u1\n" + head + "a u1\n", "line 3: there are records one already"),
            ("records one segment 0 from 0 size 8 count 2\na u1\n", "its segment is 1 to 3,839"),
            ("records one segment 1 from 0 size 6 count 2\na u4\n", "isn't at a multiple of 4 bytes"),
            ("records one segment 1 from 2 size 8 count 1\na u4\n", "isn't at a multiple of 4 bytes"),
            ("records .one segment 1 from 0 size 8 count 1\na u4\n", "is no name of records"),
        ):
            with self.assertRaises(Failure, msg=text) as raised:
                records.read(text)
            self.assertIn(why, str(raised.exception))

    def test_places(self) -> None:
        """Records and fields that aren't there."""
        for wrong in (4, -1, "1"):
            with self.assertRaises(Failure):
                ALL[wrong]
        with self.assertRaises(Failure):
            ALL.field("z")
        for segments in ({1: 4096}, {2: 191}):
            with self.assertRaises(Failure):
                ALL.fits(segments)
        ALL.fits({2: 192})


if __name__ == "__main__":
    unittest.main()
