"""The reader of stores: what it reads, and where it finds the first fault."""
from __future__ import annotations

import struct
import unittest

from romp801 import Fault, Store


def image(
    version: int = 1, bank: int = 4096, segments: tuple[tuple[int, int], ...] = ((1, 1),), flags: int = 0
) -> bytearray:
    """A fresh store's bytes."""
    line = 128 * version
    made = bytearray(272 + 2 * bank + 16 * line * sum(pages for _, pages in segments))
    struct.pack_into(">8sHHI", made, 0, b"801STORE", version, len(segments), bank)
    for place, entry in enumerate(segments):
        struct.pack_into(">HH", made, 16 + 4 * place, *entry)
    if version == 2:
        struct.pack_into(">H", made, 76, flags)
    return made


def with_record(made: bytearray, at: int, number: int, lines: dict[int, bytes]) -> int:
    """Puts a record at an offset; answers where the next gate is."""
    struct.pack_into(">BHQ", made, at, 0xA5, len(lines), number)
    at += 11
    for index, data in lines.items():
        struct.pack_into(">I", made, at, index)
        made[at + 4 : at + 4 + len(data)] = data
        at += 4 + len(data)
    return at


class Reading(unittest.TestCase):
    """What stands in a sound store."""

    def test_fresh(self) -> None:
        """A new store has number 0 and zeros."""
        store = Store(bytes(image(2, 65536, ((1, 4), (7, 1)), 1)))
        self.assertEqual((store.number, store.base, store.records, store.page), (0, 0, 0, 4096))
        self.assertTrue(store.is_fine(0))
        self.assertFalse(store.is_fine(1))
        self.assertEqual(store.content(), {1: bytes(16384), 7: bytes(4096)})

    def test_records(self) -> None:
        """The newest line is that of the last record, over the home lines."""
        made = image()
        made[272 + 8192 : 272 + 8192 + 128] = b"h" * 128
        at = with_record(made, 264, 1, {0: b"a" * 128, 3: b"b" * 128})
        with_record(made, at, 2, {3: b"c" * 128})
        store = Store(bytes(made))
        self.assertEqual((store.number, store.records), (2, 2))
        self.assertEqual(store.content()[1][:512], b"a" * 128 + bytes(256) + b"c" * 128)

    def test_second_bank(self) -> None:
        """The selector chooses the bank, with its base number."""
        made = image()
        made[128] = 1
        struct.pack_into(">Q", made, 264 + 4096, 2**64 - 1)
        with_record(made, 272 + 4096, 0, {15: b"x" * 128})
        store = Store(bytes(made))
        self.assertEqual((store.base, store.number), (2**64 - 1, 0))

    def test_limits(self) -> None:
        """The most lines of a commit are those of docs/FORMATS.md, "Records"."""
        for version, bank, most in ((1, 4096, 30), (1, 4104, 31), (2, 4104, 15), (2, 131072, 504)):
            self.assertEqual(Store(bytes(image(version, bank))).most_lines(), most)


class Faults(unittest.TestCase):
    """Where a fault is told."""

    def at(self, made: bytes, offset: int) -> None:
        """The first fault is at this offset."""
        with self.assertRaises(Fault) as raised:
            Store(bytes(made))
        self.assertEqual(raised.exception.offset, offset)

    def test_cut(self) -> None:
        """A store that is cut at any byte of its header, or shorter or longer than it says, is none."""
        made = image()
        for length in [*range(256), len(made) - 1]:
            self.at(made[:length], length)
        self.at(made + b"\0", len(made))

    def test_fields(self) -> None:
        """Each field that is wrong is told by its own offset."""
        for at, value in (
            (0, 0),
            (8, 9),
            (11, 0),
            (11, 16),
            (13, 0xFF),
            (17, 0),
            (19, 0),
            (19, 200),
            (20, 1),
            (75, 1),
            (76, 1),
            (127, 1),
        ):
            made = image()
            made[at] = value
            self.at(made, {11: 10, 13: 12, 17: 16, 19: 18}.get(at, at))

    def test_records(self) -> None:
        """A record's number and its lines' numbers are looked at, and that it fits."""
        made = image()
        with_record(made, 264, 2, {0: bytes(128)})
        self.at(made, 267)
        made = image()
        with_record(made, 264, 1, {3: bytes(128), 2: bytes(128)})
        self.at(made, 275 + 132)
        made = image()
        struct.pack_into(">BHQ", made, 264, 0xA5, 31, 1)
        self.at(made, 265)


if __name__ == "__main__":
    unittest.main()
