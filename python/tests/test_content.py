"""Dumps: what is printed of a store makes it again, and what is no dump is told with its line."""
from __future__ import annotations

import random
import unittest

from romp801 import Failure, Records, Store, content, files
from romp801.client import FileStore
from tests.stores import ACCOUNTS, Case

ODD = Records.of("odd", "a u1, skip 1, b s2 2, skip 3, c text 5", segment=7, start=1000, size=20, count=9)


class Dumps(Case):
    """Stores of both versions, with a fine segment."""

    def again(self, path: str, dump: content.Dump) -> Store:
        """The store that is made of a dump."""
        self.new(*dump.shape.words(path))
        with FileStore(path, romp801=self.program.path) as store:
            empty = files.sound_store(path)
            store.ask([*content.writes(empty.content(), dump.content, empty.most_lines() * empty.line)])
        return files.sound_store(path)

    def test_round(self) -> None:
        """Random bytes, few and many, with records and without: the same store, up to its number."""
        order = random.Random(20)
        for place, store in enumerate((self.first, self.second, self.first, self.second)):
            with FileStore(store) as it, it.transaction() as t:
                for _ in range(3 + 9 * place):
                    at = order.randrange(2000)
                    t.write(order.choice((1, 7)), at, order.randbytes(order.randrange(1, 48)))
                row = t[ACCOUNTS[place]]
                row.owner, row.flag = ("å \"x\"\\", "", "\n;", "\x85\u2028")[place], -place
            wanted = files.sound_store(store)
            for sorts in ((), (ACCOUNTS,), (ACCOUNTS, ODD)):
                lines = list(content.dumped(wanted, sorts))
                self.assertEqual(sum(it.count("\n") for it in lines), 0)
                dump = content.loaded("".join(f"{it}\n" for it in lines))
                self.assertEqual((dump.shape, dump.number), (content.Shape.of(wanted), wanted.number))
                self.assertEqual(dump.content, wanted.content())
                found = self.again(self.path(f"again{place}{len(sorts)}"), dump)
                self.assertTrue(found.is_alike(wanted))
                self.assertEqual((found.bank, found.content()), (wanted.bank, wanted.content()))
                # (but for the number, its dump is the same text)
                again = list(content.dumped(found, sorts))
                self.assertEqual((again[0], again[2:]), (lines[0], lines[2:]))

    def test_full(self) -> None:
        """A store of which no byte is zero."""
        with FileStore(self.second) as it:
            have = it.source().content
            want = {segment: bytes(1 + at % 255 for at in range(len(data))) for segment, data in have.items()}
            it.ask([*content.writes(have, want, 31 * 256)])
        wanted = files.sound_store(self.second)
        self.assertEqual(wanted.content(), want)
        dump = content.loaded("\n".join(content.dumped(wanted, (ACCOUNTS,))))
        self.assertEqual(dump.content, wanted.content())
        self.assertEqual(content.writes(have, have, 256), [])

    def test_mistakes(self) -> None:
        """What is no dump is told with its line."""
        head = f"{content.HEAD}\nstore version 2 bank 4096 number 0\nsegment 1 pages 2\n"
        account = head + "".join(f"{it}\n" for it in content.described(ACCOUNTS))
        for text, why in (
            ("", "line 1"),
            ("romp801 dump 2\n", "line 1"),
            (f"{content.HEAD}\nstore version 3 bank 4096 number 0\n", "line 2"),
            (f"{content.HEAD}\nstore version 2 bank 4096 number 0\n", "line 3"),
            (head + 15 * "segment 2 pages 1\n", "line 19"),
            (head + "bytes 1 00001ff1 " + 32 * "0" + "\n", "line 4"),
            (head + "bytes 2 00000000 " + 32 * "0" + "\n", "line 4"),
            (head + "bytes 1 00000000 00\n", "line 4"),
            (head + "account[0] balance 5\n", "line 4"),
            (head + "records account\n", "it is `records"),
            (account + "account[32] balance 5\n", "there is no account[32]"),
            (account + "account[0] ballance 5\n", "has no field ballance"),
            (account + "account[0] balance\n", "balance lacks its value"),
            (account + "account[0] balance 5 balance 5\n", "has two"),
            (account + "account[0] balance x\n", "balance can't be x"),
            (account + "account[0] balance -5\n", "can't be -5"),
            (account + "account[0] moves 1 2 3\n", "moves lacks its value"),
            (account + "account[0] owner x\n", "owner can't be x"),
            (account + 'account[0] owner "' + 19 * "x" + '"\n', "at most 18 bytes"),
        ):
            with self.assertRaises(Failure, msg=text) as raised:
                content.loaded(text)
            self.assertIn(why, str(raised.exception))
        self.assertEqual(content.loaded(account + 'account[0] balance 5\n').content[1][256:260], b"\0\0\0\5")


if __name__ == "__main__":
    unittest.main()
