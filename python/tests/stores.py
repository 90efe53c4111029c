"""Stores for tests that run the program: where there is none they are skipped."""
from __future__ import annotations

import os
import tempfile
import unittest

from romp801 import Failure, Records, files, program

MEMORY = "/dev/shm"
"""A folder in memory, where syncs take no time."""
ACCOUNTS = Records.of(
    "account", "balance u4, moves u2 4, flag s1, skip 1, owner text 18", segment=1, start=256, size=128, count=32
)
PROGRAMS = """frames 8
program add
.window 1, 1, rw
cau r6, r0, 0x1000
cas r6, r6, r2
l r7, 0(r6)
a r7, r3
st r7, 0(r6)
svc 0
end
program no
svc 2
end
program spin
.window 1, 1, rw
cau r6, r0, 0x1000
st r2, 256(r6)
here: jnb pz, here
end
program wide
.window 1, 1, rw
cau r6, r0, 0x1000
next: st r2, 0(r6)
ai r6, r6, 128
sis r2, 1
jnb eq, next
svc 0
end
"""


class Case(unittest.TestCase):
    """A folder with a store of both versions and with programs."""

    def setUp(self) -> None:
        """Finds the program, and makes the stores."""
        try:
            self.program = program.Program.find()
        except Failure as failure:
            self.skipTest(str(failure))
        folder = tempfile.TemporaryDirectory(dir=MEMORY if files.is_folder(MEMORY) else None)
        self.addCleanup(folder.cleanup)
        self.folder = folder.name
        self.first, self.second = self.path("first"), self.path("second")
        self.new("new", self.first, "8192", "1", "4", "7", "1")
        self.new("new2", self.second, "8192", "1", "3f", "7", "1")
        self.programs = self.path("programs.job")
        with open(self.programs, "w", encoding="latin-1") as file:
            file.write(PROGRAMS)

    def path(self, name: str) -> str:
        """A file of the folder."""
        return os.path.join(self.folder, name)

    def new(self, *words: str) -> None:
        """Makes a store."""
        program.refused(self.program.call(*words), " ".join(words))
