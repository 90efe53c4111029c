"""A disk that can lose its blocks for a while: a loop device with a file system. It wants root, loop devices and
mkfs.ext2."""
import fcntl
import os
import struct
import subprocess

import rig

LOOP_SET_STATUS64, LOOP_GET_STATUS64, FIBMAP = 0x4C04, 0x4C05, 1
BLOCK = 4096


class Lacking(Exception):
    """What a machine lacks, or doesn't do."""


class Medium:
    """A loop device with a file system, that can lose its blocks for a while."""

    def __init__(self, folder: str, size: int = 8 << 20) -> None:
        self.image, self.place, self.device, self.size = f"{folder}/medium", f"{folder}/disk", "", size
        os.mkdir(self.place)
        self.is_mounted = False

    def make(self) -> None:
        """A new file system, mounted."""
        self.give_back()
        with open(self.image, "wb") as image:
            image.truncate(self.size)
        found = rig.call(["losetup", "-f", "--show", self.image])
        if found.status:
            raise Lacking("no loop device")
        self.device = found.out.strip()
        if rig.call(["mkfs.ext2", "-q", "-b", str(BLOCK), self.device]).status:
            raise Lacking("no file system")
        self.mount()

    def mount(self) -> None:
        """Mounts the device, anew where it was mounted: what memory had of it is gone then."""
        if self.is_mounted:
            subprocess.run(["umount", self.place], check=True, stderr=subprocess.PIPE)
            self.is_mounted = False
        if rig.call(["mount", "-t", "ext2", self.device, self.place]).status:
            raise Lacking("no file system can be mounted")
        self.is_mounted = True

    def give_back(self) -> None:
        """Unmounts, and gives the device back."""
        if self.is_mounted:
            subprocess.run(["umount", self.place], check=False)
            self.is_mounted = False
        if self.device:
            subprocess.run(["losetup", "-d", self.device], check=False)
            self.device = ""

    def limit(self, size: int) -> None:
        """So many bytes of the device are there from now on; 0 is all."""
        with open(self.device, "rb") as device:
            status = bytearray(232)
            fcntl.ioctl(device, LOOP_GET_STATUS64, status)
            struct.pack_into("<Q", status, 32, size)
            fcntl.ioctl(device, LOOP_SET_STATUS64, bytes(status))
        blocks = int(open(f"/sys/block/{os.path.basename(self.device)}/size", encoding="ascii").read())
        if size and blocks != size // 512:
            raise Lacking("the loop device keeps its blocks")

    def bytes_of(self, path: str) -> bytes:
        """What the medium itself has of a file, beside what memory has of it."""
        found = b""
        with open(path, "rb") as file, open(self.image, "rb") as image:
            size = os.fstat(file.fileno()).st_size
            for logical in range((size + BLOCK - 1) // BLOCK):
                place = struct.unpack("i", fcntl.ioctl(file, FIBMAP, struct.pack("i", logical)))[0]
                image.seek(place * BLOCK)
                found += image.read(BLOCK)
        return found[:size]
