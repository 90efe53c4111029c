"""Three machines on 127.0.0.1: each has a member of etcd and a node, on a disk of its own that can lose its power."""
from __future__ import annotations

import contextlib
import fcntl
import os
import pathlib
import random
import shutil
import signal
import socket
import struct
import subprocess
import sys
import tempfile
import time
from typing import Dict, List, Optional, Tuple

from romp801.cluster.engine import Engine, EngineFault
from storm import broken

TOP = pathlib.Path(__file__).resolve().parent.parent.parent
SHUTDOWN, WITHOUT_LOG = 0x8004587D, 2
"""The call that ends a file system of ext4 as a power cut does: what isn't on the medium is gone."""
DISK = 512 << 20


PORTS = 80
"""Ports that a house has."""


def free_base() -> int:
    """The first of so many ports that nobody has, below those that the system hands out by itself."""
    for base in random.sample(range(20000, 31900, 100), 119):
        if all(_is_free(base + it) for it in range(PORTS)):
            return base
    raise SystemExit("storm: no ports are free")


def _is_free(port: int) -> bool:
    """Whether nobody listens at a port, or is connected by it."""
    with socket.socket() as asks:
        try:
            asks.bind(("127.0.0.1", port))
        except OSError:
            return False
    return True


def raise_as_own(pid: int) -> None:
    """A session that was begun gets the weight that the scheduler gives this one's, where it weighs sessions."""
    with contextlib.suppress(OSError):
        said = pathlib.Path("/proc/self/autogroup").read_text().split()
        if said:
            pathlib.Path(f"/proc/{pid}/autogroup").write_text(said[-1])


class Disk:
    """A machine's disk: a file system of its own where such may be mounted, else a folder."""

    def __init__(self, folder: pathlib.Path, name: str) -> None:
        self.image, self.place, self.device = folder / f"{name}.image", folder / name, ""
        self.place.mkdir()
        with open(self.image, "wb") as image:
            image.truncate(DISK)
        found = subprocess.run(["losetup", "-f", "--show", self.image], capture_output=True, text=True)
        if not found.returncode:
            self.device = found.stdout.strip()
            subprocess.run(["mkfs.ext4", "-q", self.device], check=True)
            self._mount()

    def _mount(self) -> None:
        """Mounts it."""
        subprocess.run(["mount", self.device, self.place], check=True)

    def cut(self) -> None:
        """The power is cut: nothing is written any more, and what wasn't is gone."""
        if self.device:
            place = os.open(self.place, os.O_RDONLY)
            try:
                fcntl.ioctl(place, SHUTDOWN, struct.pack("I", WITHOUT_LOG))
            finally:
                os.close(place)

    def back(self) -> None:
        """The power is there again."""
        if self.device:
            for _ in range(100):
                if not subprocess.run(["umount", self.place], capture_output=True).returncode:
                    break
                time.sleep(0.1)
            self._mount()

    def give_back(self) -> None:
        """Unmounts it."""
        if self.device:
            subprocess.run(["umount", "-l", self.place], capture_output=True)
            subprocess.run(["losetup", "-d", self.device], capture_output=True)


class House:
    """The machines 1, 2 and 3, and the networks between them."""

    def __init__(self, program: str, port: int, name: str = "", folder: Optional[str] = None, lease: int = 3) -> None:
        self.folder = pathlib.Path(tempfile.mkdtemp(prefix="storm-", dir=folder))
        self.program, self.base, self.lease = program, port, lease
        self.package = self.folder / "copy/python/romp801"
        shutil.copytree(TOP / "python/romp801", self.package, ignore=shutil.ignore_patterns("__pycache__"))
        shutil.copytree(TOP / "tools", self.folder / "copy/tools")
        broken.broken(name, self.package, in_storm=True)
        self.tool = self.folder / "copy/tools/cluster"
        self.disks: Dict[int, Disk] = {}
        self.running: Dict[str, subprocess.Popen[bytes]] = {}
        self.members = ",".join(f"http://127.0.0.1:{self.base + it}" for it in (1, 2, 3))
        self.nodes = ",".join(self.at(it) for it in (1, 2, 3))
        self.engine = Engine(self.members, None, 5.0)
        self.more: List[str] = []

    def at(self, it: int) -> str:
        """Where a node answers."""
        return f"127.0.0.1:{self.base + 20 + it}"

    def start(self, name: str, *words: object) -> None:
        """Begins a process."""
        with open(self.folder / f"{name}.log", "ab") as said:
            self.running[name] = subprocess.Popen(
                [str(it) for it in words], stdout=said, stderr=said, stdin=subprocess.DEVNULL, start_new_session=True
            )
        raise_as_own(self.running[name].pid)

    def start_member(self, it: int, state: str = "new") -> None:
        """Begins a member. What others send to it goes over a proxy, so that it can be made deaf."""
        url, peer = f"http://127.0.0.1:{self.base + it}", f"http://127.0.0.1:{self.base + 70 + it}"
        all_peers = ",".join(f"e{k}=http://127.0.0.1:{self.base + 70 + k}" for k in (1, 2, 3))
        self.start(
            f"e{it}",
            "etcd",
            "--name",
            f"e{it}",
            "--data-dir",
            self.disks[it].place / "etcd",
            "--listen-peer-urls",
            f"http://127.0.0.1:{self.base + 10 + it}",
            "--initial-advertise-peer-urls",
            peer,
            "--listen-client-urls",
            url,
            "--advertise-client-urls",
            url,
            "--initial-cluster",
            all_peers,
            "--initial-cluster-state",
            state,
            "--log-level",
            "error",
            "--heartbeat-interval",
            "100",
            "--election-timeout",
            "800",
            "--auto-compaction-mode",
            "revision",
            "--auto-compaction-retention",
            "5000",
        )

    def start_node(self, it: int) -> None:
        """Begins a node. It asks the engine over proxies."""
        ends = ",".join(f"http://127.0.0.1:{self.base + 30 + 10 * it + k}" for k in (1, 2, 3))
        self.start(
            f"n{it}",
            self.tool,
            "node",
            "--engine",
            ends,
            "--name",
            f"n{it}",
            "--folder",
            self.disks[it].place / "node",
            "--listen",
            self.at(it),
            "--lease",
            self.lease,
            "--program",
            self.program,
            *self.more,
        )

    def begin(self) -> None:
        """Begins all but the nodes."""
        proxy = TOP / "checks/storm/proxy.py"
        for it in (1, 2, 3):
            self.disks[it] = Disk(self.folder, f"disk{it}")
            self.start(
                f"pe{it}",
                sys.executable,
                proxy,
                self.folder / f"cut-e{it}",
                f"{self.base + 70 + it}={self.base + 10 + it}",
            )
            ways = [f"{self.base + 30 + 10 * it + k}={self.base + k}" for k in (1, 2, 3)]
            self.start(f"pn{it}", sys.executable, proxy, self.folder / f"cut-n{it}", *ways)
            self.start_member(it)
        self.wait_for_engine()

    def wait_for_engine(self) -> None:
        """Waits until the engine answers."""
        for _ in range(300):
            with contextlib.suppress(EngineFault):
                self.engine.get(b"x", 0.2)
                return
            time.sleep(0.2)
        raise SystemExit("the engine doesn't answer")

    def call(self, *words: object) -> Tuple[int, str]:
        """Calls tools/cluster."""
        done = subprocess.run([str(it) for it in (self.tool, *words)], capture_output=True, text=True)
        return done.returncode, done.stdout + done.stderr

    # what happens to them

    def group(self, name: str, what: int) -> None:
        """A signal to a process and all that it began."""
        with contextlib.suppress(ProcessLookupError):
            os.killpg(self.running[name].pid, what)

    def kill(self, name: str, whole: bool = True) -> None:
        """Kills a process, with what it began or alone."""
        if whole:
            self.group(name, signal.SIGKILL)
        else:
            self.running[name].kill()
        self.running[name].wait()

    def power(self, machines: List[int]) -> None:
        """The power of machines is cut, and comes back."""
        for it in machines:
            self.disks[it].cut()
        for it in machines:
            self.kill(f"e{it}")
            self.kill(f"n{it}")
        for it in machines:
            self.disks[it].back()

    def lose(self, it: int) -> None:
        """A machine is lost with all that it has."""
        self.kill(f"e{it}")
        self.kill(f"n{it}")
        for what in ("etcd", "node"):
            shutil.rmtree(self.disks[it].place / what, ignore_errors=True)

    def replace_member(self, it: int) -> bool:
        """A member that lost its disk is taken out of the engine, and put in anew."""
        peer = f"http://127.0.0.1:{self.base + 70 + it}"
        for _ in range(60):
            with contextlib.suppress(EngineFault, KeyError):
                found = {m.get("name"): m["ID"] for m in self.engine.read("/v3/cluster/member/list", {})["members"]}
                if f"e{it}" in found:
                    self.engine.write("/v3/cluster/member/remove", {"ID": found[f"e{it}"]})
                members = self.engine.read("/v3/cluster/member/list", {})["members"]
                if peer not in [url for m in members for url in m.get("peerURLs", [])]:
                    self.engine.write("/v3/cluster/member/add", {"peerURLs": [peer]})
                return True
            time.sleep(0.3)
        return False

    def cut(self, *names: str) -> None:
        """Nothing passes to these."""
        for it in names:
            (self.folder / f"cut-{it}").touch()

    def join(self, *names: str) -> None:
        """What was cut is whole again."""
        for it in names:
            with contextlib.suppress(FileNotFoundError):
                (self.folder / f"cut-{it}").unlink()

    def leader(self) -> int:
        """The engine's leader."""
        ids: Dict[str, int] = {}
        leads = ""
        for it in (1, 2, 3):
            with contextlib.suppress(EngineFault, KeyError):
                said = Engine(f"http://127.0.0.1:{self.base + it}", None, 0.5).read("/v3/maintenance/status", {}, 0.1)
                ids[said["header"]["member_id"]], leads = it, said["leader"]
        return ids.get(leads, 1)

    def node_file(self, it: int, store: str) -> pathlib.Path:
        """A node's file of a store."""
        return self.disks[it].place / "node" / store

    def end(self) -> None:
        """Ends all, and takes away what was made."""
        for name in self.running:
            self.group(name, signal.SIGCONT)
            self.group(name, signal.SIGKILL)
            self.running[name].wait()
        for disk in self.disks.values():
            disk.give_back()

    def clear(self) -> None:
        """Takes away what was made."""
        shutil.rmtree(self.folder, ignore_errors=True)
