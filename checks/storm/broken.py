"""Wrong bodies of the cluster, which its checks must find: in which file of python/romp801/cluster, what is replaced by
what. They are made in a copy. `RIGHT` are changes by which nothing goes wrong."""
from __future__ import annotations

import pathlib
from typing import Dict, List, Tuple

Edit = Tuple[str, str, str]
TERM, READER, TABLE, KEYS, KEEPER, SLOTS, NODE, IMAGE, REPLICA = (
    f"{it}.py" for it in ("term", "reader", "table", "keys", "keeper", "slots", "node", "image", "replica")
)
PRIMARY = "            etcd.is_created(self.keys.primary, self.created),\n"
HEAD = "            etcd.is_value(self.keys.head, head_of(batch.number, batch.sum)),\n"
CONFIG = "            etcd.is_changed(CONFIG, batch.config),\n"
FOUND_IN_TABLE = (
    "            return self.seen.find(who) or found if found is None or isinstance(found, Late) else found\n"
)
SHIPPED = (
    "        if not batch.is_shipped.result():\n"
    '            raise Deposed(f"what was put behind {batch.number} isn\'t what `ship` prints")\n'
)
WRONG: Dict[str, List[Edit]] = {
    "unfenced": [(TERM, PRIMARY + HEAD + CONFIG, "")],
    "answers-early": [
        (
            TERM,
            "                self._settle(batch)\n                self._settled(batch)\n",
            "                self._settled(batch)\n                self._settle(batch)\n",
        )
    ],
    "twice": [(TERM, FOUND_IN_TABLE, "            return None\n")],
    "table-lost": [
        (
            TERM,
            "self.table, self.content, self.settled_config = image.table,",
            "self.table, self.content, self.settled_config = Table(),",
        )
    ],
    "unknown-is-yes": [
        (
            TERM,
            "            except EngineFault:\n                held = None\n",
            "            except EngineFault:\n                held = True\n",
        )
    ],
    # (without the second half it is hidden: a node that is cut off goes by its own clock, and gives up before the
    # engine does)
    "reads-unfenced": [
        (
            READER,
            "        held, (head, item) = term.engine.look(\n"
            "            [etcd.is_created(term.keys.primary, term.created)], term.keys.head, CONFIG\n        )\n",
            "        number, config = term.content.number, term.config\n",
        ),
        (
            READER,
            '        if not held or head is None or item is None:\n            term.over("another is the primary")\n'
            '            raise EngineFault("another is the primary")\n'
            "        number, config = read_head(head.value)[0], Config.of(item)\n",
            "",
        ),
        (KEEPER, "        while term.why is None and self.node.lease == lease:", "        while term.why is None:"),
    ],
    "gives-up-unfenced": [
        (
            TERM,
            "        entry, deeds = batch.entry, []\n",
            "        entry, deeds = batch.entry, []\n        if entry is None:\n            return\n",
        ),
        (KEEPER, "        while term.why is None and self.node.lease == lease:", "        while term.why is None:"),
    ],
    "lying-text": [
        (
            TERM,
            "        text = self.journal.text(self.work.file, self.number)\n",
            "        text = self.journal.text(self.work.file, self.number)\n"
            '        text = text and text.replace("\\nline 1 0", "\\nline 1 1", 1)\n',
        ),
        (TERM, SHIPPED, ""),
    ],
    "text-unheld": [(TERM, SHIPPED, "")],
    "lying-steps": [
        (
            TERM,
            "        done = tuple(Done(it.more.who, message_of(it.request), end) for it, end in commits)\n",
            "        done = tuple(Done(it.more.who, message_of(it.request), "
            "Commit(1, end.number, end.steps + (end.number == 50), end.out)) for it, end in commits)\n",
        )
    ],
    "lying-number": [
        (
            KEEPER,
            '        return {"end": str(end), "at": self.moment()}',
            '        return {"end": str(end).replace("number 50 ", "number 7 "), "at": self.moment()}',
        )
    ],
    "slots-unasked": [
        (
            TERM,
            "            elif not self.config.has(self.replica.name, it.more.guard):\n"
            "                ends.append((place, Elsewhere(0)))\n",
            "",
        )
    ],
    "config-unfenced": [(TERM, CONFIG, "")],
    "not-frozen": [
        (
            KEYS,
            '        served = all(self._slot(it) == Slot(store, it[1], it[2]) for it in guard.get("slots", ()))\n',
            "        served = all((self._slot(it) or Slot('', 0, 0))[:3] == (store, it[1], it[2]) "
            'for it in guard.get("slots", ()))\n',
        )
    ],
    "outbox-unsettled": [(SLOTS, "        settle(self.slot)\n", "")],
    "primary-only": [(TERM, HEAD, "")],
    "late-is-new": [
        (TABLE, "            return Late() if who.since < self.horizon else None", "            return None")
    ],
    "old-is-new": [(TABLE, "            return Old()\n", "            return None\n")],
    "anew-is-whole": [(TABLE, "max(who.since, self.horizon)", "who.since")],
    "old-is-run": [
        (TERM, FOUND_IN_TABLE, "            return found if isinstance(found, Ended) else self.seen.find(who)\n")
    ],
    "old-copies": [
        (
            NODE,
            "        elif at is None or at[0] != term.created or term.seen.is_stale(at[1]):",
            "        elif at is None:",
        )
    ],
    "gave-up-forgotten": [(NODE, " or term.seen.is_stale(at[1]):", ":")],
    "gave-up-again": [
        (
            TERM,
            FOUND_IN_TABLE,
            "            return found\n",
        )
    ],
    "reads-behind": [(READER, "        while term.content.number < number:", "        while False:")],
    "image-without-table": [(IMAGE, 'Table.of(json.loads(zlib.decompress(data[: told["table"]])))', "Table()")],
    "sums-unlooked": [
        (REPLICA, "            if total != entry.sum:", "            if False:"),
        (
            REPLICA,
            "        if number < self.number or number == self.number and total != self.sum:",
            "        if False:",
        ),
    ],
    "file-written-over": [(REPLICA, "        os.replace(self.path, aside)\n        files.sync_folder(aside)\n", "")],
    "not-at-head": [
        (
            TERM,
            "            if head is not None and head.value == head_of(image.number, image.sum):",
            "            if True:",
        )
    ],
}
RIGHT: Dict[str, List[Edit]] = {
    "head-only": [(TERM, PRIMARY, "")],
    "clock-unasked": [
        (KEEPER, "        while term.why is None and self.node.lease == lease:", "        while term.why is None:")
    ],
}
SMALL: List[Edit] = [(TABLE, "KEPT = 100000", "KEPT = 60")]
"""A table that forgets soon, so that a storm comes to it."""
RIGHT["small"] = SMALL
ALL = {**WRONG, **RIGHT}
STORM: Dict[str, str] = {
    "unfenced": "stop,cut",
    "answers-early": "cut,primary",
    "twice": "primary",
    "table-lost": "primary",
    "unknown-is-yes": "cut,leader",
    "reads-unfenced": "old-reader",
    "gives-up-unfenced": "old-reader",
    "lying-text": "primary",
    "lying-steps": "primary",
    "lying-number": "primary",
    "slots-unasked": "move",
    "config-unfenced": "move",
    "not-frozen": "move",
    "outbox-unsettled": "move",
    "primary-only": "late,cut",
    "late-is-new": "primary",
    "old-is-new": "primary",
    "old-is-run": "primary",
    "old-copies": "primary",
    "gave-up-forgotten": "primary",
    "gave-up-again": "primary",
    "image-without-table": "all-nodes,primary",
    "head-only": "stop,cut",
    "clock-unasked": "stop,old-reader",
    "small": "primary,cut",
}
"""In which weather checks/cluster_storm looks for each. The others can't be seen from outside in a storm:
`reads-behind` shows what was so before anything that was told; `not-at-head` puts nothing, since the comparison holds
it up; `text-unheld` tells what is so where the text is; for `anew-is-whole` a session has to be forgotten while its
request is run; and for `sums-unlooked` and `file-written-over` the engine has to be put back to a backup, which takes told
commits away."""
FORGETS = ("late-is-new", "gave-up-forgotten")
FOUND: Dict[str, str] = {
    "unfenced": "Told",
    "answers-early": "Told.test_behind",
    "twice": "Once.test_again",
    "table-lost": "Once.test_again",
    "unknown-is-yes": "Told.test_lost_and_deposed",
    "reads-unfenced": "Reads.test_old_primary",
    "gives-up-unfenced": "Told.test_deposed",
    "lying-text": "Histories.test_audit",
    "text-unheld": "Told.test_another_text",
    "lying-steps": "Histories.test_audit",
    "lying-number": "Told.test_behind",
    "slots-unasked": "Moves",
    "config-unfenced": "Told.test_behind_another",
    "not-frozen": "Moves",
    "outbox-unsettled": "Bank.test_letters",
    "primary-only": "Told.test_late_copy",
    "late-is-new": "test_cluster.Tables",
    "old-is-new": "test_cluster.Tables",
    "anew-is-whole": "test_cluster.Tables",
    "old-is-run": "Once.test_answered",
    "old-copies": "Once.test_old_copies",
    "gave-up-forgotten": "Once.test_old_copies",
    "gave-up-again": "Once.test_gave_up",
    "reads-behind": "Reads.test_behind",
    "image-without-table": "Once.test_image",
    "sums-unlooked": "Histories.test_put_back",
    "file-written-over": "Histories",
    "not-at-head": "Begins",
}
"""Which tests of python/tests see each."""


def broken(name: str, package: pathlib.Path, in_storm: bool = False) -> None:
    """Makes a wrong body in a copy of the package romp801; for a storm with a table that it comes to."""
    for file, old, new in [*ALL.get(name, []), *(SMALL if in_storm and name in FORGETS else [])]:
        path = package / "cluster" / file
        text = path.read_text("utf-8")
        if text.count(old) != 1:
            raise SystemExit(f"{name}: what it replaces stands {text.count(old)} times in {file}")
        path.write_text(text.replace(old, new), "utf-8")
