"""What is refused, and where: a place of a source, and why in words."""
from __future__ import annotations

from typing import Any, NamedTuple, Optional

from romp801.errors import NO, Failure


class Place(NamedTuple):
    """A place of a source: its file, its line and its column, from 1; a column of 0 is none."""

    file: str
    line: int
    column: int = 0

    @classmethod
    def of(cls, node: Any) -> Optional[Place]:
        """Where a node of the parser's tree stands, or else the first below it that tells."""
        coord = getattr(node, "coord", None)
        if coord is None or coord.file is None:
            inner = (cls.of(it) for _, it in node.children()) if hasattr(node, "children") else iter(())
            return next((it for it in inner if it is not None), None)
        return cls(coord.file, coord.line or 0, coord.column or 0)

    def __str__(self) -> str:
        return ":".join(str(it) for it in self if it)


class Refused(Failure):
    """A source that isn't compiled."""

    def __init__(self, place: Optional[Place], why: str) -> None:
        super().__init__(f"{place}: {why}" if place else why, NO)
        self.place = place
        self.why = why


def refused(node: Any, why: str) -> Refused:
    """The refusal of a node of the parser's tree."""
    return Refused(Place.of(node), why)
