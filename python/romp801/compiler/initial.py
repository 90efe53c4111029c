"""The values that a variable begins with."""
from __future__ import annotations

from typing import Any, Optional

from romp801.compiler import tree
from romp801.compiler.code import Data, word
from romp801.compiler.expressions import Expressions, string_of
from romp801.compiler.faults import refused
from romp801.compiler.kinds import Array, Int, Record, Type
from romp801.compiler.tree import Expr, Number

Store = tuple[int, Type, Expr]


class Initial:
    """The stores of an initialiser: where, of which type, and what. `size` of an array that doesn't tell its number of
    elements grows with them."""

    def __init__(self, reads: Expressions, its: Type, node: Any) -> None:
        self.reads = reads
        self.stores: list[Store] = []
        self.count, self.named = 0, False
        self._whole(its, node, 0)
        self.type = Array(its.of, self.count) if isinstance(its, Array) and its.count is None else its

    def _whole(self, its: Type, node: Any, at: int) -> None:
        """An object gets a value, or a list of values."""
        self._anew(its, at)
        if type(node).__name__ == "InitList":
            items = list(node.exprs)
            if is_text(its, items[0]) if len(items) == 1 else False:
                self._text(its, items[0], at)
            elif isinstance(its, (Array, Record)):
                self._members(its, items, at, node)
            elif len(items) != 1:
                raise refused(node, f"{its} begins with one value")
            else:
                self._whole(its, items[0], at)
        elif is_text(its, node):
            self._text(its, node, at)
        elif isinstance(its, Array):
            raise refused(node, "an array begins with a list of values in braces")
        else:
            self._store(its, node, at)

    def _store(self, its: Type, node: Any, at: int) -> None:
        if type(node).__name__ == "NamedInitializer":
            raise refused(node, f"{its} has no members")
        self.stores.append((at, its, self.reads.convert(node, self.reads.value(node), its)))

    def _text(self, its: Type, node: Any, at: int) -> None:
        """An array of bytes gets a string."""
        assert isinstance(its, Array) and isinstance(its.of, Int)
        text = string_of(node) + b"\0"
        if its.count is None:
            self.count = len(text)
        elif len(text) - 1 > its.count:
            raise refused(node, f"the string has {len(text) - 1} bytes, and the array {its.count}")
        for place, byte in enumerate(text[: its.count or len(text)]):
            self.stores.append((at + place, its.of, Number(its.of, None, its.of.wrap(byte))))

    def _element(self, its: Type, index: int, node: Any) -> Optional[tuple[int, Type]]:
        """Where the element or member with this index is, and its type; None behind the last."""
        if isinstance(its, Array):
            if its.count is None:
                self.count = max(self.count, index + 1)
            elif index >= its.count:
                return None
            return index * its.of.size, its.of
        assert isinstance(its, Record)
        if index >= (len(its.fields) if its.word == "struct" else min(1, len(its.fields))):
            return None
        return its.fields[index].offset, its.fields[index].type

    def _members(self, its: Type, items: list[Any], at: int, outer: Optional[Any], index: int = 0) -> None:
        """Elements or members one after another, from an index on; within the list of another object they take what
        they have room for."""
        while items:
            item = items[0]
            if type(item).__name__ == "NamedInitializer":
                if outer is None:
                    return
                items.pop(0)
                index = self._named(its, item, at, items)
                continue
            found = self._element(its, index, item)
            if found is None:
                if outer is not None:
                    raise refused(item, f"{its} has no room for this value")
                return
            self._take(found[1], items, at + found[0])
            index += 1

    def _named(self, its: Type, item: Any, at: int, items: list[Any]) -> int:
        """An element or a member that is named; what comes behind it goes on from there. Returns the index behind it in
        the object at hand."""
        self.named = True
        around: list[tuple[Type, int, int]] = []
        for name in item.name:
            for index in self._indexes(its, name, item):
                around.append((its, at, index + 1))
                found = its.fields[index][1:] if isinstance(its, Record) else self._element(its, index, item)
                if found is None:
                    raise refused(item, f"{its} has no element {index}")
                at, its = at + found[0], found[1]
        self._take(its, [item.expr], at)
        for its, at, index in around[:0:-1]:
            self._members(its, items, at, None, index)
        return around[0][2]

    def _indexes(self, its: Type, name: Any, item: Any) -> list[int]:
        """The index that a name means; more than one where the member is in members without names."""
        if isinstance(its, Record) and type(name).__name__ == "ID":
            for index, field in enumerate(its.fields):
                if field.name == name.name:
                    return [index]
                if field.name is None and isinstance(field.type, Record) and field.type.find(name.name):
                    return [index, *self._indexes(field.type, name, item)]
            raise refused(item, f"{its} has no member {name.name}")
        if isinstance(its, Array):
            index = self.reads.constant(name)
            if index < 0:
                raise refused(item, f"{its} has no element {index}")
            return [index]
        raise refused(item, f"{its} has no such part")

    def _anew(self, its: Type, at: int) -> None:
        """What an object was given before goes, where it is given a value again."""
        if self.named:
            self.stores = [it for it in self.stores if not at <= it[0] <= it[0] + it[1].size <= at + its.size]

    def _take(self, its: Type, items: list[Any], at: int) -> None:
        """An element gets what comes next."""
        item = items[0]
        if type(item).__name__ == "InitList" or not isinstance(its, (Array, Record)) or is_text(its, item):
            items.pop(0)
            self._whole(its, item, at)
        elif isinstance(its, Record) and self.reads.value(item).type is its:
            items.pop(0)
            self._anew(its, at)
            self._store(its, item, at)
        else:
            self._members(its, items, at, None)

    def is_constant(self) -> bool:
        """Whether each value is told before the program runs."""
        return all(isinstance(it, (Number, tree.Address)) for _, _, it in self.stores)

    def fill(self, data: Data, node: Any) -> None:
        """Gives data its bytes."""
        data.bytes = bytearray(self.type.size)
        for at, its, value in self.stores:
            end = at + its.size
            data.links = [it for it in data.links if it[0] + 4 <= at or it[0] >= end]
            if isinstance(value, tree.Address) and its.size == 4:
                data.bytes[at:end] = bytes(4)
                data.links.append((at, value.thing, value.offset))
            elif isinstance(value, Number):
                data.bytes[at:end] = (word(value.value) & ((1 << 8 * its.size) - 1)).to_bytes(its.size, "big")
            else:
                raise refused(node, "a variable that isn't a function's own begins with constants")


def is_text(its: Type, node: Any) -> bool:
    """Whether a string is the value of an array of bytes."""
    return (
        isinstance(its, Array)
        and isinstance(its.of, Int)
        and its.of.size == 1
        and type(node).__name__ == "Constant"
        and node.type == "string"
    )

