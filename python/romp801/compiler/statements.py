"""Statements: what a function does, step by step."""
from __future__ import annotations

from typing import Any, Iterator, Optional

from romp801.compiler import kinds
from romp801.compiler.code import Block, Body, Code, Data, End, Reg, Symbol, Value, signed, word
from romp801.compiler.expressions import Expressions
from romp801.compiler.faults import Place, refused
from romp801.compiler.initial import Initial
from romp801.compiler.kinds import Array, Function, Int, Record, Type
from romp801.compiler.lower import Lowering, Memory
from romp801.compiler.names import Names, decayed
from romp801.compiler.tree import Expr, Variable

SMALL = 12
"""Nodes of a loop's condition that is looked at before the loop too."""
FEW = 4
"""Cases that are compared one after another."""


class Outer:
    """What a function's statements ask of the file around: a declaration that isn't a variable's of the function, and
    data of a variable that stays."""

    def declare(self, node: Any) -> bool:
        """Takes a declaration; says whether it did."""
        raise NotImplementedError

    def static(self, node: Any, function: str) -> None:
        """Takes a variable that stays."""
        raise NotImplementedError

    def image(self, its: Type) -> Data:
        """Data without a name."""
        raise NotImplementedError


class Statements(Lowering):
    """Makes steps of a function's statements."""

    def __init__(self, names: Names, reads: Expressions, outer: Outer, code: Code) -> None:
        super().__init__()
        self.names, self.reads, self.outer, self.code = names, reads, outer, code
        assert isinstance(code.type, Function)
        self.result = code.type.result
        self.addressed: set[str] = set()
        self.breaks: list[Block] = []
        self.continues: list[Block] = []
        self.cases: list[dict[int, Block]] = []
        self.labels: dict[str, Block] = {}
        self.told: set[str] = set()
        self.gotos: dict[str, Any] = {}
        self.returned: Optional[Memory] = None

    def function(self, node: Any) -> Body:
        """The body of a definition."""
        self.addressed = {
            it.expr.name
            for it in nodes_of(node.body)
            if type(it).__name__ == "UnaryOp" and it.op == "&" and type(it.expr).__name__ == "ID"
        }
        self.place = self.body.place = Place.of(node.decl)
        self.names.enter()
        self._parameters(node)
        self._Compound(node.body, inner=False)
        self.names.leave()
        for name, goto in self.gotos.items():
            if name not in self.told:
                raise refused(goto, f"there is no label {name}")
        self.block.end = End("return", self.place)
        return self.body

    def _parameters(self, node: Any) -> None:
        """The parameters get their places."""
        declared = node.decl.type.args.params if node.decl.type.args else []
        if isinstance(self.result, Record):
            hidden = Reg("result")
            self.body.parameters.append(hidden)
            self.returned = Memory(hidden)
        for it in declared:
            its = decayed(self.names.type_of(it))
            if isinstance(its, kinds.Void):
                continue
            if getattr(it, "name", None) is None:
                raise refused(it, "a parameter of a function with a body has a name")
            register = Reg(it.name)
            self.body.parameters.append(register)
            variable = Variable(it.name, its, it.name in self.addressed or isinstance(its, Record))
            self.names.put(it, it.name, variable)
            if isinstance(its, Record):
                self.where[variable] = Memory(register)
            elif variable.kept:
                self.store(self.keep(variable), its, register)
            else:
                self.where[variable] = register

    def statement(self, node: Any) -> None:
        """A statement."""
        if node is None:
            return
        self.place = Place.of(node) or self.place
        name = type(node).__name__
        reader = getattr(self, f"_on_{name}", None)
        if reader is not None:
            reader(node)
        elif name == "Compound":
            self._Compound(node)
        else:
            self.effect(self.reads.value(node))

    def _Compound(self, node: Any, inner: bool = True) -> None:
        if inner:
            self.names.enter()
        for it in node.block_items or []:
            self.statement(it)
        if inner:
            self.names.leave()

    def _on_EmptyStatement(self, node: Any) -> None:
        pass

    def _on_Pragma(self, node: Any) -> None:
        if (node.string or "").split()[:1] == ["segment"]:
            raise refused(node, "a segment begins outside of functions")

    def _on_StaticAssert(self, node: Any) -> None:
        hold(self.reads, node)

    def _on_Typedef(self, node: Any) -> None:
        self.outer.declare(node)

    def _on_DeclList(self, node: Any) -> None:
        for it in node.decls:
            self.statement(it)

    def _on_Decl(self, node: Any) -> None:
        if self.outer.declare(node):
            return
        if "static" in (node.storage or []):
            self.outer.static(node, self.code.name)
            return
        its = self.names.type_of(node.type)
        kept = isinstance(its, (Array, Record)) or node.name in self.addressed
        variable = Variable(node.name, its, kept)
        if node.init is None or not isinstance(its, Array) or its.count is not None:
            self.names.complete(node, its, node.name)
            self.names.put(node, node.name, variable)
        if node.init is None:
            if isinstance(its, Array) and its.count is None:
                raise refused(node, f"{node.name} has to tell its number of elements")
            self.keep(variable)
            return
        first = Initial(self.reads, its, node.init)
        variable.type = first.type
        self.names.put(node, node.name, variable)
        self._begin(variable, first, node)

    def _begin(self, variable: Variable, first: Initial, node: Any) -> None:
        """A variable gets its first values."""
        its = variable.type
        where = self.where.get(variable) or self.keep(variable)
        if isinstance(where, Memory) and first.is_constant() and len(first.stores) > 16:
            data = self.outer.image(its)
            first.fill(data, node)
            self.copy(where, Memory(Symbol(data)), its)
        elif isinstance(where, Memory):
            self.fill(where, its, first.stores)
        else:
            self.store(where, its, self.value(first.stores[0][2]))

    def _on_If(self, node: Any) -> None:
        then, other, over = Block(), Block(), Block()
        self.condition(self.reads.scalar(node.cond), then, other if node.iffalse is not None else over)
        self.begin(then)
        self.statement(node.iftrue)
        self.jump(over)
        if node.iffalse is not None:
            self.begin(other)
            self.statement(node.iffalse)
            self.jump(over)
        self.begin(over)

    def _loop_of(self, node: Any, truth: Optional[Expr], next_node: Any) -> None:
        """A loop that looks at its condition at its end, and before it begins."""
        again, go_on, look, over = Block(), Block(), Block(), Block()
        small = truth is not None and sum(1 for _ in nodes_of(node.cond)) <= SMALL
        if truth is not None and small:
            self.condition(truth, again, over)
        else:
            self.jump(look if truth is not None else again)
        self.begin(again)
        self.breaks.append(over)
        self.continues.append(go_on)
        self.statement(node.stmt)
        self.breaks.pop()
        self.continues.pop()
        self.jump(go_on)
        self.begin(go_on)
        if next_node is not None:
            self.place = Place.of(next_node) or self.place
            self.effect(self.reads.value(next_node))
        self.jump(look)
        self.begin(look)
        if truth is None:
            self.jump(again)
        else:
            self.condition(truth, again, over)
        self.begin(over)

    def _on_While(self, node: Any) -> None:
        self._loop_of(node, self.reads.scalar(node.cond), None)

    def _on_For(self, node: Any) -> None:
        self.names.enter()
        if node.init is not None:
            self.statement(node.init)
        self._loop_of(node, None if node.cond is None else self.reads.scalar(node.cond), node.next)
        self.names.leave()

    def _on_DoWhile(self, node: Any) -> None:
        again, look, over = Block(), Block(), Block()
        self.jump(again)
        self.begin(again)
        self.breaks.append(over)
        self.continues.append(look)
        self.statement(node.stmt)
        self.breaks.pop()
        self.continues.pop()
        self.jump(look)
        self.begin(look)
        self.place = Place.of(node.cond) or self.place
        self.condition(self.reads.scalar(node.cond), again, over)
        self.begin(over)

    def _leave(self, node: Any, to: list[Block], what: str) -> None:
        if not to:
            raise refused(node, f"{what} stands in no loop{'' if what == 'continue' else ' and no switch'}")
        self.jump(to[-1])
        self.begin(Block())

    def _on_Break(self, node: Any) -> None:
        self._leave(node, self.breaks, "break")

    def _on_Continue(self, node: Any) -> None:
        self._leave(node, self.continues, "continue")

    def _on_Goto(self, node: Any) -> None:
        self.gotos.setdefault(node.name, node)
        self.jump(self.labels.setdefault(node.name, Block()))
        self.begin(Block())

    def _on_Label(self, node: Any) -> None:
        if node.name in self.told:
            raise refused(node, f"the label {node.name} stands twice")
        self.told.add(node.name)
        block = self.labels.setdefault(node.name, Block())
        self.jump(block)
        self.begin(block)
        self.statement(node.stmt)

    def _on_Return(self, node: Any) -> None:
        end = End("return", self.place)
        if isinstance(self.result, kinds.Void):
            if node.expr is not None:
                found = self.reads.value(node.expr)
                if not isinstance(found.type, kinds.Void):
                    raise refused(node, "this function returns nothing")
                self.effect(found)
        elif node.expr is None:
            raise refused(node, f"this function returns {self.result}")
        else:
            value = self.value(self.reads.convert(node, self.reads.value(node.expr), self.result))
            if self.returned is not None:
                self.copy(self.returned, Memory(value), self.result)
            else:
                end.a = value
        self.block.end = end
        self.begin(Block())

    def _on_Switch(self, node: Any) -> None:
        found = self.reads.integer(node.cond)
        assert isinstance(found.type, Int)
        its = kinds.promoted(found.type)
        value = self.value(self.reads.convert(node, found, its))
        over, cases, default = Block(), {}, None
        blocks: dict[int, Block] = {}
        for it in labels_of(node.stmt):
            block = blocks[id(it)] = Block()
            if type(it).__name__ == "Default":
                if default is not None:
                    raise refused(it, "default stands twice")
                default = block
            else:
                number = word(its.wrap(self.reads.constant(it.expr)))
                if number in cases:
                    raise refused(it, "this case stands twice")
                cases[number] = block
        self._choose(value, sorted(cases.items(), key=lambda it: signed(it[0])), default or over)
        self.begin(Block())
        self.cases.append(blocks)
        self.breaks.append(over)
        self.statement(node.stmt)
        self.breaks.pop()
        self.cases.pop()
        self.jump(over)
        self.begin(over)

    def _choose(self, value: Value, cases: list[tuple[int, Block]], default: Block) -> None:
        """Goes to the case of a value."""
        if len(cases) > FEW:
            middle = len(cases) // 2
            number, block = cases[middle]
            not_it, less, more = Block(), Block(), Block()
            self.branch("eq", value, number, block, not_it)
            self.begin(not_it)
            self.branch("lt", value, number, less, more)
            self.begin(less)
            self._choose(value, cases[:middle], default)
            self.begin(more)
            self._choose(value, cases[middle + 1 :], default)
            return
        for number, block in cases:
            other = Block()
            self.branch("eq", value, number, block, other)
            self.begin(other)
        self.jump(default)

    def _on_Case(self, node: Any) -> None:
        if not self.cases or id(node) not in self.cases[-1]:
            raise refused(node, "a case stands in a switch")
        block = self.cases[-1][id(node)]
        self.jump(block)
        self.begin(block)
        for it in node.stmts or []:
            self.statement(it)

    _on_Default = _on_Case


def hold(reads: Expressions, node: Any) -> None:
    """Looks at what a file asserts."""
    if not reads.constant(node.cond):
        said = node.message.value if node.message is not None else ""
        raise refused(node, f"what is asserted doesn't hold {said}".rstrip())


def nodes_of(node: Any) -> Iterator[Any]:
    """A node and all below it."""
    if node is None:
        return
    waiting = [node]
    while waiting:
        it = waiting.pop()
        yield it
        waiting += [child for _, child in it.children()]


def labels_of(node: Any) -> Iterator[Any]:
    """The cases of a switch, in their order, but for those of a switch within."""
    name = type(node).__name__
    if name in ("Case", "Default"):
        yield node
    if name != "Switch":
        for _, child in node.children():
            yield from labels_of(child)

