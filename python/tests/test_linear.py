"""The second judge of a storm on a cluster, against all orders of a few operations."""
from __future__ import annotations

import importlib.util
import itertools
import os
import random
import unittest
from typing import Any, Dict, List, Optional

JUDGE = os.path.join(
    os.path.dirname(os.path.dirname(os.path.dirname(os.path.abspath(__file__)))), "checks/storm/linear.py"
)


def judge() -> Any:
    """The judge, which stands by itself."""
    if not os.path.exists(JUDGE):
        return None
    spec = importlib.util.spec_from_file_location("linear", JUDGE)
    assert spec is not None and spec.loader is not None
    made = importlib.util.module_from_spec(spec)
    spec.loader.exec_module(made)
    return made


def answer(order: random.Random, kind: str) -> Optional[int]:
    """An answer that an operation may have."""
    choices: Dict[str, List[Optional[int]]] = {"read": [0, 1, 2], "write": [1, 1, None], "swap": [0, 1, None]}
    return order.choice(choices[kind])


class Linear(unittest.TestCase):
    """Operations on one register."""

    def test_all_orders(self) -> None:
        """It says yes where one of all orders is fine."""
        linear = judge()
        if linear is None:
            self.skipTest("the judge isn't installed")

        def is_fine(operations: List[Any], order: Any) -> bool:
            """Whether each has its answer in this order, which keeps their times."""
            value = 0
            for at, it in enumerate(order):
                if any(
                    operations[later]["result"] is not None and operations[later]["told"] < operations[it]["begun"]
                    for later in order[at:]
                ):
                    return False
                holds, value = linear.step(value, operations[it])
                if not holds:
                    return False
            return True

        order, found = random.Random(801), [0, 0]
        for _ in range(1500):
            operations = []
            for _ in range(order.randrange(1, 6)):
                begun, kind = order.random(), order.choice(("read", "write", "swap"))
                operations.append(
                    {
                        "kind": kind,
                        "first": order.randrange(3),
                        "second": order.randrange(3),
                        "begun": begun,
                        "told": begun + order.random() * 0.4,
                        "result": answer(order, kind),
                    }
                )
            wanted = any(is_fine(operations, it) for it in itertools.permutations(range(len(operations))))
            self.assertEqual(linear.is_linear(operations), wanted, operations)
            found[wanted] += 1
        self.assertGreater(min(found), 300)


if __name__ == "__main__":
    unittest.main()
