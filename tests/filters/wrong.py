"""Wrong implementations: those of `filters.py`, each with one number or one comparison changed.

The runs of a filter have to notice each of them. Else they would say little of the filter, and of its second implementation.
"""

from __future__ import annotations

import ast
import inspect
from typing import Callable, Dict, Iterator, Set, Tuple, Type

import filters

Implementation = Callable[[filters.Run], filters.Left]

# what each comparison is turned into
_OTHER: Dict[Type[ast.cmpop], Type[ast.cmpop]] = {
    ast.Lt: ast.LtE,
    ast.LtE: ast.Lt,
    ast.Gt: ast.GtE,
    ast.GtE: ast.Gt,
    ast.Eq: ast.NotEq,
    ast.NotEq: ast.Eq,
    ast.In: ast.NotIn,
}


def implementations(name: str) -> Iterator[Tuple[str, Implementation]]:
    """The wrong implementations of a filter, each with the line of `filters.py` that it has in place of another.

    >>> [line for line, _ in implementations("prefix")][0]
    "start = run.argument.to_bytes(5, 'little')"
    """
    tree = ast.parse(inspect.getsource(filters))
    functions = {it.name: it for it in tree.body if isinstance(it, ast.FunctionDef)}
    first = filters.FILTERS[name].__name__
    for used in sorted(_used(first, functions)):
        for statement in functions[used].body:
            for _ in _changed(statement):
                space: Dict[str, object] = {"__name__": filters.__name__}
                exec(compile(tree, filters.__file__, "exec"), space)
                yield ast.unparse(statement), space[first]  # type: ignore[misc]


def _used(name: str, functions: Dict[str, ast.FunctionDef]) -> Set[str]:
    """A function, and those that it uses."""
    used, more = set(), {name}
    while more:
        used |= more
        names = {it.id for used_one in more for it in ast.walk(functions[used_one]) if isinstance(it, ast.Name)}
        more = (names & set(functions)) - used
    return used


def _changed(tree: ast.AST) -> Iterator[None]:
    """Changes one number or one comparison of a tree after another, each only until the next."""
    for node in ast.walk(tree):
        if isinstance(node, ast.Constant) and type(node.value) is int:
            node.value += 1
            yield
            node.value -= 1
        if isinstance(node, ast.Compare):
            for at, comparison in enumerate(node.ops):
                node.ops[at] = _OTHER[type(comparison)]()
                yield
                node.ops[at] = comparison
