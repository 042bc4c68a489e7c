"""How complete the suite is, by measure: each test of the tools' model is changed a little, and a case has to notice it.

A change is one of these: a test of a call left out, two tests in the other order, a comparison that takes one value more
or less, an equality turned round, a part of a condition left out, a number that is one more or one less, one side alone
of a choice, of a minimum or of a maximum, and an attribute that neighbours need not agree in. So a boundary without a
case is a change that nobody notices, and so are a pair of tests whose order no case shows, and a merge that no case has.
alike.txt has the changes that change no answer, and why.
"""

import ast
import copy
import functools
import inspect
import re
import signal
import types
from collections import Counter
from collections.abc import Iterator, Sequence
from dataclasses import dataclass
from pathlib import Path

from models.drawn import traces_of
from vmatools import model
from vmatools.profile.serial import serial_output
from vmatools.traces import Trace

SECONDS = 20.0  # of processor time: a changed model that takes longer for all cases is noticed, as it doesn't end
NEAR: dict[type[ast.cmpop], type[ast.cmpop]] = {
    ast.Lt: ast.LtE,
    ast.LtE: ast.Lt,
    ast.Gt: ast.GtE,
    ast.GtE: ast.Gt,
    ast.Eq: ast.NotEq,
    ast.NotEq: ast.Eq,
    ast.Is: ast.IsNot,
    ast.IsNot: ast.Is,
}
# What is no rule of a call: how rows are counted, and how lines are written. Of `joins` each attribute is left out.
LEFT_OUT = ("note", "by", "maps", "maps_line", "permissions", "answer", "reply_text", "child", "joins")


def alike() -> set[str]:
    """The changes that change no answer: those of the file, which says why they don't."""
    text = Path(__file__).with_name("alike.txt").read_text(encoding="utf-8")
    return {line for part in re.split(r"^== ", text, flags=re.M)[1:] for line in part.splitlines()[1:] if line}


ALIKE = alike()


@dataclass(frozen=True)
class Change:
    """A change of the model: its function, what is changed in words, and the model's text."""

    function: str
    says: str
    text: str

    @property
    def where(self) -> str:
        return f"{self.function}: {self.says}"


class TooSlow(Exception):
    """A changed model goes on and on."""


def functions(tree: ast.AST) -> list[ast.FunctionDef]:
    """The functions that have a part of the rules."""
    return [node for node in ast.walk(tree) if isinstance(node, ast.FunctionDef) and node.name not in LEFT_OUT]


def expressions(node: ast.AST) -> Iterator[ast.expr]:
    """What an expression is changed to."""
    if isinstance(node, ast.Compare):
        for place, operator in enumerate(node.ops):
            if type(operator) in NEAR:
                near = NEAR[type(operator)]()
                yield ast.Compare(node.left, [*node.ops[:place], near, *node.ops[place + 1 :]], node.comparators)
    if isinstance(node, ast.BoolOp):
        for place in range(len(node.values)):
            yield ast.BoolOp(node.op, node.values[:place] + node.values[place + 1 :])
    if isinstance(node, ast.Call) and ast.unparse(node.func) in ("min", "max") and len(node.args) == 2:
        yield from node.args
    if isinstance(node, ast.IfExp):
        yield from (node.body, node.orelse)
    if isinstance(node, ast.BinOp) and isinstance(node.right, ast.Constant) and isinstance(node.op, (ast.Add, ast.Sub)):
        for number in (node.right.value - 1, node.right.value + 1):
            yield ast.BinOp(node.left, node.op, ast.Constant(number))


def is_test(statement: ast.stmt) -> bool:
    """Whether a statement is a row of a table: a condition, and a reply where it holds."""
    return isinstance(statement, ast.If) and isinstance(statement.body[-1], ast.Return) and not statement.orelse


def reply_of(statement: ast.stmt) -> str:
    """What a row answers, without its name."""
    assert isinstance(statement, ast.If) and isinstance(statement.body[-1], ast.Return)
    value = statement.body[-1].value
    if isinstance(value, ast.Call) and ast.unparse(value.func) == "self.by":
        value = value.args[1]
    if isinstance(value, ast.Tuple):
        value = value.elts[1]
    return ast.unparse(value) if value else ""


def test_of(statement: ast.stmt) -> str:
    assert isinstance(statement, ast.If)
    return f"`{ast.unparse(statement.test)}`"


def bodies(body: list[ast.stmt]) -> Iterator[tuple[str, list[ast.stmt]]]:
    """What the statements of a function are changed to: without one of its tests, and with one before another."""
    tests = [place for place, statement in enumerate(body) if is_test(statement)]
    for second in tests:
        yield f"without the test {test_of(body[second])}", body[:second] + body[second + 1 :]
        for first in tests:
            between = body[first:second]
            if between and all(map(is_test, between)) and reply_of(body[first]) != reply_of(body[second]):
                says = f"the test {test_of(body[second])} before {test_of(body[first])}"
                yield says, body[:first] + [body[second]] + between + body[second + 1 :]


class Replacing(ast.NodeTransformer):
    """Puts an expression in the place of another."""

    def __init__(self, old: ast.AST, new: ast.expr) -> None:
        self.old, self.new = old, new

    def visit(self, node: ast.AST) -> ast.AST:
        if node is self.old:
            return self.new
        visited: ast.AST = super().visit(node)
        return visited


def changes_of(function: ast.FunctionDef) -> Iterator[tuple[str, ast.FunctionDef]]:
    """The changes of a function, each in words, with the function."""
    for says, body in bodies(function.body):
        changed = copy.copy(function)
        changed.body = body
        yield says, changed
    for node in ast.walk(function):
        for new in expressions(node):
            copied = copy.deepcopy(function)
            place = next(place for place, each in enumerate(ast.walk(function)) if each is node)
            old = list(ast.walk(copied))[place]
            replaced = Replacing(old, copy.deepcopy(new)).visit(copied)
            assert isinstance(replaced, ast.FunctionDef)
            yield f"`{ast.unparse(node)}` as `{ast.unparse(new)}`", replaced


def changes(source: str) -> Iterator[Change]:
    """All changes of the model. Where two have the same words, they are numbered."""
    lines, count = source.splitlines(), Counter[tuple[str, str]]()
    for function in functions(ast.parse(source)):
        for says, changed in changes_of(function):
            count[function.name, says] += 1
            number = count[function.name, says]
            indent = " " * function.col_offset
            changed.decorator_list = []
            made = [indent + line for line in ast.unparse(changed).splitlines()]
            text = "\n".join([*lines[: function.lineno - 1], *made, *lines[function.end_lineno :], ""])
            yield Change(function.name, says + (f" ({number})" if number > 1 else ""), text)
    for field in model.Area._fields[model.ATTRIBUTES]:
        told = "def joins(first, second):\n    return all_alike(first, second._replace(%s=first.%s))\n" % (field, field)
        yield Change("joins", f"whatever `{field}` is", f"{source}\nall_alike = joins\n{told}")
    yield Change(
        "joins",
        "whatever `offset` is",
        f"{source}\nall_alike = joins\ndef joins(first, second):\n"
        "    return all_alike(first, second._replace(offset=index_of(first, first.hi)))\n",
    )


def space_of(change: Change) -> type[model.Space]:
    """The space of a changed model."""
    module = types.ModuleType("vmatools.changed_model")
    module.__package__ = "vmatools"
    exec(compile(change.text, change.where, "exec"), module.__dict__)  # noqa: S102
    space: type[model.Space] = module.__dict__["Space"]
    return space


def is_noticed(change: Change, cases: Sequence[tuple[Trace, str]]) -> bool:
    """Whether a case has another output by the changed model, or none. Those with a call of its name are tried first."""

    def stop(*_: object) -> None:
        raise TooSlow

    tried = sorted(cases, key=lambda case: all(line.word != change.function.split("_")[0] for line in case[0].lines))
    before = signal.signal(signal.SIGPROF, stop)
    signal.setitimer(signal.ITIMER_PROF, SECONDS)
    try:
        space = space_of(change)
        return any(serial_output(trace, space) != output for trace, output in tried)
    except Exception:  # whatever it is: the model as it is raises nothing
        return True
    finally:
        signal.setitimer(signal.ITIMER_PROF, 0)
        signal.signal(signal.SIGPROF, before)


@functools.cache
def changes_alike() -> list[Change]:
    """The changes of `ALIKE`."""
    return [change for change in changes(inspect.getsource(model)) if change.where in ALIKE]


def noticed_at_random(seeds: range) -> list[str]:
    """The changes of `ALIKE` that a random trace of these seeds notices."""
    pairs = [(trace, serial_output(trace)) for trace in traces_of(seeds)]
    return [f"{change.where}: a random trace notices it" for change in changes_alike() if is_noticed(change, pairs)]


def unnoticed(cases: Sequence[Trace]) -> Iterator[str]:
    """The changes that no case notices, and those of `ALIKE` that one does, or that are none."""
    pairs = [(trace, serial_output(trace)) for trace in cases]
    left = set(ALIKE)
    for change in changes(inspect.getsource(model)):
        is_alike = change.where in ALIKE
        if is_noticed(change, pairs) == is_alike:
            yield f"{change.where}: a case notices it" if is_alike else f"{change.where}: no case notices it"
        left.discard(change.where)
    yield from (f"{where}: the model has no such change" for where in sorted(left))
