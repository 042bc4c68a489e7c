"""Evaluates the definitions of crates/linux_rules in Python: what they answer to a trace, without the prover.

It reads the part of antt that they are written in: equations over records, options, lists and numbers, with `if`, `let`,
`λ`, `do` and `elim`. The prover is the judge; this tells beforehand which statements it will refuse.
"""

import re
from collections.abc import Callable, Iterator
from pathlib import Path
from typing import Any, NamedTuple

TOKENS = re.compile(
    r"(?P<space>\s+)|(?P<number>0x[0-9a-f]+|\d+)|(?P<field>(?<=[\w)])\.[a-z]\w*)|(?P<word>[^\W\d]\w*)"
    r"|(?P<mark>\[\]|&&|\|\||\+\+|[→←λ∷↦|(){}\[\];.=:+\-*/%^,_×])"
)
LEVELS = {"||": 1, "&&": 2, "∷": 3, "++": 3, "+": 5, "-": 5, "*": 6, "/": 6, "%": 6, "^": 7}
RIGHT = {"||", "&&", "∷", "++", "^"}
PYTHON = {"||": "or", "&&": "and", "+": "+", "*": "*", "/": "//", "%": "%", "^": "**"}
ENDS = {"then", "else", "in", "as", ")", "}", "]", ";", "|", "↦", "="}


class Token(NamedTuple):
    kind: str
    text: str
    column: int
    begins: bool  # whether it begins a line


def tokens_of(text: str) -> list[Token]:
    found, begin, fresh = [], 0, True
    for match in TOKENS.finditer(text):
        kind = match.lastgroup or ""
        if kind == "space":
            if "\n" in match[0]:
                begin, fresh = match.start() + match[0].rindex("\n") + 1, True
            continue
        found.append(Token(kind, match[0], match.start() - begin, fresh))
        fresh = False
    return found


class Function:
    """A function that takes its arguments one after another."""

    __slots__ = ("arity", "body", "given")

    def __init__(self, arity: int, body: Callable[..., Any], given: tuple[Any, ...] = ()) -> None:
        self.arity, self.body, self.given = arity, body, given

    def __call__(self, *more: Any) -> Any:
        given = self.given + more
        if len(given) < self.arity:
            return Function(self.arity, self.body, given)
        result = self.body(*given[: self.arity])
        return result(*given[self.arity :]) if len(given) > self.arity else result


def bound(first: Any, following: Any, space: Any) -> Any:
    """One step and then the next, unless the first failed."""
    did = first(space)
    name, value = did["result"]
    return following(value)(did["space"]) if name == "Ok" else {"space": did["space"], "result": did["result"]}


class Reader:
    """Writes an expression as Python."""

    def __init__(self, tokens: list[Token]) -> None:
        self.tokens, self.place = tokens, 0
        self.margins: list[int] = []
        self.names = 0

    @property
    def next(self) -> str:
        token = self.tokens[self.place] if self.place < len(self.tokens) else None
        if token is None or (self.margins and token.begins and token.column <= self.margins[-1]):
            return ""
        return token.text

    def take(self, wanted: str = "") -> str:
        text = self.tokens[self.place].text
        if wanted and text != wanted:
            raise ValueError(f"{wanted} expected, and not {text}: {' '.join(t.text for t in self.tokens)}")
        self.place += 1
        return text

    def skip_to(self, wanted: str) -> None:
        depth = 0
        while depth or self.next != wanted:
            depth += (self.next in "([{") - (self.next in ")]}")
            self.place += 1

    def expression(self) -> str:
        word = self.next
        if word == "if":
            self.take()
            test = self.expression()
            self.take("then")
            yes = self.expression()
            self.take("else")
            return f"({yes} if {test} else {self.expression()})"
        if word == "let":
            self.take()
            name = self.take()
            if self.next == ":":
                self.skip_to("=")
            self.take("=")
            value = self.expression()
            self.take("in")
            return f"(lambda {self.named(name)}: {self.expression()})({value})"
        if word == "λ":
            self.take()
            names = []
            while self.next != ".":
                names.append(self.named(self.take()))
            self.take(".")
            return f"Function({len(names)}, lambda {', '.join(names)}: {self.expression()})"
        if word == "do":
            self.take()
            return self.block()
        return self.operators(0)

    @staticmethod
    def named(name: str) -> str:
        return f"v_{name}"

    def operators(self, level: int) -> str:
        left = self.application()
        while self.next in LEVELS and LEVELS[self.next] >= level:
            mark = self.take()
            above = LEVELS[mark] + (mark not in RIGHT)
            right = self.expression() if self.next in ("if", "let", "λ", "do") else self.operators(above)
            if mark == "∷":
                left = f"(({left},) + {right})"
            elif mark == "++":
                left = f"({left} + {right})"
            elif mark == "-":
                left = f"max({left} - {right}, 0)"
            else:
                left = f"({left} {PYTHON[mark]} {right})"
        return left

    def application(self) -> str:
        head_is = self.next
        head = self.atom()
        given = []
        while self.next and self.next not in ENDS and self.next not in LEVELS and self.next not in (".", "←", ":"):
            given.append(self.atom())
        if head_is[:1].isupper() and not head_is.isupper() and head_is not in ("",):
            return f"({', '.join([repr(head_is), *given])},)"
        return f"{head}({', '.join(given)})" if given else head

    def atom(self) -> str:
        token = self.tokens[self.place]
        if token.text == "(":
            self.take()
            kept, self.margins = self.margins, []
            inner = self.expression()
            self.margins = kept
            self.take(")")
            done = f"({inner})"
        elif token.text == "record":
            self.take()
            done = self.record()
        elif token.text == "elim":
            self.take()
            return self.choice()
        elif token.text == "[]":
            self.take()
            done = "()"
        elif token.kind == "number":
            done = str(int(self.take(), 0))
        else:
            done = self.word(self.take())
        while self.place < len(self.tokens) and self.tokens[self.place].kind == "field":
            done += f"[{self.take()[1:]!r}]"
        return done

    def word(self, name: str) -> str:
        if name in ("true", "false"):
            return name.capitalize()
        if name[0].isupper() and not name.isupper():
            return f"({name!r},)"
        return self.named(name)

    def record(self) -> str:
        old = "" if self.next == "{" else f"**{self.atom()}, "
        self.take("{")
        kept, self.margins = self.margins, []
        fields = []
        while self.next != "}":
            name = self.take()
            self.take("=")
            fields.append(f"{name!r}: {self.expression()}")
            if self.next == ";":
                self.take()
        self.margins = kept
        self.take("}")
        return f"{{{old}{', '.join(fields)}}}"

    def choice(self) -> str:
        """`elim x as (..) [ p ↦ a | q ↦ b ]`"""
        value = self.atom()
        self.take("as")
        self.skip_to("[")
        self.take("[")
        cases = []
        while self.next != "]":
            name, names = self.take(), []
            while self.next != "↦":
                names.append(self.named(self.take()))
            self.take("↦")
            cases.append(f"{name!r}: Function({len(names)}, lambda {', '.join(names)}: {self.expression()})")
            if self.next == "|":
                self.take()
        self.take("]")
        return f"chosen({value}, {{{', '.join(cases)}}})"

    def block(self) -> str:
        """The statements of a `do`, which begin at one column."""
        margin = self.tokens[self.place].column
        steps: list[tuple[str, str]] = []
        while self.place < len(self.tokens):
            token = self.tokens[self.place]
            if token.column != margin or not token.begins:
                break
            name = ""
            if [each.text for each in self.tokens[self.place + 1 : self.place + 2]] == ["←"]:
                name = self.named(self.take())
                self.take("←")
            self.margins.append(margin)
            steps.append((name, self.first_of_line(margin)))
            self.margins.pop()
        whole = steps[-1][1]
        for name, text in reversed(steps[:-1]):
            whole = f"Function(3, bound, ({text}, Function(1, lambda {name or '_'}: {whole})))"
        return whole

    def first_of_line(self, margin: int) -> str:
        """A statement: its own first token lies at the margin."""
        token = self.tokens[self.place]
        self.tokens[self.place] = token._replace(column=margin + 1)
        return self.expression()


class Pattern(NamedTuple):
    """What an argument has to be, and the names that it gives."""

    tests: list[str]
    names: list[tuple[str, str]]


def pattern(reader: Reader, value: str) -> Pattern:
    """A pattern of an equation, for an argument that Python has under a name."""
    text = reader.take()
    if text != "(":
        if text in ("true", "false"):
            return Pattern([value if text == "true" else f"not {value}"], [])
        if text == "zero":
            return Pattern([f"{value} == 0"], [])
        if text == "[]":
            return Pattern([f"{value} == ()"], [])
        if text[0].isupper():
            return Pattern([f"{value}[0] == {text!r}"], [])
        return Pattern([], [] if text == "_" else [(Reader.named(text), value)])
    tests, names = [], []
    if reader.next == "suc":
        reader.take()
        names.append((Reader.named(reader.take()), f"{value} - 1"))
        tests.append(f"{value} > 0")
    elif reader.tokens[reader.place + 1].text == "∷":
        names.append((Reader.named(reader.take()), f"{value}[0]"))
        reader.take("∷")
        names.append((Reader.named(reader.take()), f"{value}[1:]"))
        tests.append(f"{value} != ()")
    else:
        tests.append(f"{value}[0] == {reader.take()!r}")
        place = 0
        while reader.next != ")":
            place += 1
            name = reader.take()
            names += [(Reader.named(name), f"{value}[{place}]")] if name != "_" else []
    reader.take(")")
    return Pattern(tests, names)


def equation(text: str) -> tuple[str, int, list[str]]:
    """An equation's name, how many arguments it takes, and its lines in Python."""
    reader = Reader(tokens_of(text))
    name = reader.take()
    tests, names, arity = [], [], 0
    while reader.next != "=":
        found = pattern(reader, f"a{arity}")
        tests += found.tests
        names += found.names
        arity += 1
    reader.take("=")
    body = reader.expression()
    if reader.place < len(reader.tokens):
        raise ValueError(f"{name}: {reader.tokens[reader.place].text} isn't read")
    lines = [f"    if {' and '.join(tests) or 'True'}:"]
    lines += [f"        {new} = {value}" for new, value in names] + [f"        return {body}"]
    return name, arity, lines


def chunks(text: str) -> Iterator[str]:
    """The equations of a file."""
    kept: list[str] = []
    for line in [*text.split("\n"), "end"]:
        if line and not line[0].isspace() and line != "}":
            whole = "\n".join(kept)
            if kept and re.match(r"[a-zA-Z_]\w* ", whole) and " = " in whole.replace("\n", " ") and not re.match(
                r"(use|abbrev|unfoldable|pub|infixl) ", whole
            ):
                yield whole
            kept = []
        if line.strip() and not line.startswith("--"):
            kept.append(line)


def python_of(text: str) -> str:
    """The definitions of a file as Python."""
    found: dict[str, tuple[int, list[str]]] = {}
    for chunk in chunks(text):
        if chunk.startswith("Doing "):  # a type
            continue
        name, arity, lines = equation(chunk)
        known = found.setdefault(name, (arity, []))
        known[1].extend(lines)
    parts = []
    for name, (arity, lines) in found.items():
        arguments = ", ".join(f"a{place}" for place in range(arity))
        parts.append(f"def f_{name}({arguments}):\n" + "\n".join(lines))
        parts.append(f"v_{name} = Function({arity}, f_{name})" if arity else f"v_{name} = f_{name}()")
    return "\n".join(parts)


def maybe(value: Any) -> tuple[Any, ...]:
    return ("None",) if value is None else ("Some", value)


def chosen(value: Any, cases: dict[str, Function]) -> Any:
    case = cases[value[0]]
    return case(*value[1:]) if case.arity else case.body()


def one(body: Callable[[Any], Any]) -> Function:
    return Function(1, body)


def two(body: Callable[[Any, Any], Any]) -> Function:
    return Function(2, body)


def three(body: Callable[[Any, Any, Any], Any]) -> Function:
    return Function(3, body)


def fold(step: Any, value: Any, items: Any) -> Any:
    for item in items:
        value = step(value, item)
    return value


def native() -> dict[str, Any]:
    """What the definitions take from the library and from mm_types."""
    named: dict[str, Any] = {
        "pos": one(lambda n: n),
        "negsuc": one(lambda n: -n - 1),
        "nat_eq": two(lambda a, b: a == b),
        "int_eq": two(lambda a, b: a == b),
        "same": two(lambda a, b: a == b),
        "nat_lt": two(lambda a, b: a < b),
        "nat_le": two(lambda a, b: a <= b),
        "min": two(min),
        "max": two(max),
        "not": one(lambda a: not a),
        "length": one(len),
        "sum": one(sum),
        "map": two(lambda f, xs: tuple(f(x) for x in xs)),
        "filter": two(lambda p, xs: tuple(x for x in xs if p(x))),
        "find": two(lambda p, xs: maybe(next((x for x in xs if p(x)), None))),
        "position": two(lambda p, xs: maybe(next((n for n, x in enumerate(xs) if p(x)), None))),
        "list_all": two(lambda p, xs: all(p(x) for x in xs)),
        "list_any": two(lambda p, xs: any(p(x) for x in xs)),
        "slice_get": two(lambda xs, n: maybe(xs[n] if n < len(xs) else None)),
        "last_or": two(lambda d, xs: ("Some", xs[-1]) if xs else d),
        "is_none": one(lambda o: o[0] == "None"),
        "is_some": one(lambda o: o[0] == "Some"),
        "option_map": two(lambda f, o: ("Some", f(o[1])) if o[0] == "Some" else o),
        "option_and_then": two(lambda f, o: f(o[1]) if o[0] == "Some" else o),
        "option_or": two(lambda a, b: a if a[0] == "Some" else b),
        "option_map_or": three(lambda f, o, d: f(o[1]) if o[0] == "Some" else d),
        "has_flag": two(lambda bits, flag: bits & flag != 0),
        "holds_all": two(lambda most, prot: all(most[name] or not prot[name] for name in prot)),
        "fold": three(fold),
        "tt": (),
    }
    return {f"v_{name}": value for name, value in named.items()}


def constants(top: Path) -> dict[str, int]:
    """The constants of the sources that the definitions cite."""
    found: dict[str, int] = {}
    for file in ("crates/mm_types/src/config.rt", "crates/mm_types/src/flags.rt", "crates/linux_rules/src/errors.rt"):
        text = (top / file).read_text(encoding="utf-8")
        for name, value in re.findall(r"^pub const (\w+): u\w+ = ([0-9a-fx_]+);", text, re.M):
            found[f"v_{name}"] = int(value, 0)
    return found


USE = re.compile(r"^use Rattle\.linux_rules\.specs\.(\w+)\.\{(.*)\}$", re.M)


# What is done to the names of a file once it is read.
Hooks = dict[str, list[Callable[[dict[str, Any]], None]]]


class Definitions:
    """The definitions, some files perhaps changed."""

    def __init__(self, top: Path, changed: dict[str, str] | None = None, hooks: Hooks | None = None) -> None:
        self.folder, self.changed = top / "crates" / "linux_rules" / "specs", changed or {}
        self.hooks = hooks or {}
        self.base = {"Function": Function, "bound": bound, "chosen": chosen, **native(), **constants(top)}
        self.files: dict[str, dict[str, Any]] = {}
        self.words = dict(self.base)
        for stem in ("Steps", "Versions"):
            self.words.update(self.file(stem))

    def file(self, stem: str) -> dict[str, Any]:
        """The names of a file, those that it takes from others too."""
        if stem not in self.files:
            text = self.changed.get(stem) or (self.folder / f"{stem}.antt").read_text(encoding="utf-8")
            names = dict(self.base)
            for other, taken in USE.findall(text):
                found = self.file(other)
                wanted = [f"v_{name}" for name in taken.split(", ")]
                names.update({name: found[name] for name in wanted if name in found})
            exec(compile(python_of(text), stem, "exec"), names)
            for hook in self.hooks.get(stem, []):
                hook(names)
            self.files[stem] = names
        return self.files[stem]

    def value(self, term: str) -> Any:
        """What a term of a recording says."""
        reader = Reader(tokens_of(term))
        return eval(reader.expression(), self.words)

    def replayed(self, kernel: Any, steps: Any) -> Any:
        """The steps of a recording, with what the definitions answer."""
        names = self.file("Recorded")
        opening = names["v_opening"](kernel)
        return names["v_replayed"](kernel, Function(1, lambda _number: opening), steps)
