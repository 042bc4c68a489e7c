"""A definition with the switches of a version resolved: `if kernel.rules.X then a else b` is `a` where the version has X."""

import re
from collections.abc import Mapping
from typing import Union

SWITCH = re.compile(r"\b(?:kernel\.)?rules\.(\w+)")
TOKENS = re.compile(r"\s+|[(){};]|[^\s(){};]+")
SEPARATORS = {"=", "in", ";", "←", "do", "."}
CLOSES = {"(": ")", "{": "}"}
TRUTHS = {"true": True, "false": False}

# A token, or what stands between two brackets, with them.
Node = Union[str, "Group"]


class Group:
    """What stands between two brackets."""

    def __init__(self, opens: str, nodes: list[Node]) -> None:
        self.opens, self.nodes = opens, nodes


def text_of(nodes: list[Node]) -> str:
    return "".join(
        node if isinstance(node, str) else node.opens + text_of(node.nodes) + CLOSES[node.opens] for node in nodes
    )


def parsed(tokens: list[str], place: int = 0, until: str = "") -> tuple[list[Node], int]:
    """The nodes from a place up to a closing bracket, and the place behind it."""
    nodes: list[Node] = []
    while place < len(tokens):
        token = tokens[place]
        place += 1
        if token == until:
            break
        if token in CLOSES:
            inner, place = parsed(tokens, place, CLOSES[token])
            nodes.append(Group(token, inner))
        else:
            nodes.append(token)
    return nodes, place


def stripped(nodes: list[Node]) -> list[Node]:
    """Without the blanks at both ends."""
    begin, end = 0, len(nodes)
    while begin < end and is_blank(nodes[begin]):
        begin += 1
    while begin < end and is_blank(nodes[end - 1]):
        end -= 1
    return nodes[begin:end]


def is_blank(node: Node) -> bool:
    return isinstance(node, str) and not node.strip()


def truth(nodes: list[Node]) -> bool | None:
    """What a term is known to be."""
    left = stripped(nodes)
    if len(left) == 1 and isinstance(left[0], Group):
        return truth(left[0].nodes)
    return TRUTHS.get(text_of(left))


def split_at(nodes: list[Node], words: set[str]) -> tuple[list[list[Node]], list[str]]:
    """The parts of a term between some words, and these words."""
    parts: list[list[Node]] = [[]]
    found = []
    for node in nodes:
        if isinstance(node, str) and node in words:
            found.append(node)
            parts.append([])
        else:
            parts[-1].append(node)
    return parts, found


def blanks(nodes: list[Node], core: list[Node]) -> list[Node]:
    """A simpler term with the blanks that stood round the old one."""
    begin = next((place for place, node in enumerate(nodes) if not is_blank(node)), len(nodes))
    return [*nodes[:begin], *core, *nodes[len(nodes) - trailing(nodes) :]]


def of_operands(nodes: list[Node], word: str, neutral: bool) -> list[Node]:
    """Operands of `&&` or `||`: those that change nothing go, and one that decides is all."""
    parts, _ = split_at(nodes, {word})
    if len(parts) == 1:
        return nodes
    known = [truth(part) for part in parts]
    if (not neutral) in known:
        return blanks(nodes, [str(not neutral).lower()])
    kept = [stripped(part) for part, value in zip(parts, known) if value is None]
    if len(kept) == len(parts):
        return nodes
    core: list[Node] = [str(neutral).lower()] if not kept else []
    for place, part in enumerate(kept):
        if len(kept) == 1 and len(part) == 1 and isinstance(part[0], Group) and part[0].opens == "(":
            part = part[0].nodes
        core += [*([" ", word, " "] if place else []), *part]
    return blanks(nodes, core)


def trailing(nodes: list[Node]) -> int:
    """How many blanks stand at the end."""
    count = 0
    while count < len(nodes) and is_blank(nodes[-1 - count]):
        count += 1
    return count


def of_choice(nodes: list[Node]) -> list[Node] | None:
    """The branch of the first `if` that is decided, with what stands before it; none where none is."""
    words = [place for place, node in enumerate(nodes) if node == "if"]
    for first in words:
        depth, then, other = 0, 0, 0
        for place in range(first + 1, len(nodes)):
            depth += (nodes[place] == "if") - (nodes[place] == "else" and depth > 0)
            if nodes[place] == "then" and depth == 0 and not then:
                then = place
            elif nodes[place] == "else" and depth == 0 and then and not other:
                other = place
                break
        value = truth(simplified(nodes[first + 1 : then]))
        if value is not None and other:
            branch = nodes[then + 1 : other] if value else nodes[other + 1 :]
            return [*nodes[:first], *stripped(branch), *nodes[len(nodes) - trailing(nodes) :]]
    return None


def of_not(nodes: list[Node]) -> list[Node]:
    """`not` of what is known."""
    left = [place for place, node in enumerate(nodes) if not is_blank(node)]
    for first, second in zip(left, left[1:]):
        value = truth([nodes[second]])
        if nodes[first] == "not" and value is not None:
            return [*nodes[:first], str(not value).lower(), *nodes[second + 1 :]]
    return nodes


def of_group(group: Group) -> Node:
    """What stands in brackets, without them where one word is left of it."""
    nodes = simplified(group.nodes)
    if group.opens == "(" and len(nodes) == 1 and isinstance(nodes[0], str) and len(group.nodes) > 1:
        return nodes[0]
    return Group(group.opens, nodes)


def simplified(nodes: list[Node]) -> list[Node]:
    """A term without what its known parts decide."""
    done = [node if isinstance(node, str) else of_group(node) for node in nodes]
    parts, words = split_at(done, SEPARATORS)
    whole: list[Node] = []
    for place, part in enumerate(parts):
        chosen = of_choice(part)
        while chosen is not None:
            part, chosen = chosen, of_choice(chosen)
        pieces, marks = split_at(part, {"if", "then", "else"})
        for number, piece in enumerate(pieces):
            whole += [marks[number - 1]] if number else []
            whole += of_operands(of_operands(of_not(piece), "&&", True), "||", False)
        whole += [words[place]] if place < len(words) else []
    return whole


def statements(text: str) -> list[str]:
    """The lines of a definition, each with those that go on with it."""
    found: list[str] = []
    for line in text.split("\n"):
        margin = len(line) - len(line.lstrip())
        if found and margin >= 4 and margin > len(found[-1]) - len(found[-1].lstrip()):
            found[-1] += "\n" + line
        else:
            found.append(line)
    return found


def resolved(text: str, rules: Mapping[str, bool]) -> str:
    """A definition as a version has it."""
    lines = []
    for statement in statements(text):
        if not SWITCH.search(statement):
            lines.append(statement)
            continue
        known = SWITCH.sub(lambda found: str(rules[found[1]]).lower(), statement)
        done = text_of(simplified(parsed(TOKENS.findall(known))[0]))
        if done.strip().startswith("refuse_if true "):
            return "\n".join([*lines, done.replace("refuse_if true", "refuse")])
        if done.strip() != "done tt" and not done.strip().startswith("refuse_if false "):
            lines.append(done)
    return "\n".join(lines)
