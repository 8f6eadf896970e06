"""The calls of a script, and how its lines are spelled."""
import re
from collections.abc import Callable
from functools import partial
from typing import NamedTuple

from judging.generator import generate
from judging.limits import U32, U64


class Put(NamedTuple):
    name: str
    length: int
    bytes: Callable[[], bytes]


class Read(NamedTuple):
    name: str
    index: int


class Sum(NamedTuple):
    name: str
    index: int


class Cat(NamedTuple):
    name: str


class Lose(NamedTuple):
    node: int


class Join(NamedTuple):
    node: int


class Rebuild(NamedTuple):
    source: int
    target: int


class Stat(NamedTuple):
    name: str


class Session(NamedTuple):
    """The lines below are of this session."""

    number: int


class Barrier(NamedTuple):
    """The next phase begins."""


Call = Put | Read | Sum | Cat | Lose | Join | Rebuild | Stat
Form = Call | Session | Barrier


def put_hex(name: str, digits: str) -> Put | None:
    if digits == "-":
        return Put(name, 0, bytes)
    return Put(name, len(digits) // 2, partial(bytes.fromhex, digits)) if len(digits) % 2 == 0 else None


def put_generated(name: str, seed: str, length: str) -> Put | None:
    if int(seed) >= U64:
        return None
    return Put(name, int(length), partial(generate, int(seed), int(length)))


def numbered(kind: Callable[..., Call]) -> Callable[..., Call | None]:
    """A call of numbers that are below 2^32, behind the name where it has one."""

    count = sum(field is int for field in kind.__annotations__.values())

    def make(*words: str) -> Call | None:
        numbers = [int(word) for word in words[-count:]]
        return kind(*words[:-count], *numbers) if max(numbers) < U32 else None

    return make


NAME = "([A-Za-z0-9._-]{1,64})"
NUMBER = "(0|[1-9][0-9]{0,19})"
SPELLINGS: list[tuple[str, Callable[..., Form | None]]] = [
    ("session ([0-7])", lambda number: Session(int(number))),
    ("barrier", Barrier),
    (f"put {NAME} hex ([0-9A-Fa-f]+|-)", put_hex),
    (f"put {NAME} gen {NUMBER} {NUMBER}", put_generated),
    (f"read {NAME} {NUMBER}", numbered(Read)),
    (f"sum {NAME} {NUMBER}", numbered(Sum)),
    (f"cat {NAME}", Cat),
    (f"lose {NUMBER}", numbered(Lose)),
    (f"join {NUMBER}", numbered(Join)),
    (f"rebuild {NUMBER} {NUMBER}", numbered(Rebuild)),
    (f"stat {NAME}", Stat),
]
FORMS = [(re.compile(pattern.encode()), make) for pattern, make in SPELLINGS]


def form_of(line: bytes) -> Form | None:
    """The form that a line spells, if it spells one."""
    for pattern, make in FORMS:
        if found := pattern.fullmatch(line):
            return make(*(word.decode() for word in found.groups()))
    return None
