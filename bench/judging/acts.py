"""What the entries of a history say, and the words of each in the journal."""
from collections.abc import Callable
from typing import NamedTuple

ATTEMPTS = 16


class Stored(NamedTuple):
    first: int
    stripes: int
    up: int


class NameTaken(NamedTuple):
    pass


class TooFewNodes(NamedTuple):
    up: int


class StoreFailed(NamedTuple):
    node: int


class Data(NamedTuple):
    pass


class NoSuchFile(NamedTuple):
    pass


class NoSuchBlock(NamedTuple):
    count: int


class Unrecoverable(NamedTuple):
    live: int


class Unsteady(NamedTuple):
    at: tuple[int, ...]


class Opened(NamedTuple):
    length: int
    count: int
    first: int


class Whole(NamedTuple):
    pass


class BrokenAt(NamedTuple):
    index: int


class Lost(NamedTuple):
    count: int


class NoSuchNode(NamedTuple):
    pass


class NodeDown(NamedTuple):
    pass


class Joined(NamedTuple):
    incarnation: int


class NodeUp(NamedTuple):
    pass


class Listed(NamedTuple):
    count: int


class NoNode(NamedTuple):
    node: int


class TargetDown(NamedTuple):
    node: int


class Restored(NamedTuple):
    stripe: int
    row: int
    node: int
    incarnation: int


class AlreadyLive(NamedTuple):
    stripe: int
    row: int


class Clash(NamedTuple):
    stripe: int
    row: int
    other: int


class Gone(NamedTuple):
    stripe: int
    row: int
    live: int


class MendFailed(NamedTuple):
    stripe: int
    row: int
    node: int


class MendUnsteady(NamedTuple):
    stripe: int
    row: int
    at: tuple[int, ...]


class MendDown(NamedTuple):
    stripe: int
    row: int
    node: int


class Rebuilt(NamedTuple):
    """How many parts ended each way, in the order of MENDS."""

    restored: int
    live: int
    clash: int
    gone: int
    failed: int
    unsteady: int
    down: int


class Stat(NamedTuple):
    length: int
    count: int
    live: int


class Drop(NamedTuple):
    stripe: int
    row: int


MENDS = (Restored, AlreadyLive, Clash, Gone, MendFailed, MendUnsteady, MendDown)
Mend = Restored | AlreadyLive | Clash | Gone | MendFailed | MendUnsteady | MendDown
OfBlock = Data | NoSuchFile | NoSuchBlock | Unrecoverable | Unsteady
Act = (
    Stored | NameTaken | TooFewNodes | StoreFailed | OfBlock | Opened | Whole | BrokenAt
    | Lost | NoSuchNode | NodeDown | Joined | NodeUp | Listed | NoNode | TargetDown | Mend | Rebuilt | Stat | Drop
)
WORDS: dict[type, str] = {
    Stored: "stored", NameTaken: "name-taken", TooFewNodes: "few-nodes", StoreFailed: "store-failed",
    Data: "data", NoSuchFile: "no-file", NoSuchBlock: "no-block", Unrecoverable: "unrecoverable",
    Unsteady: "unsteady", Opened: "opened", Whole: "whole", BrokenAt: "broken",
    Lost: "lost", NoSuchNode: "no-node", NodeDown: "node-down", Joined: "joined", NodeUp: "node-up",
    Listed: "listed", NoNode: "no-node", TargetDown: "node-down",
    Restored: "restored", AlreadyLive: "already-live", Clash: "clash", Gone: "gone",
    MendFailed: "mend-failed", MendUnsteady: "mend-unsteady", MendDown: "mend-down",
    Rebuilt: "rebuilt", Stat: "stat", Drop: "drop",
}


def spelling(kind: type) -> tuple[tuple[str, int], Callable[..., Act]]:
    """The word of an act and how many numbers follow it, with what makes the act of them; positions come last."""
    fields = kind._fields
    if "at" not in fields:
        return (WORDS[kind], len(fields)), kind
    plain = len(fields) - 1
    return (WORDS[kind], plain + ATTEMPTS), lambda *numbers: kind(*numbers[:plain], numbers[plain:])


SPELLINGS = dict(spelling(kind) for kind in WORDS)


def act_of(word: str, numbers: list[int]) -> Act | None:
    make = SPELLINGS.get((word, len(numbers)))
    return make(*numbers) if make else None


def positions(act: Unsteady | MendUnsteady) -> str:
    return " ".join(map(str, act.at))
