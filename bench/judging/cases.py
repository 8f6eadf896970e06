"""An entry where it stands in a history."""
from collections import Counter
from typing import NamedTuple

from judging.acts import Act
from judging.calls import Call
from judging.entries import Entry
from judging.table import Block, Table


class Progress:
    """What a history has of one call. The parts are let go when the call ends, but for the last one's act."""

    def __init__(self) -> None:
        self.parts: dict[int, Entry] = {}
        self.later: Counter[type] = Counter()  # how many parts from 1 on have an act of this kind
        self.listed: list[Block] = []
        self.last: Act | None = None
        self.end: Entry | None = None

    def add(self, entry: Entry) -> None:
        if entry.part is None:
            self.end, self.parts = entry, {}
            return
        if entry.part > 0:
            self.later[type(entry.act)] += 1
        self.parts[entry.part] = entry
        self.last = entry.act


class Case(NamedTuple):
    entry: Entry
    call: Call | None  # none for a block that a node gives up
    made: Progress  # what stands of the call before the entry
    table: Table  # as the entries before it make it
    follows: int  # the position after the entry that it must follow, or 0
