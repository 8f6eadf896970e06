"""The entries of a history, and the journal's lines that tell them."""
import re
from typing import NamedTuple

from judging.acts import Act, act_of
from judging.limits import MAX_SESSIONS, U32


class Caller(NamedTuple):
    kind: str  # `s` for a session, `n` for a node
    number: int

    @property
    def is_node(self) -> bool:
        return self.kind == "n"


class Entry(NamedTuple):
    position: int
    caller: Caller
    call: int
    part: int | None  # none for the end of a call
    point: int
    act: Act

    def __str__(self) -> str:
        part = "end" if self.part is None else self.part
        return f"entry {self.position} ({self.caller.kind}{self.caller.number} {self.call} {part})"


NUMBER = "(?:0|[1-9][0-9]{0,9})"
LINE = re.compile(f"({NUMBER}) ([sn])({NUMBER}) ({NUMBER}) ({NUMBER}|end) ({NUMBER}) ([a-z-]+)((?: {NUMBER})*)")


def entry_of(line: str) -> Entry | None:
    """The entry that a line of the journal tells, if it is one."""
    found = LINE.fullmatch(line)
    if not found:
        return None
    position, kind, number, call, part, point, word, rest = found.groups()
    numbers = [int(word) for word in rest.split()]
    act = act_of(word, numbers)
    caller = Caller(kind, int(number))
    place = None if part == "end" else int(part)
    entry = Entry(int(position), caller, int(call), place, int(point), act)
    fits = max(entry.position, entry.call, place or 0, entry.point, caller.number, *numbers) < U32
    known = act is not None and (caller.is_node or caller.number < MAX_SESSIONS)
    return entry if fits and known else None
