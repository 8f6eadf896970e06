"""When an entry may come next in a legal history: its act and part, its point, and what its act says."""
from collections.abc import Callable

from judging import acts, calls, of_blocks, of_nodes, of_puts, of_rebuilds
from judging.cases import Case, Progress
from judging.entries import Entry
from judging.faults import need

OF_BLOCK = (acts.Data, acts.NoSuchFile, acts.NoSuchBlock, acts.Unrecoverable, acts.Unsteady)
ENDS: dict[type, tuple[type, ...]] = {
    calls.Put: (acts.Stored, acts.NameTaken, acts.TooFewNodes, acts.StoreFailed, acts.Unsteady),
    calls.Read: OF_BLOCK,
    calls.Sum: OF_BLOCK,
    calls.Cat: (acts.Whole, acts.BrokenAt, acts.NoSuchFile),
    calls.Lose: (acts.Lost, acts.NoSuchNode, acts.NodeDown),
    calls.Join: (acts.Joined, acts.NoSuchNode, acts.NodeUp),
    calls.Rebuild: (acts.Rebuilt, acts.NoNode, acts.TargetDown),
    calls.Stat: (acts.Stat, acts.NoSuchFile),
    type(None): (acts.Drop,),
}
FIRSTS: dict[type, tuple[type, ...]] = {calls.Cat: (acts.Opened,), calls.Rebuild: (acts.Listed,)}
LATERS: dict[type, tuple[type, ...]] = {
    calls.Cat: (acts.Data, acts.Unrecoverable, acts.Unsteady),
    calls.Rebuild: acts.MENDS,
}
LOOKING_BACK = (acts.Data, acts.Restored, acts.Stored)
RULES: dict[type, Callable[[Case], None]] = of_puts.RULES | of_blocks.RULES | of_nodes.RULES | of_rebuilds.RULES


def need_fitting(entry: Entry, call: calls.Call | None) -> None:
    """The act is one that such a call has at such a part."""
    fitting = ENDS if entry.part is None else LATERS if entry.part else FIRSTS
    need(type(entry.act) in fitting.get(type(call), ()), "such a call has no such act there")


def follows(entry: Entry, call: calls.Call | None, made: Progress, last: int | None) -> int:
    """The position after the entry that this one must follow, last being that of its caller; 0 where there is none."""
    if entry.part:
        before = 0 if isinstance(call, calls.Rebuild) else entry.part - 1
        need(before in made.parts, f"part {before} of its call does not stand before")
        return made.parts[before].position + 1
    if entry.part is None and made.parts:
        return max(part.position for part in made.parts.values()) + 1
    return 0 if last is None else last + 1


def need_legal(case: Case) -> None:
    entry = case.entry
    need(case.follows <= entry.point, f"the point is below {case.follows}, the position after the entry that it follows")
    need(entry.point <= entry.position, "the point is above the entry's own position")
    own = entry.point == entry.position
    need(own or isinstance(entry.act, LOOKING_BACK), "the point is not the entry's own position")
    RULES[type(entry.act)](case)
