"""What the answers to a put say."""
from itertools import pairwise

from judging import acts
from judging.cases import Case
from judging.faults import need


def need_sixteen(case: Case, at: tuple[int, ...]) -> None:
    """One position for each attempt, within the call."""
    need(all(a < b for a, b in pairwise(at)), "the positions do not rise")
    need(case.follows <= at[0], f"a position is below {case.follows}, the position after the entry that it follows")
    need(at[-1] < case.entry.position, "a position is not below the entry's own")


def need_free(case: Case) -> None:
    need(case.table.file(case.call.name) is None, "the name has a file")


def stored(case: Case) -> None:
    act, table, point = case.entry.act, case.table, case.entry.point
    need_free(case)
    stripes = table.head.stripes(case.call.length)
    need(act.stripes == stripes, f"the bytes fill {stripes} stripes")
    numbers = range(act.first, act.first + stripes)
    need(not any(number in table.stripes for number in numbers), "a stripe number was used before")
    up = table.up.at(point)
    need(act.up == sum(1 << node for node in up), "the mask is not that of the nodes that were up at the point")
    need(len(up) >= table.head.n, "too few nodes were up at the point")
    need(not any(table.was_lost(node, point) for node in up), "a node was lost from the point on")


def name_taken(case: Case) -> None:
    need(case.table.file(case.call.name), "the name has no file")


def too_few_nodes(case: Case) -> None:
    up = len(case.table.up.at(None))
    need_free(case)
    need(case.entry.act.up == up, f"{up} nodes are up")
    need(up < case.table.head.n, "enough nodes are up")


def store_failed(case: Case) -> None:
    need(case.table.has_node(case.entry.act.node), "there is no such node")


def unsteady(case: Case) -> None:
    at = case.entry.act.at
    need_free(case)
    need(len(case.table.up.at(None)) >= case.table.head.n, "too few nodes are up")
    need_sixteen(case, at)
    need(all(position in case.table.losses for position in at), "a position is of no loss")


RULES = {
    acts.Stored: stored,
    acts.NameTaken: name_taken,
    acts.TooFewNodes: too_few_nodes,
    acts.StoreFailed: store_failed,
}
