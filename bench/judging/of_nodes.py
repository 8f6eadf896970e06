"""What the answers of `lose` and `join` say, and what a node says that gives a block up."""
from judging import acts
from judging.cases import Case
from judging.faults import need
from judging.table import Block


def lost(case: Case) -> None:
    node, act = case.call.node, case.entry.act
    need(case.table.is_up(node), "the node is not up")
    count = len(case.table.live_on[node])
    need(act.count == count, f"{count} live blocks stand on the node")


def no_such_node(case: Case) -> None:
    need(not case.table.has_node(case.call.node), "there is such a node")


def node_down(case: Case) -> None:
    need(case.table.is_down(case.call.node), "the node is not down")


def joined(case: Case) -> None:
    node_down(case)
    incarnation = case.table.incarnation(case.call.node) + 1
    need(case.entry.act.incarnation == incarnation, f"the node's next incarnation is {incarnation}")


def node_up(case: Case) -> None:
    need(case.table.is_up(case.call.node), "the node is not up")


def drop(case: Case) -> None:
    block = Block(case.entry.act.stripe, case.entry.act.row)
    need(block in case.table.live_on[case.entry.caller.number], "the block is not live on the node")


RULES = {
    acts.Lost: lost,
    acts.NoSuchNode: no_such_node,
    acts.NodeDown: node_down,
    acts.Joined: joined,
    acts.NodeUp: node_up,
    acts.Drop: drop,
}
