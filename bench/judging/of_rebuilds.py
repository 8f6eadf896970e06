"""What the parts and the end of a rebuild say."""
from judging import acts
from judging.cases import Case
from judging.faults import need
from judging.of_puts import need_sixteen
from judging.table import Block


def listed(case: Case) -> None:
    source, target = case.call
    need(case.table.has_node(source) and case.table.has_node(target), "there is no such node")
    need(case.table.is_up(target), "the target is not up")
    count = len(case.table.lost_on[source])
    need(case.entry.act.count == count, f"{count} lost blocks stand on the node")


def no_node(case: Case) -> None:
    source, target = case.call
    need(not case.made.parts, "a part of its call stands before")
    missing = target if case.table.has_node(source) else source
    need(not case.table.has_node(missing), "there are such nodes")
    need(case.entry.act.node == missing, f"{missing} is the first that is no node")


def target_down(case: Case) -> None:
    source, target = case.call
    need(not case.made.parts, "a part of its call stands before")
    need(case.table.has_node(source), "there is no such node")
    need(case.entry.act.node == target, "the node is not the target")
    need(case.table.is_down(target), "the target is not down")


def mended(case: Case) -> Block:
    """The block of the list that the part is about."""
    act, place = case.entry.act, case.entry.part - 1
    need(place < len(case.made.listed), f"the list has {len(case.made.listed)} blocks")
    block = case.made.listed[place]
    need(block == Block(act.stripe, act.row), f"the block of this part is row {block.row} of stripe {block.stripe}")
    need(not hasattr(act, "node") or act.node == case.call.target, "the node is not the target")
    return block


def need_lost(case: Case, block: Block) -> None:
    need(not case.table.is_live(block), "the block is live")


def need_target_up(case: Case) -> None:
    need(case.table.is_up(case.call.target), "the target is not up")


def others_on_target(case: Case, block: Block) -> list[int]:
    return [row for row in case.table.standing(block.stripe).live_on(case.call.target) if row != block.row]


def restored(case: Case) -> None:
    block, table, target, point = mended(case), case.table, case.call.target, case.entry.point
    need(table.is_recoverable(block, point), "the block was not recoverable at the point")
    need_lost(case, block)
    need(table.is_up(target, point), "the target was not up at the point")
    incarnation = table.incarnation(target, point)
    need(case.entry.act.incarnation == incarnation, f"the target's incarnation was {incarnation} at the point")
    need(not table.was_lost(target, point), "the target was lost from the point on")
    need(not others_on_target(case, block), "another row of the stripe is live on the target")


def already_live(case: Case) -> None:
    need(case.table.is_live(mended(case)), "the block is not live")


def clash(case: Case) -> None:
    block = mended(case)
    need_lost(case, block)
    need_target_up(case)
    others = others_on_target(case, block)
    need(others, "no other row of the stripe is live on the target")
    need(case.entry.act.other == others[0], f"the least other row that is live on the target is {others[0]}")


def gone(case: Case) -> None:
    block = mended(case)
    need_lost(case, block)
    need_target_up(case)
    live = case.table.standing(block.stripe).live_rows()
    need(case.entry.act.live == live, f"{live} rows of its stripe are live")
    need(live < case.table.head.k, "enough rows of its stripe are live")


def mend_failed(case: Case) -> None:
    mended(case)


def mend_unsteady(case: Case) -> None:
    block, table, target = mended(case), case.table, case.call.target
    need_target_up(case)
    need(table.is_recoverable(block), "the block is not recoverable")
    need_sixteen(case, case.entry.act.at)
    for position in case.entry.act.at:
        voids = table.losses.get(position) == target or table.is_voiding(position, block.stripe)
        need(voids, "a position is neither voiding for the stripe nor a loss of the target")


def mend_down(case: Case) -> None:
    mended(case)
    need(case.table.is_down(case.call.target), "the target is not down")


def rebuilt(case: Case) -> None:
    need(0 in case.made.parts, "part 0 of its call does not stand before")
    for part in range(1, len(case.made.listed) + 1):
        need(part in case.made.parts, f"part {part} of its call does not stand before")
    counts = [case.made.later[kind] for kind in acts.MENDS]
    need(list(case.entry.act) == counts, f"the parts ended as {' '.join(map(str, counts))}")


RULES = {
    acts.Listed: listed,
    acts.NoNode: no_node,
    acts.TargetDown: target_down,
    acts.Restored: restored,
    acts.AlreadyLive: already_live,
    acts.Clash: clash,
    acts.Gone: gone,
    acts.MendFailed: mend_failed,
    acts.MendUnsteady: mend_unsteady,
    acts.MendDown: mend_down,
    acts.Rebuilt: rebuilt,
}
