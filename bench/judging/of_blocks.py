"""What the answers of `read`, `sum`, `cat` and `stat` say."""
from judging import acts, of_puts
from judging.calls import Cat, Put
from judging.cases import Case
from judging.faults import need
from judging.table import Block, File


def named_file(case: Case, at: int | None = None) -> File:
    file = case.table.file(case.call.name, at)
    need(file, "the name has no file" if at is None else "the name had no file at the point")
    return file


def index(case: Case) -> int:
    """The file block that is asked for: part j + 1 of a `cat` is of file block j."""
    return case.entry.part - 1 if isinstance(case.call, Cat) else case.call.index


def named_block(case: Case, at: int | None = None) -> Block:
    block = named_file(case, at).named(index(case))
    need(block, "the file has no such block")
    return block


def need_data_before(case: Case) -> None:
    """No part of a `cat` follows one without data."""
    if isinstance(case.call, Cat) and case.entry.part > 1:
        need(isinstance(case.made.last, acts.Data), "the part before it has no data")


def data(case: Case) -> None:
    need_data_before(case)
    block = named_block(case, case.entry.point)
    need(case.table.is_recoverable(block, case.entry.point), "the block was not recoverable at the point")


def no_such_file(case: Case) -> None:
    need(not case.made.parts, "a part of its call stands before")
    need(case.table.file(case.call.name) is None, "the name has a file")


def no_such_block(case: Case) -> None:
    count = named_file(case).count
    need(case.entry.act.count == count, f"the file has {count} blocks")
    need(index(case) >= count, "the file has such a block")


def unrecoverable(case: Case) -> None:
    need_data_before(case)
    block = named_block(case)
    live = case.table.standing(block.stripe).live_rows()
    need(not case.table.is_live(block), "the block is live")
    need(case.entry.act.live == live, f"{live} rows of its stripe are live")
    need(live < case.table.head.k, "enough rows of its stripe are live")


def unsteady(case: Case) -> None:
    if isinstance(case.call, Put):
        of_puts.unsteady(case)
        return
    need_data_before(case)
    at, block = case.entry.act.at, named_block(case)
    need(case.table.is_recoverable(block), "the block is not recoverable")
    of_puts.need_sixteen(case, at)
    voids = all(case.table.is_voiding(position, block.stripe) for position in at)
    need(voids, "a position is not voiding for the stripe")


def opened(case: Case) -> None:
    act, file = case.entry.act, named_file(case)
    need(act.length == len(file.data), f"the file has {len(file.data)} bytes")
    need(act.count == file.count, f"the file has {file.count} blocks")
    need(act.first == file.first, f"the first stripe of the file is {file.first}")


def need_part(case: Case, part: int) -> acts.Act:
    need(part in case.made.parts, f"part {part} of its call does not stand before")
    return case.made.parts[part].act


def whole(case: Case) -> None:
    count, wanted = len(case.made.parts) - 1, need_part(case, 0).count
    need(count == wanted, f"{count} parts of its call with blocks stand before, and the file has {wanted} blocks")
    need(case.made.later[acts.Data] == count, "a part has no data")


def broken(case: Case) -> None:
    part = case.entry.act.index + 1
    need(not isinstance(need_part(case, part), acts.Data), f"part {part} has data")


def stat(case: Case) -> None:
    act, file = case.entry.act, named_file(case)
    need(act.length == len(file.data), f"the file has {len(file.data)} bytes")
    need(act.count == file.count, f"the file has {file.count} blocks")
    need(act.live == file.live, f"{file.live} blocks of the file are live")


RULES = {
    acts.Data: data,
    acts.NoSuchFile: no_such_file,
    acts.NoSuchBlock: no_such_block,
    acts.Unrecoverable: unrecoverable,
    acts.Unsteady: unsteady,
    acts.Opened: opened,
    acts.Whole: whole,
    acts.BrokenAt: broken,
    acts.Stat: stat,
}
