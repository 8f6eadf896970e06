"""The reply to a call, by the entry that ended it."""
from hashlib import sha256

from judging import acts, calls
from judging.cases import Progress
from judging.table import Table

MENDED = ("rebuilt", "live", "clash", "gone", "failed", "unsteady", "down")


def spelled(act: acts.Act) -> str:
    """The word of an act and its numbers."""
    numbers = act.at if isinstance(act, acts.Unsteady) else act
    return " ".join([acts.WORDS[type(act)], *map(str, numbers)])


def reply(call: calls.Call, made: Progress, table: Table) -> str:
    match call, made.end.act:
        case calls.Put(), acts.Stored(first, stripes, _):
            return f"stored {first} {stripes}"
        case calls.Read(name, index), acts.Data():
            return f"data {table.files[name].block(index).hex()}"
        case calls.Sum(name, index), acts.Data():
            return f"sum {sha256(table.files[name].block(index)).hexdigest()}"
        case calls.Cat(name), acts.Whole():
            return f"file {len(table.files[name].data)} {table.files[name].sum()}"
        case calls.Cat(), acts.BrokenAt(index):
            return f"broken {index} {spelled(made.last)}"
        case calls.Rebuild(), acts.Rebuilt() as act:
            return " ".join(f"{word} {number}" for word, number in zip(MENDED, act))
        case _, act:
            return spelled(act)
