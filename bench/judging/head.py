"""The settings of a run."""
import tomllib
from typing import NamedTuple

from judging.faults import NotAccepted
from judging.limits import MAX_NODES


class Head(NamedTuple):
    k: int
    n: int
    nodes: int
    block: int
    slice: int
    window: int
    workers: int
    path: str

    def stripes(self, length: int) -> int:
        """How many stripes so many bytes fill."""
        return -(-length // (self.k * self.block))

    def blocks(self, length: int) -> int:
        """How many file blocks so many bytes fill."""
        return -(-length // self.block)


def number(table: dict, key: str, low: int, high: int, missing: int | None = None) -> int:
    value = table.get(key, missing)
    if type(value) is not int or not low <= value <= high:
        raise NotAccepted(f"head: {key}")
    return value


def settings(table: dict) -> Head:
    k = number(table, "k", 1, 15)
    n = number(table, "n", k + 1, 16)
    nodes = number(table, "nodes", n, MAX_NODES)
    block = number(table, "block", 1, 65_536)
    size = number(table, "slice", 1, block, missing=min(block, 4_096))
    window = number(table, "window", 1, 16, missing=4)
    workers = number(table, "workers", 0, 8, missing=0)
    path = table.get("path", "linear")
    if path not in ("linear", "cyclic"):
        raise NotAccepted("head: path")
    return Head(k, n, nodes, block, size, window, workers, path)


def head_of(document: bytes) -> Head:
    try:
        table = tomllib.loads(document.decode("utf-8"))
    except (ValueError, RecursionError):
        raise NotAccepted("head: not TOML") from None
    head = settings(table)
    if not set(table) <= set(Head._fields):
        raise NotAccepted("head: unknown key")
    return head
