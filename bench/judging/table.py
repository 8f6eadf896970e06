"""The plain table of files, rows and nodes that a history makes, as it is and as it was at each position."""
from bisect import bisect_right
from hashlib import sha256
from typing import Generic, NamedTuple, TypeVar

from judging.head import Head

Value = TypeVar("Value")


class Timeline(Generic[Value]):
    """A value that changes at positions."""

    def __init__(self, start: Value) -> None:
        self.since = [0]
        self.values = [start]

    def set(self, since: int, value: Value) -> None:
        self.since.append(since)
        self.values.append(value)

    def at(self, position: int | None) -> Value:
        """What it is at a position, or at the end where none is said."""
        if position is None or position >= self.since[-1]:
            return self.values[-1]
        return self.values[bisect_right(self.since, position) - 1]


class Block(NamedTuple):
    stripe: int
    row: int


class Standing(NamedTuple):
    """The node of each row of a stripe, and bit r where row r is live."""

    nodes: bytes
    live: int

    def is_live(self, row: int) -> bool:
        return bool(self.live >> row & 1)

    def live_rows(self) -> int:
        return self.live.bit_count()

    def live_on(self, node: int) -> list[int]:
        """The rows that are live on a node, in rising order."""
        return [row for row, place in enumerate(self.nodes) if place == node and self.is_live(row)]


class File:
    def __init__(self, head: Head, data: bytes, first: int, since: int) -> None:
        self.data, self.first, self.since = data, first, since
        self.size, self.k = head.block, head.k
        self.count = head.blocks(len(data))
        self.stripes = head.stripes(len(data))
        self.live = self.stripes * head.n  # its live blocks, over all rows
        self.digest = ""

    def named(self, index: int) -> Block | None:
        """Which block of which stripe a file block is, if there is one."""
        return Block(self.first + index // self.k, index % self.k) if index < self.count else None

    def block(self, index: int) -> bytes:
        """The bytes of a file block: the row of its stripe that is this piece of the data, filled with zeros."""
        return self.data[index * self.size : (index + 1) * self.size].ljust(self.size, b"\0")

    def sum(self) -> str:
        """The digest of the first bytes of its blocks, as many as it has."""
        self.digest = self.digest or sha256(self.data).hexdigest()
        return self.digest


class Stripe:
    def __init__(self, file: File) -> None:
        self.file = file
        self.standing = Timeline(Standing(b"", 0))  # no row is live before the file is stored


class Table:
    def __init__(self, head: Head) -> None:
        nodes = range(head.nodes)
        self.head = head
        self.files: dict[str, File] = {}
        self.stripes: dict[int, Stripe] = {}
        self.up = Timeline(frozenset(nodes))
        self.incarnations = [Timeline(0) for _ in nodes]
        self.live_on: list[set[Block]] = [set() for _ in nodes]
        self.lost_on: list[set[Block]] = [set() for _ in nodes]
        self.losses: dict[int, int] = {}  # the node that was lost, by the position of the entry
        self.drops: dict[int, Block] = {}
        self.last_loss = [-1] * head.nodes

    def has_node(self, node: int) -> bool:
        return node < self.head.nodes

    def is_up(self, node: int, at: int | None = None) -> bool:
        return node in self.up.at(at)

    def is_down(self, node: int) -> bool:
        return self.has_node(node) and not self.is_up(node)

    def incarnation(self, node: int, at: int | None = None) -> int:
        return self.incarnations[node].at(at)

    def was_lost(self, node: int, since: int) -> bool:
        """Whether a node was lost from a position on."""
        return self.last_loss[node] >= since

    def file(self, name: str, at: int | None = None) -> File | None:
        file = self.files.get(name)
        return file if file and (at is None or file.since <= at) else None

    def standing(self, stripe: int, at: int | None = None) -> Standing:
        return self.stripes[stripe].standing.at(at)

    def is_live(self, block: Block) -> bool:
        return self.standing(block.stripe).is_live(block.row)

    def is_recoverable(self, block: Block, at: int | None = None) -> bool:
        standing = self.standing(block.stripe, at)
        return standing.is_live(block.row) or standing.live_rows() >= self.head.k

    def is_voiding(self, position: int, stripe: int) -> bool:
        """Whether an entry is a loss of a node on which a row of the stripe is live, or gives a row of it up."""
        if position in self.losses:
            return bool(self.standing(stripe, position).live_on(self.losses[position]))
        return position in self.drops and self.drops[position].stripe == stripe

    def store(self, position: int, name: str, data: bytes, first: int, up: list[int]) -> None:
        file = File(self.head, data, first, position + 1)
        self.files[name] = file
        for number in range(first, first + file.stripes):
            nodes = bytes(up[(number + row) % len(up)] for row in range(self.head.n))
            self.stripes[number] = Stripe(file)
            self.stripes[number].standing.set(position + 1, Standing(nodes, (1 << self.head.n) - 1))
            for row, node in enumerate(nodes):
                self.live_on[node].add(Block(number, row))

    def lose(self, position: int, node: int) -> None:
        for block in sorted(self.live_on[node]):
            self._give_up(position, block)
        self.up.set(position + 1, self.up.at(None) - {node})
        self.losses[position] = node
        self.last_loss[node] = position

    def join(self, position: int, node: int, incarnation: int) -> None:
        self.up.set(position + 1, self.up.at(None) | {node})
        self.incarnations[node].set(position + 1, incarnation)

    def drop(self, position: int, block: Block) -> None:
        self._give_up(position, block)
        self.drops[position] = block

    def restore(self, position: int, block: Block, node: int) -> None:
        stripe, row = self.stripes[block.stripe], block.row
        nodes, live = stripe.standing.at(None)
        self.lost_on[nodes[row]].discard(block)
        self.live_on[node].add(block)
        stripe.file.live += 1
        moved = nodes[:row] + bytes([node]) + nodes[row + 1 :]
        stripe.standing.set(position + 1, Standing(moved, live | 1 << row))

    def _give_up(self, position: int, block: Block) -> None:
        stripe = self.stripes[block.stripe]
        nodes, live = stripe.standing.at(None)
        self.live_on[nodes[block.row]].discard(block)
        self.lost_on[nodes[block.row]].add(block)
        stripe.file.live -= 1
        stripe.standing.set(position + 1, Standing(nodes, live & ~(1 << block.row)))
