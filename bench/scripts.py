#!/usr/bin/env python3
"""Writes an input for `ecpipe run`: 10,000 calls, 16 MiB of puts, 64 MiB of reads, or some calls at random, of one
session or of several, or 512 reads of one block, live or lost.

Usage: scripts.py calls | puts | reads | random SEED | sessions SEED | served SEED | block K live|lost SLICE WINDOW
       | at-once K SESSIONS WORKERS"""
import random
import sys


def head(k, n, nodes, block, settings=""):
    return f"k = {k}\nn = {n}\nnodes = {nodes}\nblock = {block}\n{settings}---\n"


def calls():
    yield head(4, 6, 8, 64)
    yield from (f"put f{i} hex {'ab' * 200}\n" for i in range(3000))
    yield "lose 2\n"
    yield from (f"read f{i % 3000} {i % 4}\n" for i in range(6999))


def puts():
    yield head(4, 6, 8, 65536)
    yield from (f"put f{i} hex {'5a' * 2_790_000}\n" for i in range(3))


def reads():
    yield head(4, 6, 8, 65536)
    yield f"put f hex {'5a' * 4_194_304}\n"
    yield "lose 1\n"
    yield from (f"read f {i % 64}\n" for i in range(1024))


def block(k, state, slice_size, window):
    """512 reads of block 0 of a stripe of k blocks of 64 KiB, which is live, or lost with its node."""
    yield head(k, k + 2, k + 2, 65536, f"slice = {slice_size}\nwindow = {window}\n")
    yield f"put f hex {random.Random(k).randbytes(k * 65536).hex()}\n"
    yield "lose 0\n" if state == "lost" else "lose 1\n"
    yield from ("read f 0\n" for _ in range(512))


def at_once(k, count, workers):
    """512 reads of a block of 64 KiB that is lost, by so many sessions at the same time, while so many workers turn the helpers."""
    yield head(k, k + 2, k + 2, 65536, f"workers = {workers}\n")
    yield f"put f hex {random.Random(k).randbytes(k * 65536).hex()}\nlose 0\nbarrier\n"
    for number in range(count):
        yield f"session {number}\n"
        yield from ("read f 0\n" for _ in range(512 // count))


def some(seed):
    draw = random.Random(seed)
    k = draw.randint(1, 6)
    n = draw.randint(k + 1, 8)
    nodes = draw.randint(n, 12)
    block = draw.choice([1, 2, 3, 7, 64])
    yield head(k, n, nodes, block) + f"# a comment\n\nsession {draw.randint(0, 7)}\n"
    for _ in range(draw.randint(0, 30)):
        kind = draw.random()
        if kind < 0.35:
            size = draw.choice([0, 1, 5, k * block, 3 * k * block + 1, draw.randint(0, 60)])
            yield f"put f{draw.randint(0, 6)} {content(draw, size, ('gen', 'hex'))}\n"
        elif kind < 0.7:
            yield f"{draw.choice(['read', 'sum'])} f{draw.randint(0, 7)} {draw.randint(0, 12)}\n"
        elif kind < 0.8:
            yield f"stat f{draw.randint(0, 7)}\n"
        else:
            yield f"{draw.choice(['lose', 'join'])} {draw.randint(0, nodes)}\n"


def settings(draw, block):
    yield f"slice = {draw.randint(1, block)}\n"
    yield f"window = {draw.randint(1, 16)}\n"
    yield f"workers = {draw.randint(0, 8)}\n"


def content(draw, size, contents):
    if "gen" in contents and draw.random() < 0.5:
        return f"gen {draw.getrandbits(64)} {size}"
    return f"hex {draw.randbytes(size).hex() or '-'}"


KINDS = {"put": 6, "read": 4, "sum": 3, "cat": 4, "lose": 3, "join": 3, "rebuild": 4, "stat": 2}

# Those forms that the program serves.
SERVED = {kind: often for kind, often in KINDS.items() if kind != "rebuild"}


def call(draw, size, nodes, kinds, contents):
    """A call of one of these kinds, on few names and nodes; size is that of a stripe's data."""
    kind = draw.choices(list(kinds), list(kinds.values()))[0]
    name, node, other = f"f{draw.randint(0, 6)}", draw.choice(nodes), draw.choice(nodes)
    match kind:
        case "put":
            length = draw.choice([0, 1, size, 3 * size + 1, draw.randint(0, 6 * size)])
            return f"put {name} {content(draw, length, contents)}\n"
        case "read" | "sum":
            return f"{kind} {name} {draw.randint(0, 8)}\n"
        case "rebuild":
            return f"rebuild {node} {draw.choice([node, other])}\n"
        case "lose" | "join":
            return f"{kind} {node}\n"
        case _:
            return f"{kind} {name}\n"


def sessions(seed, kinds=KINDS, contents=("gen", "hex")):
    draw = random.Random(seed)
    k = draw.randint(1, 6)
    n = draw.randint(k + 1, 9)
    nodes = draw.randint(n, 12)
    block = draw.choice([1, 2, 3, 7, 64])
    yield head(k, n, nodes, block, "".join(settings(draw, block)))
    numbers = draw.sample(range(8), draw.randint(2, 8))
    named = draw.sample(range(nodes), 2) * 4 + [draw.randint(0, nodes)]
    for phase in range(draw.randint(1, 4)):
        if phase > 0:
            yield "barrier\n"
        for number in numbers:
            yield f"session {number}\n"
            yield from (call(draw, k * block, named, kinds, contents) for _ in range(draw.randint(0 if phase > 0 else 1, 6)))


def main(words):
    if words[0] == "block":
        sys.stdout.writelines(block(int(words[1]), words[2], *map(int, words[3:])))
        return
    if words[0] == "at-once":
        sys.stdout.writelines(at_once(*map(int, words[1:])))
        return
    kinds = {"calls": calls, "puts": puts, "reads": reads}
    seeded = {"random": some, "sessions": sessions, "served": lambda seed: sessions(seed, SERVED)}
    lines = seeded[words[0]](int(words[1])) if words[0] in seeded else kinds[words[0]]()
    sys.stdout.writelines(lines)


main(sys.argv[1:])
