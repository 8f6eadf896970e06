#!/usr/bin/env python3
"""Serves a script of one session over a plain table, as `ecpipe run` does, for accepted inputs only.

Reads an input on standard input and writes the replies and the journal. It knows no code: a file block is one of
the data blocks, and a lost one can be had while k rows of its stripe are live."""
import hashlib
import sys
from dataclasses import dataclass

from judging.generator import generate


@dataclass
class Stripe:
    data: list  # its k data blocks
    nodes: list  # the node of each row
    live: list  # whether each row is live


class Table:
    def __init__(self, head):
        self.k, self.n, self.block = head["k"], head["n"], head["block"]
        self.up, self.incs = [True] * head["nodes"], [0] * head["nodes"]
        self.files, self.stripes = {}, []

    def put(self, name, data):
        up = [node for node, is_up in enumerate(self.up) if is_up]
        if name in self.files:
            return "name-taken", "name-taken"
        if len(up) < self.n:
            return (f"few-nodes {len(up)}",) * 2
        first, size = len(self.stripes), self.k * self.block
        for at in range(0, len(data), size):
            piece = data[at : at + size].ljust(size, b"\0")
            blocks = [piece[i : i + self.block] for i in range(0, size, self.block)]
            number = len(self.stripes)
            nodes = [up[(number + row) % len(up)] for row in range(self.n)]
            self.stripes.append(Stripe(blocks, nodes, [True] * self.n))
        self.files[name] = (len(data), first)
        reply = f"stored {first} {len(self.stripes) - first}"
        return reply, f"{reply} {sum(1 << node for node in up)}"

    def find(self, name, index):
        """The bytes of a block, or the reply that says why there are none; and the act."""
        if name not in self.files:
            return "no-file", "no-file"
        length, first = self.files[name]
        count = -(-length // self.block)
        if index >= count:
            return (f"no-block {count}",) * 2
        stripe, row = self.stripes[first + index // self.k], index % self.k
        live = sum(stripe.live)
        if not stripe.live[row] and live < self.k:
            return (f"unrecoverable {live}",) * 2
        return stripe.data[row], "data"

    def lose(self, node):
        if node >= len(self.up):
            return "no-node", "no-node"
        if not self.up[node]:
            return "node-down", "node-down"
        self.up[node] = False
        count = 0
        for stripe in self.stripes:
            for row, place in enumerate(stripe.nodes):
                if place == node and stripe.live[row]:
                    stripe.live[row] = False
                    count += 1
        return (f"lost {count}",) * 2

    def join(self, node):
        if node >= len(self.up):
            return "no-node", "no-node"
        if self.up[node]:
            return "node-up", "node-up"
        self.up[node] = True
        self.incs[node] += 1
        return (f"joined {self.incs[node]}",) * 2

    def stat(self, name):
        if name not in self.files:
            return "no-file", "no-file"
        length, first = self.files[name]
        stripes = self.stripes[first : first + -(-length // (self.k * self.block))]
        return (f"stat {length} {-(-length // self.block)} {sum(sum(stripe.live) for stripe in stripes)}",) * 2

    def read(self, name, index):
        found, act = self.find(name, index)
        return (f"data {found.hex()}" if act == "data" else found), act

    def sum(self, name, index):
        found, act = self.find(name, index)
        return (f"sum {hashlib.sha256(found).hexdigest()}" if act == "data" else found), act

    def cat(self, name):
        """The reply, the act of the end, and those of the parts before it."""
        if name not in self.files:
            return "no-file", "no-file", []
        length, first = self.files[name]
        count = -(-length // self.block)
        acts, whole = [f"opened {length} {count} {first}"], b""
        for index in range(count):
            found, act = self.find(name, index)
            acts.append(act)
            if act != "data":
                return f"broken {index} {act}", f"broken {index}", acts
            whole += found
        return f"file {length} {hashlib.sha256(whole[:length]).hexdigest()}", "whole", acts

    def serve(self, words):
        """The reply, the act of the end, and those of the parts before it."""
        match words:
            case "cat", name:
                return self.cat(name)
            case _:
                return *self.serve_at_once(words), []

    def serve_at_once(self, words):
        match words:
            case "put", name, "hex", digits:
                return self.put(name, b"" if digits == "-" else bytes.fromhex(digits))
            case "put", name, "gen", seed, length:
                return self.put(name, generate(int(seed), int(length)))
            case ("read" | "sum") as kind, name, index:
                return getattr(self, kind)(name, int(index))
            case "stat", name:
                return self.stat(name)
            case kind, node:
                return getattr(self, kind)(int(node))


def main():
    head, script = sys.stdin.read().split("---\n", 1)
    table = Table({key: int(value) for key, value in (line.split(" = ") for line in head.splitlines())})
    session, served = 0, []
    for line in script.splitlines():
        if line.startswith("session "):
            session = int(line.split()[1])
        elif line and not line.startswith("#"):
            served.append((session, *table.serve(line.split(" "))))
    if served:
        print(f"session {served[0][0]}")
    for _, reply, _, _ in served:
        print(reply)
    journal = []
    for call, (caller, _, act, parts) in enumerate(served):
        journal += [f"s{caller} {call} {part} {len(journal) + part} {said}" for part, said in enumerate(parts)]
        journal.append(f"s{caller} {call} end {len(journal)} {act}")
    print(f"journal {len(journal)}")
    for at, line in enumerate(journal):
        print(f"{at} {line}")
    print("end")


main()
