"""Accepted inputs: a head, a line `---`, and a script that keeps the limits."""
from dataclasses import dataclass, field
from typing import NamedTuple

from judging import limits
from judging.calls import Barrier, Call, Cat, Form, Put, Read, Rebuild, Session, form_of
from judging.faults import NotAccepted
from judging.head import Head, head_of


class Planned(NamedTuple):
    phase: int
    call: Call


class Line(NamedTuple):
    number: int
    form: Form


@dataclass
class Totals:
    """What the lines so far ask for together."""

    head: Head
    lines: int = 0
    puts: int = 0
    stripes: int = 0
    reads: int = 0

    def add(self, form: Form) -> bool:
        """Whether the limits hold with one line more."""
        self.lines += 1
        if isinstance(form, Put):
            stripes = self.head.stripes(form.length)
            if form.length > limits.MAX_PUT or stripes > limits.MAX_PUT_STRIPES:
                return False
            self.puts += form.length
            self.stripes += stripes
        elif isinstance(form, Read):
            self.reads += self.head.block
        return (
            self.lines <= limits.MAX_LINES
            and self.puts <= limits.MAX_PUTS
            and self.stripes <= limits.MAX_STRIPES
            and self.stripes * self.head.n * self.head.block <= limits.MAX_STORED
            and self.reads <= limits.MAX_READS
        )


@dataclass
class Costs:
    """How many entries the lines of a script may make."""

    head: Head
    stripes: int = 0
    blocks: dict[str, int] = field(default_factory=dict)

    def know(self, form: Form) -> None:
        if isinstance(form, Put):
            self.stripes += self.head.stripes(form.length)
            count = self.head.blocks(form.length)
            self.blocks[form.name] = max(count, self.blocks.get(form.name, 0))

    def of(self, form: Form) -> int:
        match form:
            case Session() | Barrier():
                return 0
            case Cat(name):
                return 2 + self.blocks.get(name, 0)
            case Rebuild():
                return 2 + self.head.n * self.stripes
            case _:
                return 1


def lines_of(head: Head, script: list[bytes], first: int) -> list[Line]:
    """The lines that are not skipped, each with its form."""
    lines, totals = [], Totals(head)
    for number, text in enumerate(script, first):
        if text and not text.startswith(b"#"):
            form = form_of(text)
            if form is None or not totals.add(form):
                raise NotAccepted(f"line {number}")
            lines.append(Line(number, form))
    return lines


def need_few_entries(head: Head, lines: list[Line]) -> None:
    costs, total = Costs(head), 0
    for line in lines:
        costs.know(line.form)
    for line in lines:
        total += costs.of(line.form)
        if total > limits.MAX_ENTRIES:
            raise NotAccepted(f"line {line.number}")


@dataclass(frozen=True)
class Input:
    head: Head
    sessions: dict[int, list[Planned]]  # those with a call, in rising order

    def call(self, session: int, number: int) -> Planned | None:
        calls = self.sessions.get(session, [])
        return calls[number] if number < len(calls) else None


def planned_by_session(lines: list[Line]) -> dict[int, list[Planned]]:
    sessions: dict[int, list[Planned]] = {}
    session, phase = 0, 0
    for line in lines:
        match line.form:
            case Session(number):
                session = number
            case Barrier():
                phase += 1
            case call:
                sessions.setdefault(session, []).append(Planned(phase, call))
    return dict(sorted(sessions.items()))


def read_input(content: bytes) -> Input:
    if len(content) > limits.MAX_INPUT:
        raise NotAccepted("input: too long")
    lines = content.split(b"\n")
    if lines[-1] == b"":
        lines.pop()
    if b"---" not in lines:
        raise NotAccepted("head: no line ---")
    rule = lines.index(b"---")
    head = head_of(b"".join(line + b"\n" for line in lines[:rule]))
    script = lines_of(head, lines[rule + 1 :], rule + 2)
    need_few_entries(head, script)
    return Input(head, planned_by_session(script))
