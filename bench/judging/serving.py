"""When a history serves an input: it has just its calls, each once, session by session and phase by phase."""
from bisect import bisect_left
from collections import Counter

from judging.acts import Stored
from judging.calls import Put
from judging.cases import Case, Progress
from judging.entries import Entry
from judging.faults import Refused, need
from judging.inputs import Input, Planned


def need_served(holds: object, words: str) -> None:
    need(holds, words, "serves")


class Serving:
    def __init__(self, content: Input) -> None:
        self.content = content
        self.given_up: Counter[int] = Counter()  # the entries of each node
        self.calls: dict[int, int] = {}  # the last call of each session
        self.phase = 0  # the phase of the last session entry, and where those of the earlier phases end
        self.phase_start = 0
        self.next_start = 0
        self.losses: list[int] = []  # their positions
        self.numbers = 0  # how many stripe numbers the puts may use up
        self.stored: list[Entry] = []

    def planned(self, entry: Entry) -> Planned | None:
        """The call of the input that an entry is of, none for that of a node."""
        caller = entry.caller
        if caller.is_node:
            need_served(caller.number < self.content.head.nodes, "there is no such node")
            count = self.given_up[caller.number]
            need_served(entry.call == count, f"the node's entries are numbered in order, and this is number {count}")
            return None
        planned = self.content.call(caller.number, entry.call)
        need_served(planned, "the input has no such call")
        return planned

    def need_once(self, entry: Entry, made: Progress) -> None:
        """A call ends once, after its parts, and has each part once."""
        need_served(made.end is None, "its call has ended before")
        need_served(entry.part not in made.parts, "its call has this part before")

    def need_order(self, entry: Entry, planned: Planned | None) -> None:
        """The calls of a session come one after another. Those of a phase, and their points, come behind earlier phases."""
        if planned is None:
            return
        last = self.calls.get(entry.caller.number, 0)
        need_served(entry.call >= last, f"an entry of call {last} of its session stands before")
        need_served(planned.phase >= self.phase, f"an entry of phase {self.phase} stands before one of {planned.phase}")
        start = self.next_start if planned.phase > self.phase else self.phase_start
        need_served(entry.point >= start, f"the point is below {start}, the position after the entries of earlier phases")

    def add(self, case: Case, planned: Planned | None) -> None:
        entry = case.entry
        if planned is None:
            self.given_up[entry.caller.number] += 1
            return
        self.calls[entry.caller.number] = entry.call
        if planned.phase > self.phase:
            self.phase, self.phase_start = planned.phase, self.next_start
        self.next_start = entry.position + 1
        if isinstance(case.call, Put):
            self._add_put(case)
        elif entry.position in case.table.losses:
            self.losses.append(entry.position)

    def _add_put(self, case: Case) -> None:
        """A put may use up its stripes, once and once more for each loss during it."""
        losses = len(self.losses) - bisect_left(self.losses, case.follows)
        self.numbers += case.table.head.stripes(case.call.length) * (losses + 1)
        if isinstance(case.entry.act, Stored):
            self.stored.append(case.entry)

    def need_all(self, made: dict[tuple[int, int], Progress]) -> None:
        """Every call has ended, and no stripe number is above those that the puts may use up."""
        for session, calls in self.content.sessions.items():
            for number in range(len(calls)):
                if (session, number) not in made or made[session, number].end is None:
                    raise Refused("serves", f"call {number} of session {session}", "it has no end")
        for entry in self.stored:
            if entry.act.first + entry.act.stripes > self.numbers:
                raise Refused("serves", str(entry), f"the puts may use up {self.numbers} stripe numbers alone")
