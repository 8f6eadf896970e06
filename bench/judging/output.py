"""The text of an output: replies by session, the journal, and `end`."""
import re
from collections.abc import Iterator

from judging.entries import Entry, entry_of
from judging.faults import Refused
from judging.history import History
from judging.inputs import Input
from judging.replies import reply

SHOWN = 60
JOURNAL = re.compile("journal (0|[1-9][0-9]{0,9})")


def shown(line: str) -> str:
    return repr(line if len(line) <= SHOWN else line[:SHOWN] + "..")


class Output:
    def __init__(self, content: bytes, asked: Input) -> None:
        self.lines = content.decode("latin-1").split("\n")
        self.asked = asked
        self.journal = sum(1 + len(calls) for calls in asked.sessions.values())  # the line that heads the journal
        self._need_sessions()
        self.entries = self._entry_count()

    def _refuse(self, at: int, words: str) -> None:
        raise Refused("text", f"line {at + 1} of the output", words)

    def _line(self, at: int) -> str:
        if at >= len(self.lines) - 1:
            self._refuse(at, "there is no such line that ends")
        return self.lines[at]

    def _need(self, at: int, wanted: str) -> None:
        """The line at a place is the wanted one."""
        line = self._line(at)
        if line != wanted:
            same = next((i for i, (a, b) in enumerate(zip(line, wanted)) if a != b), min(len(line), len(wanted)))
            self._refuse(at, f"{shown(line)} is not {shown(wanted)}, from byte {same} on")

    def _need_sessions(self) -> None:
        at = 0
        for session, calls in self.asked.sessions.items():
            self._need(at, f"session {session}")
            at += 1 + len(calls)

    def _entry_count(self) -> int:
        """How many lines the journal has, all of which stand before the last line."""
        found = JOURNAL.fullmatch(self._line(self.journal))
        if not found:
            self._refuse(self.journal, f"{shown(self._line(self.journal))} heads no journal")
        entries = int(found[1])
        last = self.journal + entries + 1
        self._need(last, "end")
        if self.lines[last + 1 :] != [""]:
            self._refuse(last + 1, "a line stands behind the end")
        return entries

    def told(self) -> Iterator[Entry]:
        """The entries that the journal tells."""
        for position in range(self.entries):
            at = self.journal + 1 + position
            entry = entry_of(self.lines[at])
            if entry is None:
                self._refuse(at, f"{shown(self.lines[at])} is no line of a journal")
            if entry.position != position:
                self._refuse(at, f"the position is {entry.position}, and this is entry {position}")
            yield entry

    def need_replies(self, history: History) -> None:
        """Each reply is the one that the history gives."""
        at = 0
        for session, calls in self.asked.sessions.items():
            for number, planned in enumerate(calls):
                self._need(at + 1 + number, reply(planned.call, history.made[session, number], history.table))
            at += 1 + len(calls)
