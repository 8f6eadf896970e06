"""A history as it grows, entry by entry, each judged before the table changes by it."""
from judging import acts
from judging.cases import Case, Progress
from judging.entries import Entry
from judging.faults import Broken, Refused, need
from judging.inputs import Input
from judging.legal import follows, need_fitting, need_legal
from judging.serving import Serving
from judging.table import Block, Table

FAULTS = (acts.StoreFailed, acts.MendFailed, acts.Drop)


class History:
    def __init__(self, content: Input, faultless: bool) -> None:
        self.faultless = faultless
        self.table = Table(content.head)
        self.serving = Serving(content)
        self.made: dict[tuple[int, int], Progress] = {}  # by session and number of the call
        self.last: dict[tuple[str, int], int] = {}  # where the last entry of each caller stands

    def add(self, entry: Entry) -> None:
        try:
            self._add(entry)
        except Broken as fault:
            raise Refused(fault.rule, str(entry), fault) from None

    def _add(self, entry: Entry) -> None:
        need(not (self.faultless and isinstance(entry.act, FAULTS)), "no store fails", "faults")
        planned = self.serving.planned(entry)
        call = planned.call if planned else None
        made = self._progress(entry)
        need_fitting(entry, call)
        self.serving.need_once(entry, made)
        case = Case(entry, call, made, self.table, follows(entry, call, made, self.last.get(entry.caller)))
        need_legal(case)
        self.serving.need_order(entry, planned)
        self._change(case)
        self.serving.add(case, planned)
        made.add(entry)
        self.last[entry.caller] = entry.position

    def _progress(self, entry: Entry) -> Progress:
        if entry.caller.is_node:
            return Progress()
        return self.made.setdefault((entry.caller.number, entry.call), Progress())

    def _change(self, case: Case) -> None:
        table, at, call, act = self.table, case.entry.position, case.call, case.entry.act
        match act:
            case acts.Stored():
                table.store(at, call.name, call.bytes(), act.first, sorted(table.up.at(case.entry.point)))
            case acts.Lost():
                table.lose(at, call.node)
            case acts.Joined():
                table.join(at, call.node, act.incarnation)
            case acts.Listed():
                case.made.listed = sorted(table.lost_on[call.source])
            case acts.Restored():
                table.restore(at, Block(act.stripe, act.row), act.node)
            case acts.Drop():
                table.drop(at, Block(act.stripe, act.row))
            case _:
                pass

    def close(self) -> None:
        self.serving.need_all(self.made)
