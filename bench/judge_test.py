#!/usr/bin/env python3
"""Tests of the judge: whole outputs that it accepts, and small wrong edits of each that it refuses by the right rule.

A row of `judge_rows/` has an input, its output, and edits. Behind `== ` stands how a refusal begins, and below it the
changes of the output: the `old:` lines, which stand there once, and the `new:` lines in their place."""
import unittest
from collections.abc import Iterable
from pathlib import Path
from typing import NamedTuple

from judge import judge
from judging.faults import NotAccepted, Refused
from judging.inputs import read_input

ROWS = Path(__file__).parent / "judge_rows"
HEAD = "k = {}\nn = {}\nnodes = {}\nblock = {}\n---\n"


class Edit(NamedTuple):
    refusal: str
    changes: list[tuple[str, str]]  # lines, and those in their place


class Row(NamedTuple):
    name: str
    content: str
    output: str
    edits: list[Edit]


def change_of(block: str) -> tuple[str, str]:
    lines = block.splitlines()
    old, new = ([line[5:] + "\n" for line in lines if line.startswith(mark)] for mark in ("old: ", "new: "))
    assert len(old) + len(new) == len(lines), block
    return "".join(old), "".join(new)


def edit_of(section: str) -> Edit:
    refusal, changes = section.split("\n", 1)
    return Edit(refusal, [change_of(block) for block in changes.split("\n\n")])


def row_of(path: Path) -> Row:
    _, content, output, *edits = path.read_text().split("\n== ")
    content, output = content.removeprefix("input\n"), output.removeprefix("output\n")
    return Row(path.stem, content + "\n", output + "\n", [edit_of(edit) for edit in edits])


def edited(output: str, changes: list[tuple[str, str]]) -> str:
    text = "\n" + output
    for old, new in changes:
        assert text.count("\n" + old) == 1, old
        text = text.replace("\n" + old, "\n" + new)
    return text[1:]


def output_of(replies: dict[int, list[str]], acts: list[str]) -> str:
    """An output with these replies by session, and these lines of the journal without their positions."""
    lines = [line for session, texts in replies.items() for line in (f"session {session}", *texts)]
    lines += [f"journal {len(acts)}", *(f"{at} {act}" for at, act in enumerate(acts)), "end"]
    return "".join(f"{line}\n" for line in lines)


def spaced(numbers: Iterable[int]) -> str:
    return " ".join(map(str, numbers))


def unsteady_read() -> Row:
    """Fifteen times a helper is lost, and its blocks restored, while session 1 reads; then a row is given up."""
    at, last = [*range(3, 93, 6), 93], 95
    acts = ["s0 0 end 0 lost 0", "s0 1 end 1 joined 1", "s0 2 end 2 stored 0 2 3"]
    replies = ["lost 0", "joined 1", "stored 0 2"]
    for lap, v in enumerate(at[:-1]):
        call, inc = 3 + 3 * lap, lap + 2
        acts += [f"s0 {call} end {v} lost 2", f"s0 {call + 1} end {v + 1} joined {inc}"]
        acts += [f"s0 {call + 2} 0 {v + 2} listed 2", f"s0 {call + 2} 1 {v + 3} restored 0 0 0 {inc}"]
        acts += [f"s0 {call + 2} 2 {v + 4} restored 1 1 0 {inc}", f"s0 {call + 2} end {v + 5} rebuilt 2 0 0 0 0 0 0"]
        replies += ["lost 2", f"joined {inc}", "rebuilt 2 live 0 clash 0 gone 0 failed 0 unsteady 0 down 0"]
    line = f"s1 0 end {last} unsteady {spaced(at)}"
    acts += ["n1 0 end 93 drop 0 1", "n1 1 end 94 drop 1 0", line]
    script = "lose 0\njoin 0\nput a hex 4142\n" + "lose 0\njoin 0\nrebuild 0 0\n" * 15 + "session 1\nread a 0\n"
    output = output_of({0: replies, 1: [f"unsteady {spaced(at)}"]}, acts)

    def other(wrong: str, refusal: str) -> Edit:
        return Edit(f"legal: entry 95 (s1 0 end): {refusal}", [(f"95 {line}\n", f"95 s1 0 end 95 unsteady {wrong}\n")])

    edits = [
        other(f"0 {spaced(at[1:])}", "a position is not voiding for the stripe"),
        other(f"4 {spaced(at[1:])}", "a position is not voiding for the stripe"),
        other(f"{spaced(at[:-1])} 94", "a position is not voiding for the stripe"),
        other(f"9 3 {spaced(at[2:])}", "the positions do not rise"),
        other(f"3 3 {spaced(at[2:])}", "the positions do not rise"),
        other(f"{spaced(at[:-1])} 95", "a position is not below the entry's own"),
        Edit("text: line 51 of the output", [(f"unsteady {spaced(at)}\n", f"unsteady {spaced(at[:-1])}\n")]),
        Edit("text: line 148 of the output", [(f"95 {line}\n", f"95 {line} 95\n")]),
    ]
    return Row("unsteady_read", HEAD.format(1, 2, 2, 1) + script, output, edits)


def unsteady_put() -> Row:
    """Sixteen times a node of the put's places is lost."""
    at = range(1, 33, 2)
    acts = ["s1 0 end 0 node-up"]
    replies = ["node-up"]
    for lap in range(16):
        acts += [f"s1 {2 * lap + 1} end {2 * lap + 1} lost 0", f"s1 {2 * lap + 2} end {2 * lap + 2} joined {lap + 1}"]
        replies += ["lost 0", f"joined {lap + 1}"]
    line = f"s0 0 end 33 unsteady {spaced(at)}"
    script = "put a hex 41\nsession 1\njoin 0\n" + "lose 0\njoin 0\n" * 16
    output = output_of({0: [f"unsteady {spaced(at)}"], 1: replies}, [*acts, line])

    def other(wrong: str, refusal: str) -> Edit:
        return Edit(f"legal: entry 33 (s0 0 end): {refusal}", [(f"33 {line}\n", f"33 s0 0 end 33 unsteady {wrong}\n")])

    edits = [
        other(f"{spaced(at[:-1])} 32", "a position is of no loss"),
        other(f"3 1 {spaced(at[2:])}", "the positions do not rise"),
    ]
    return Row("unsteady_put", HEAD.format(1, 2, 2, 1) + script, output, edits)


def unsteady_mend() -> Row:
    """Sixteen times the target of a rebuild is lost, on which no row is live."""
    at = range(4, 36, 2)
    acts = ["s0 0 end 0 stored 0 1 7", "s0 1 end 1 lost 1", "s0 2 end 2 joined 1", "s0 3 0 3 listed 1"]
    replies = []
    for lap, v in enumerate(at):
        acts += [f"s1 {2 * lap} end {v} lost 0", f"s1 {2 * lap + 1} end {v + 1} joined {lap + 2}"]
        replies += ["lost 0", f"joined {lap + 2}"]
    line = f"s0 3 1 36 mend-unsteady 0 0 {spaced(at)}"
    acts += [line, "s0 3 end 37 rebuilt 0 0 0 0 0 1 0"]
    script = "put a hex 41\nlose 0\njoin 0\nbarrier\nrebuild 0 0\nsession 1\n" + "lose 0\njoin 0\n" * 16
    first = ["stored 0 1", "lost 1", "joined 1", "rebuilt 0 live 0 clash 0 gone 0 failed 0 unsteady 1 down 0"]
    output = output_of({0: first, 1: replies}, acts)

    def other(wrong: str, refusal: str) -> Edit:
        changes = [(f"36 {line}\n", f"36 s0 3 1 36 mend-unsteady 0 0 {wrong}\n")]
        return Edit(f"legal: entry 36 (s0 3 1): {refusal}", changes)

    edits = [
        other(f"5 {spaced(at[1:])}", "a position is neither voiding for the stripe nor a loss of the target"),
        other(f"1 {spaced(at[1:])}", "a position is below 4, the position after the entry that it follows"),
    ]
    return Row("unsteady_mend", HEAD.format(1, 3, 3, 1) + script, output, edits)


def rows() -> list[Row]:
    written = [row_of(path) for path in sorted(ROWS.glob("*.txt"))]
    return [*written, unsteady_read(), unsteady_put(), unsteady_mend()]


class Outputs(unittest.TestCase):
    def test_right_outputs_are_accepted(self) -> None:
        for row in rows():
            with self.subTest(row.name):
                replies, journal = f"\n{row.output}".split("\njournal ")
                calls = replies.count("\n") - replies.count("\nsession ")
                verdict = judge(row.content.encode(), row.output.encode())
                self.assertEqual(verdict, f"accepted: {calls} calls, {journal.split()[0]} entries")

    def test_wrong_edits_are_refused_by_the_right_rule(self) -> None:
        for row in rows():
            for edit in row.edits:
                with self.subTest(row.name, edit=edit):
                    wrong = edited(row.output, edit.changes)
                    with self.assertRaises(Refused) as caught:
                        judge(row.content.encode(), wrong.encode())
                    self.assertEqual(str(caught.exception)[: len(edit.refusal)], edit.refusal)

    def test_no_store_fails_where_none_may(self) -> None:
        failing = {"block_given_up": 2, "failed_write": 0, "failed_mend": 4, "unsteady_read": 93}
        for row in rows():
            with self.subTest(row.name):
                if row.name not in failing:
                    judge(row.content.encode(), row.output.encode(), faultless=True)
                    continue
                with self.assertRaisesRegex(Refused, f"^faults: entry {failing[row.name]} .*: no store fails"):
                    judge(row.content.encode(), row.output.encode(), faultless=True)

    def test_an_output_that_is_cut_is_refused(self) -> None:
        row = row_of(ROWS / "degraded_read.txt")
        for length in range(len(row.output)):
            with self.assertRaises(Refused):
                judge(row.content.encode(), row.output[:length].encode())


class Inputs(unittest.TestCase):
    def refusal(self, content: bytes) -> str:
        with self.assertRaises(NotAccepted) as caught:
            judge(content, b"")
        return str(caught.exception)

    def test_faults_of_a_head(self) -> None:
        small = "k = 2\nn = 3\nnodes = 3\nblock = 1\n"
        for content, refusal in [
            ("", "no line ---"),
            (small, "no line ---"),
            (small + "--- \n", "no line ---"),
            ("k = \n---\n", "not TOML"),
            ("k = 2\nk = 2\n---\n", "not TOML"),
            ("---\n", "k"),
            ("k = 16\n---\n", "k"),
            ("k = true\n---\n", "k"),
            ("k = 2\nn = 2\n---\n", "n"),
            ("k = 2\nn = 3\nnodes = 33\n---\n", "nodes"),
            ("k = 2\nn = 3\nnodes = 3\nblock = 65537\n---\n", "block"),
            (small + "slice = 2\n---\n", "slice"),
            (small + "window = 0\n---\n", "window"),
            (small + "workers = 9\n---\n", "workers"),
            (small + 'path = "ring"\n---\n', "path"),
            (small + "blocks = 1\n---\n", "unknown key"),
            ("blocks = 1\n---\n", "k"),
        ]:
            with self.subTest(content):
                self.assertEqual(self.refusal(content.encode()), f"head: {refusal}")
        self.assertEqual(self.refusal(b"# \xff\n---\n"), "head: not TOML")

    def test_ends_of_an_input(self) -> None:
        head = HEAD.format(1, 2, 2, 1)
        self.assertEqual(self.refusal(head.encode() + b"stat"), "line 6")
        for content in (head, head[:-1], head + "# the last line", head.ljust(16 << 20, "#")):
            self.assertEqual(read_input(content.encode()).sessions, {})
        self.assertEqual(self.refusal(head.ljust((16 << 20) + 1, "#").encode()), "input: too long")

    def test_lines_of_no_form(self) -> None:
        for line in [
            "fetch a 0", "put a hex 414", "put a hex", "put a hex ", "put a gen 1", "put a hex 4g", "put a  hex 41",
            "read a 00", "read a 4294967296", "read a -1", "read  a 0", "read a 0 ", " read a 0", "read a 0\r",
            "read a/b 0", "read " + 65 * "a" + " 0", "put a gen 18446744073709551616 1", "put a gen 0 4194305",
            "put a gen 0 4097", "session 8", "session 00", "barrier 1", "lose", "join 01", "rebuild 0", "stat", "cat",
        ]:
            with self.subTest(line):
                script = HEAD.format(1, 2, 2, 1) + f"# one\n\nstat a\n{line}\nfetch\n"
                self.assertEqual(self.refusal(script.encode()), "line 9")

    def test_sums_of_lines(self) -> None:
        big, wide = HEAD.format(4, 6, 8, 65536), HEAD.format(1, 16, 16, 1)
        costs = "put a gen 0 4096\n" * 16 + "rebuild 0 0\n" * 3 + "cat a\n" * 255
        for script in [
            big + "put a gen 0 4194304\n" * 16 + "put a gen 0 1\n",
            big + "read a 0\n" * 1025,
            big + "# none\n" + "lose 0\n" * 10_001,
            HEAD.format(1, 16, 16, 65536) + "put a hex 41\n" * 1025,
            wide + "put a gen 0 4096\n" * 16 + "put a hex 41\n",
            wide + costs + "session 1\n" + "stat a\n" * 3565,
        ]:
            first, last = script.count("\n") - 1, script.count("\n")
            with self.subTest(last=last):
                self.assertEqual(self.refusal(script.encode()), f"line {last}")
                read_input(b"".join(script.encode().splitlines(keepends=True)[:first]))

    def test_costs_of_later_puts(self) -> None:
        wide = HEAD.format(1, 16, 16, 1)
        for script, line in [
            (wide + "rebuild 0 0\n" * 5 + "put a gen 0 4096\n" * 16, 9),
            (wide + "cat a\n" * 1024 + "put a hex 41\nput a gen 0 4096\n", 1029),
        ]:
            with self.subTest(line=line):
                self.assertEqual(self.refusal(script.encode()), f"line {line}")


if __name__ == "__main__":
    unittest.main()
