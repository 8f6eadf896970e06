#!/usr/bin/env python3
"""Says whether an output of `ecpipe run` is the replies and the journal of one legal history that serves the input.

Usage: judge.py [--faultless] INPUT OUTPUT ..

Prints a line for each pair: `accepted: C calls, M entries`, or the first rule that fails, and where. The rules are
`text` (what the journal and the input give), `legal` (what an entry may say where it stands), `serves` (the calls of the
input, each once and in order) and, with `--faultless`, `faults` (no store fails). The status is 1 where an output is not
accepted."""
import sys
from pathlib import Path

from judging.faults import NotAccepted, Refused
from judging.history import History
from judging.inputs import read_input
from judging.output import Output


def judge(content: bytes, written: bytes, faultless: bool = False) -> str:
    """The verdict on what was written for an input."""
    asked = read_input(content)
    output = Output(written, asked)
    history = History(asked, faultless)
    for entry in output.told():
        history.add(entry)
    history.close()
    output.need_replies(history)
    calls = sum(map(len, asked.sessions.values()))
    return f"accepted: {calls} calls, {output.entries} entries"


def verdict(content: Path, written: Path, faultless: bool) -> tuple[bool, str]:
    """Whether the output is accepted, and the line that says so."""
    try:
        return True, judge(content.read_bytes(), written.read_bytes(), faultless)
    except NotAccepted as fault:
        return False, f"not an accepted input: {fault}"
    except Refused as fault:
        return False, str(fault)


def main(words: list[str]) -> int:
    faultless = words[:1] == ["--faultless"]
    paths = [Path(word) for word in words[faultless:]]
    if not paths or len(paths) % 2:
        print("usage: judge.py [--faultless] INPUT OUTPUT ..", file=sys.stderr)
        return 2
    status = 0
    for content, written in zip(paths[::2], paths[1::2]):
        accepted, line = verdict(content, written, faultless)
        print(f"{content}: {line}" if len(paths) > 2 else line)
        status = status if accepted else 1
    return status


if __name__ == "__main__":
    sys.exit(main(sys.argv[1:]))
