"""Why an output is not accepted."""


class NotAccepted(Exception):
    """The input is none that `ecpipe` accepts; its words are those of the first fault."""


class Broken(Exception):
    """A rule does not hold of the entry that is looked at."""

    def __init__(self, words: str, rule: str = "legal") -> None:
        super().__init__(words)
        self.rule = rule


class Refused(Exception):
    """The output breaks a rule, at a place of it."""

    def __init__(self, rule: str, place: str, words: object) -> None:
        super().__init__(f"{rule}: {place}: {words}")


def need(holds: object, words: str, rule: str = "legal") -> None:
    if not holds:
        raise Broken(words, rule)
