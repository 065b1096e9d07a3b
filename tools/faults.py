"""A fault in what was handed in: where it stands and what it is."""
from dataclasses import dataclass


@dataclass(frozen=True)
class Fault:
    where: str  # FILE:LINE, FILE or FILE: byte N
    words: str

    def __str__(self):
        return f"{self.where}: {self.words}"


class InputFaults(Exception):
    """The input cannot be used; every fault that was found, in the order of files and lines."""

    def __init__(self, faults):
        self.faults = list(faults)
        super().__init__("\n".join(map(str, self.faults)))


class CannotRun(Exception):
    """The proved programs cannot be built or run here, whatever the input is."""


class WrongUse(Exception):
    """The command line asks for what cannot be."""


def one_fault(where, words):
    return InputFaults([Fault(where, words)])


def shown(word):
    """A word as a message shows it: quoted, and cut where it is long."""
    return repr(word) if len(word) <= 40 else f"{word[:16]!r}.. ({len(word)} characters)"
