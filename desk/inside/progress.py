"""How far long work is: a line on standard error that is written anew each second, on a terminal alone, and where what is written goes elsewhere."""
import sys
import time
from typing import Generic, Iterator, TypeVar

from . import records

Thing = TypeVar("Thing")
QUIET = 2  # seconds before anything is said


class Counted(Generic[Thing]):
    """Things as they come; on a terminal it is said how many have."""

    def __init__(self, things: Iterator[Thing], name: str) -> None:
        self.things, self.name = things, name
        self.count = 0
        self.due = time.monotonic() + QUIET
        self.shown = False

    def __iter__(self) -> "Counted[Thing]":
        return self

    def __next__(self) -> Thing:
        try:
            thing = next(self.things)
        except BaseException:  # the end too: what comes next on the terminal is to have the line
            self.clear()
            raise
        self.count += 1
        if time.monotonic() >= self.due:
            print(f"\r\x1b[K{self.name}: {self.count:,} records", end="", file=sys.stderr, flush=True)
            self.due, self.shown = time.monotonic() + 1, True
        return thing

    def clear(self) -> None:
        if self.shown:
            print("\r\x1b[K", end="", file=sys.stderr, flush=True)
            self.shown = False

    def waits(self) -> bool:
        return records.waits(self.things)


def counted(things: Iterator[Thing], name: str) -> Iterator[Thing]:
    """The same things, counted where somebody sees it."""
    return Counted(things, name) if sys.stderr is not None and sys.stderr.isatty() and not sys.stdout.isatty() else things
