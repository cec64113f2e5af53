"""What the studies share: the verdict of a trial, counts of verdicts, and which entries of a gate are right.

A trial is one run of the program on a changed gate. Its verdict is the program's own, or the reason why there is none.
"""

from __future__ import annotations

import csv
from collections.abc import Callable, Iterable, Iterator, Sequence
from concurrent.futures import Executor
from dataclasses import dataclass, field
from fractions import Fraction
from pathlib import Path
from typing import Any

from .answers import Row, TruthAnswer
from .errors import ValueFault
from .layout import Gate
from .parameters import Parameters
from .sweeps import Point, sweep

#: Verdicts from best to worst: a gate that is not decided may still work, one that fails does not.
ORDER = ("works", "long", "budget", "undecided", "missing", "fails")

#: The verdict of a trial whose run ended with a fault, by the name of its exception; others are "missing".
OF_FAULT = {"BudgetFault": "budget", "ListTooLong": "long"}

#: Each verdict in words.
IN_WORDS = {
    "works": "works",
    "fails": "fails",
    "undecided": "is not decided at this accuracy",
    "budget": "has a search tree with more nodes than the limit",
    "long": "has more than 4,096 entries",
    "missing": "has no answer",
}


def worst_of(verdicts: Iterable[str]) -> str:
    """The worst of some verdicts; "works" where there is none."""
    return max(verdicts, key=ORDER.index, default="works")


@dataclass(frozen=True)
class Search:
    """How the runs of a study are made: the same for all. ``parameters``: None for those of the layout. ``limit``:
    the most nodes of a search tree. ``executor``: any of ``concurrent.futures``; None for the machine's processors.
    ``progress`` and ``program`` as in ``sweep``."""

    parameters: Parameters | None = None
    limit: int | None = None
    executor: Executor | None = None
    progress: Any = None
    program: Any = None

    def of(self, gate: Gate) -> Parameters:
        """The parameters at which a gate is asked about."""
        return self.parameters or gate.layout.parameters

    def points(
        self, subjects: Sequence[Any], task: str, options: Any = None, parameters: Iterable[Parameters] | None = None
    ) -> tuple[Point, ...]:
        """A sweep of this task: all pairs of subjects and parameters, subjects outer."""
        given = [self.parameters] if parameters is None and self.parameters else parameters
        with_limit = _with_limit(options, self.limit)
        made = sweep(
            subjects, given, self.executor, task=task, options=with_limit, progress=self.progress, program=self.program
        )
        return tuple(made.points)


def _with_limit(options: Any, limit: int | None) -> Any:
    if limit is None:
        return options
    if isinstance(options, list):
        return [{**one, "limit": limit} for one in options]
    return {**(options or {}), "limit": limit}


@dataclass(frozen=True)
class Outcome:
    """What came of a trial: the verdict, the first pattern that does not work, and the fault in words ("" for none).
    """

    verdict: str
    pattern: int | None = None
    fault: str = ""

    @classmethod
    def of(cls, point: Point) -> Outcome:
        """That of a point of a sweep of truth tables."""
        if point.fault is not None:
            return cls(OF_FAULT.get(point.fault.kind, "missing"), None, point.fault.words)
        answer: TruthAnswer = point.answer
        return cls(answer.verdict, answer.pattern)

    def row(self) -> Row:
        """Its columns for CSV."""
        return {"verdict": self.verdict, "pattern": "" if self.pattern is None else self.pattern, "fault": self.fault}


@dataclass(frozen=True)
class Tally:
    """How many trials there were, how many of them work, and how many fail; the others are open."""

    trials: int
    works: int
    fails: int

    @classmethod
    def of(cls, verdicts: Iterable[str]) -> Tally:
        """That of some verdicts."""
        known = list(verdicts)
        return cls(len(known), known.count("works"), known.count("fails"))

    @property
    def open(self) -> int:
        """How many neither work nor fail by proof."""
        return self.trials - self.works - self.fails

    @property
    def share(self) -> tuple[Fraction, Fraction]:
        """The share that works, at least and at most; both are 1 where there is no trial."""
        if not self.trials:
            return Fraction(1), Fraction(1)
        return Fraction(self.works, self.trials), Fraction(self.trials - self.fails, self.trials)

    def in_words(self) -> str:
        """In a sentence."""
        return f"{self.works} of {self.trials} work, {self.fails} fail, {self.open} are open."


class Study:
    """What each study can do: say its title and its findings, give rows, write them, and draw itself."""

    title: str = ""

    def sentences(self) -> list[str]:
        """What was found, a sentence each."""
        raise NotImplementedError

    def rows(self) -> list[Row]:
        """A row a trial, for CSV and pandas."""
        raise NotImplementedError

    def faults(self) -> list[str]:
        """The faults that were met, in words, each once."""
        return list(dict.fromkeys(str(row["fault"]) for row in self.rows() if row.get("fault")))

    def draw(self, path: str | Path | None = None, **options: Any) -> Any:
        """Its picture: a figure of matplotlib, also written to ``path`` (SVG or PNG by its ending)."""
        raise NotImplementedError

    def write_csv(self, path: str | Path) -> None:
        """Writes the rows to a file."""
        rows = self.rows()
        with open(path, "w", newline="", encoding="utf-8") as file:
            writer = csv.DictWriter(file, list(rows[0]) if rows else ["verdict"])
            writer.writeheader()
            writer.writerows(rows)

    def frame(self) -> Any:
        """The rows as a ``pandas.DataFrame``."""
        import pandas

        return pandas.DataFrame(self.rows())


@dataclass(frozen=True)
class Reader:
    """Reads the outputs of a gate under one pattern out of charge texts of the sites that the pattern leaves."""

    gate: Gate
    pattern: int
    numbers: tuple[int, ...] = field(init=False)

    def __post_init__(self) -> None:
        object.__setattr__(self, "numbers", self.gate.numbers_of(self.pattern))

    def bits(self, charges: str) -> tuple[int | None, ...]:
        """The bit of each output: 0 where the first of its pair alone is negative, 1 where the second alone is."""
        if len(charges) != len(self.numbers):
            raise ValueFault(f"Pattern {self.pattern} has {len(self.numbers)} sites, and the charges {charges!r} do not.")
        negative = {site for site, charge in zip(self.numbers, charges) if charge == "-"}
        return tuple(_bit(first in negative, second in negative) for first, second in self.gate.outputs)

    def is_right(self, charges: str) -> bool:
        """Whether each output reads what the function wants."""
        return set(self.bits(charges)) == {self.gate.value(self.pattern)}


def _bit(first: bool, second: bool) -> int | None:
    return None if first == second else int(second)


def readers(gate: Gate) -> list[Reader]:
    """A reader for each pattern of a gate."""
    return [Reader(gate, pattern) for pattern in range(gate.patterns)]


def grouped(points: Sequence[Point], count: int) -> Iterator[tuple[Point, ...]]:
    """The points of a sweep by its parameters: for each of ``count`` parameters those of all subjects."""
    return (tuple(points[start::count]) for start in range(count))


def nanometres(squared: int) -> float:
    """A distance in nm, rounded for reading, out of its square in (10^-2 Å)^2."""
    return float(squared**0.5) / 1000


Progress = bool | Callable[[int, int], None] | None
