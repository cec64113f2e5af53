"""What the program answers, as values. Each number comes out of the program's text.

Energies are whole numbers of 10^-12 eV, levels and potentials of 10^-12 V, shares of 10^-9; ``ev`` gives the same
as exact decimals in eV (or V).
"""

from __future__ import annotations

import hashlib
from collections.abc import Iterator
from dataclasses import dataclass, field
from decimal import Decimal
from pathlib import Path
from typing import Any, NamedTuple

from .layout import Gate, Grid, Layout, Place
from .parameters import Parameters
from .program import Version

#: A row for CSV: names of columns, and texts or whole numbers.
Row = dict[str, "str | int"]

_CHARGES = {"-": -1, "0": 0, "+": 1}


def ev_of(value: int) -> Decimal:
    """A whole number of 10^-12 eV (or V) as an exact decimal in eV (or V)."""
    return Decimal(value).scaleb(-12)


class Interval(NamedTuple):
    """The least and the greatest value over all choices of the potentials in their spans, in 10^-12 eV or V."""

    least: int
    greatest: int

    @property
    def ev(self) -> tuple[Decimal, Decimal]:
        """The same, exactly, in eV or V."""
        return ev_of(self.least), ev_of(self.greatest)

    @property
    def middle_ev(self) -> float:
        """Its middle in eV or V, rounded, for pictures."""
        return (self.least + self.greatest) / 2e12


@dataclass(frozen=True)
class Mark:
    """What an answer says of an entry.

    ``kind``: "certain" (a ground state whatever the potentials in their spans are), or the first comparison that
    some choice breaks: "population" (``test`` of ``site``), "hop" (of an electron from site ``start`` to site
    ``end``), "rival" (entry ``entry`` may lie lower). ``slack`` is how far it is met.
    """

    kind: str
    site: int | None = None
    test: str | None = None
    start: int | None = None
    end: int | None = None
    entry: int | None = None
    slack: Interval | None = None

    @property
    def certain(self) -> bool:
        """Whether the entry is a ground state under each choice of the potentials."""
        return self.kind == "certain"

    @property
    def settles(self) -> bool:
        """Whether the entry is valid under each choice, so that there is a ground state: certain, or a rival."""
        return self.kind in ("certain", "rival")

    def __str__(self) -> str:
        """As the program writes it."""
        if self.certain or self.slack is None:
            return self.kind
        names = (self.site, self.test, self.start, self.end, self.entry)
        what = [str(name) for name in names if name is not None]
        return " ".join(["unresolved", self.kind, *what, str(self.slack.least), str(self.slack.greatest)])

    def in_words(self) -> str:
        """In a sentence."""
        if self.certain or self.slack is None:
            return "certain: a ground state whatever the potentials in their spans are"
        least, greatest = self.slack.ev
        range_ = f"between {least:f} and {greatest:f}"
        if self.kind == "population":
            return f"unresolved: the test {self.test} of site {self.site} may fail (slack {range_} V)"
        if self.kind == "hop":
            return (
                f"unresolved: the hop of an electron from site {self.start} to site {self.end} may lower the energy "
                f"(change {range_} eV)"
            )
        return f"unresolved: entry {self.entry} may lie lower (difference {range_} eV)"


@dataclass(frozen=True)
class Entry:
    """A charge list that may be a ground state: a charge ("-", "0", "+") a site, in row order; its mark; and its
    energy, where it was asked for."""

    charges: str
    mark: Mark
    energy: Interval | None = None

    @property
    def numbers(self) -> tuple[int, ...]:
        """-1, 0 or 1 for each site."""
        return tuple(_CHARGES[charge] for charge in self.charges)

    @property
    def certain(self) -> bool:
        """Whether its mark is certain."""
        return self.mark.certain

    def row(self) -> Row:
        """Its columns for CSV."""
        row: Row = {"charges": self.charges, "mark": str(self.mark)}
        if self.energy is not None:
            row |= {"energy_least": self.energy.least, "energy_greatest": self.energy.greatest}
        return row


@dataclass(frozen=True)
class Run:
    """How an answer was made: the task, all words, the parameters, the program, its whole output, and the seconds
    that the process took (which count for nothing where answers are compared)."""

    task: str
    words: tuple[str, ...]
    parameters: Parameters
    program: Version
    text: str = field(repr=False)
    seconds: float = field(default=0.0, compare=False)


@dataclass(frozen=True)
class GroundAnswer:
    """A ground list: all charge lists that may be ground states; each other one is excluded by proof.

    ``layout`` is None for a table and a certificate, which have no places. ``skipped``: items of a SiQAD file's
    design layers that are no dot.
    """

    layout: Layout | None
    entries: tuple[Entry, ...]
    skipped: int
    run: Run

    @property
    def certain(self) -> tuple[Entry, ...]:
        """The entries that are certain."""
        return tuple(entry for entry in self.entries if entry.certain)

    def charges_at(self, entry: int = 0) -> dict[Place, int]:
        """The charge (-1, 0, 1) at each place in an entry."""
        if self.layout is None:
            return {}
        return dict(zip(self.layout.sites, self.entries[entry].numbers))

    def rows(self) -> list[Row]:
        """A row an entry."""
        return [{"entry": number, **entry.row()} for number, entry in enumerate(self.entries)]

    def draw(self, *args: Any, **kwargs: Any) -> Any:
        """``pictures.draw`` of this answer."""
        from . import pictures

        return pictures.draw(self, *args, **kwargs)


@dataclass(frozen=True)
class WindowAnswer(GroundAnswer):
    """All charge lists that may lie within ``window`` (10^-12 eV) of the ground."""

    window: int = 0


class Share(NamedTuple):
    """The share of a charge list among the entries at a temperature: at least ``least`` and at most ``greatest``,
    in 10^-9."""

    charges: str
    least: int
    greatest: int

    @property
    def shares(self) -> tuple[Decimal, Decimal]:
        """The same, exactly, as parts of 1."""
        return Decimal(self.least).scaleb(-9), Decimal(self.greatest).scaleb(-9)


@dataclass(frozen=True)
class OccupationAnswer:
    """The shares of the entries of a window (10^-12 eV) at ``kt`` (10^-12 eV): among these entries alone."""

    layout: Layout | None
    window: int
    kt: int
    shares: tuple[Share, ...]
    run: Run

    def rows(self) -> list[Row]:
        """A row an entry; shares in 10^-9."""
        return [share._asdict() for share in self.shares]

    def draw(self, *args: Any, **kwargs: Any) -> Any:
        """``pictures.plot_occupation`` of this answer."""
        from . import pictures

        return pictures.plot_occupation(self, *args, **kwargs)


class LevelEntry(NamedTuple):
    """A charge list that may be a ground state at each level of a part, and whether it certainly is."""

    charges: str
    certain: bool


@dataclass(frozen=True)
class Part:
    """The levels mu_minus from ``first`` through ``last`` (10^-12 V), and the ground list at each of them; None
    where these levels have several answers, and none is given."""

    first: int
    last: int
    entries: tuple[LevelEntry, ...] | None

    @property
    def levels(self) -> Interval:
        """Both ends; ``.ev`` is in V."""
        return Interval(self.first, self.last)


@dataclass(frozen=True)
class RangeAnswer:
    """The ground list at each level of an interval, by rising level: each level lies in exactly one part."""

    layout: Layout | None
    parts: tuple[Part, ...]
    run: Run

    def lists(self) -> tuple[str, ...]:
        """All charge lists that are an entry somewhere, in the order in which they come."""
        found = dict.fromkeys(entry.charges for part in self.parts for entry in part.entries or ())
        return tuple(found)

    def parts_of(self, charges: str) -> list[tuple[int, int, bool]]:
        """The parts in which a charge list is an entry: first level, last level, and whether it is certain."""
        return [
            (part.first, part.last, entry.certain)
            for part in self.parts
            for entry in part.entries or ()
            if entry.charges == charges
        ]

    def rows(self) -> list[Row]:
        """A row for each entry of each part; levels in 10^-12 V."""
        return [row for part in self.parts for row in _rows_of(part)]

    def draw(self, *args: Any, **kwargs: Any) -> Any:
        """``pictures.plot_levels`` of this answer."""
        from . import pictures

        return pictures.plot_levels(self, *args, **kwargs)


def _rows_of(part: Part) -> Iterator[Row]:
    ends: Row = {"first": part.first, "last": part.last}
    if part.entries is None:
        yield ends | {"charges": "", "mark": "split"}
    for entry in part.entries or ():
        yield ends | {"charges": entry.charges, "mark": "certain" if entry.certain else "unresolved"}


@dataclass(frozen=True)
class PotentialsAnswer:
    """A table of potentials: levels in 10^-12 V, a span (10^-12 V) a class, and the class of each pair of sites, and
    of each site with each fixed charge (``near``)."""

    layout: Layout | None
    base: int
    mu_minus: int
    mu_plus: int
    charges: tuple[int, ...]
    classes: tuple[Interval, ...]
    pairs: dict[tuple[int, int], int] = field(repr=False)
    near: dict[tuple[int, int], int] = field(repr=False)
    run: Run

    def span(self, one: int, other: int) -> Interval:
        """The span of the potential between two sites."""
        return self.classes[self.pairs[min(one, other), max(one, other)]]

    def rows(self) -> list[Row]:
        """A row a pair of sites."""
        spans = ((pair, self.classes[number]) for pair, number in self.pairs.items())
        return [{"site": i, "other": j, "least": s.least, "greatest": s.greatest} for (i, j), s in spans]


@dataclass(frozen=True)
class CertificateAnswer:
    """A certificate that a ground list is complete: its whole text, its entries, and how many tokens it has."""

    layout: Layout | None
    entries: tuple[Entry, ...]
    tokens: int
    run: Run

    @property
    def text(self) -> str:
        """The certificate, for ``--task check``."""
        return self.run.text

    @property
    def sha256(self) -> str:
        """The checksum of its text, in hexadecimal digits."""
        return hashlib.sha256(self.text.encode()).hexdigest()

    def save(self, path: str | Path) -> None:
        """Writes its text to a file."""
        Path(path).write_text(self.text)

    def rows(self) -> list[Row]:
        """A row an entry."""
        return [{"entry": number, **entry.row()} for number, entry in enumerate(self.entries)]


@dataclass(frozen=True)
class Pattern:
    """A pattern of the inputs of a gate: what the function wants, the verdict ("works", "fails", "undecided"), and
    the ground list of the layout that the pattern leaves. ``numbers`` are its sites' numbers in the gate's layout.
    """

    number: int
    wants: int
    verdict: str
    entries: tuple[Entry, ...]
    layout: Layout
    numbers: tuple[int, ...]

    def charges_at(self, entry: int = 0) -> dict[Place, int]:
        """The charge (-1, 0, 1) at each place in an entry."""
        return dict(zip(self.layout.sites, self.entries[entry].numbers))

    def draw(self, *args: Any, **kwargs: Any) -> Any:
        """``pictures.draw`` of this pattern."""
        from . import pictures

        return pictures.draw(self, *args, **kwargs)


@dataclass(frozen=True)
class TruthAnswer:
    """The truth table of a gate. ``verdict`` is "works" where each pattern works; else "fails" or "undecided", as
    the first pattern that does not work, which is ``pattern``."""

    gate: Gate
    patterns: tuple[Pattern, ...]
    verdict: str
    pattern: int | None
    run: Run

    @property
    def works(self) -> bool:
        """Whether each pattern works."""
        return self.verdict == "works"

    def bits_read(self, pattern: int, entry: int = 0) -> tuple[int | None, ...]:
        """The bit that each output reads in an entry of a pattern: 0 where its first site alone is negative, 1 where
        its second alone is, else None."""
        found = self.patterns[pattern]
        charges = dict(zip(found.numbers, found.entries[entry].charges))
        return tuple(_BITS.get((charges[a] == "-", charges[b] == "-")) for a, b in self.gate.outputs)

    def rows(self) -> list[Row]:
        """A row a pattern."""
        return [
            {
                "pattern": self.gate.bits_of(p.number),
                "wants": p.wants,
                "verdict": p.verdict,
                "entries": len(p.entries),
                "charges": " ".join(entry.charges for entry in p.entries),
            }
            for p in self.patterns
        ]

    def draw(self, *args: Any, **kwargs: Any) -> Any:
        """``pictures.draw_patterns`` of this answer."""
        from . import pictures

        return pictures.draw_patterns(self, *args, **kwargs)


_BITS = {(True, False): 0, (False, True): 1}


class Cell(NamedTuple):
    """A point of a domain: relative permittivity, screening length in nm, and the verdict there: "works"; or with
    the first pattern that does not work, "fails", "undecided", "budget" (its tree has more nodes than the limit),
    "long" (its list has more than 4,096 entries). "missing": the piece of the grid that holds it has no answer."""

    eps: Decimal
    lam: Decimal
    verdict: str
    pattern: int | None = None

    def row(self) -> Row:
        """Its columns for CSV."""
        return {"eps": f"{self.eps:f}", "lambda": f"{self.lam:f}", **_verdict_row(self.verdict, self.pattern)}


def _verdict_row(verdict: str, pattern: int | None) -> Row:
    return {"verdict": verdict, "pattern": "" if pattern is None else pattern}


@dataclass(frozen=True)
class DomainAnswer:
    """A gate at each point of a grid; nothing is said of what lies between two points. ``cells`` has permittivity
    outer and screening length inner. ``run`` is None where the grid was cut into pieces; ``faults`` then says why
    pieces are missing."""

    gate: Gate
    grid: Grid
    cells: tuple[Cell, ...]
    run: Run | None
    faults: tuple[str, ...] = ()

    def cell(self, eps: int, lam: int) -> Cell:
        """The cell at the eps-th permittivity and the lam-th screening length, from 0."""
        return self.cells[eps * self.grid.lam.count + lam]

    def rows(self) -> list[Row]:
        """A row a cell."""
        return [cell.row() for cell in self.cells]

    def draw(self, *args: Any, **kwargs: Any) -> Any:
        """``pictures.plot_domain`` of this answer."""
        from . import pictures

        return pictures.plot_domain(self, *args, **kwargs)


@dataclass(frozen=True)
class Tile:
    """A rectangle of parameters: both ends of the permittivity and of the screening length (nm), and what holds at
    each point of it: "works"; "fails"; or nothing, where "undecided", "budget" or "long"."""

    eps: tuple[Decimal, Decimal]
    lam: tuple[Decimal, Decimal]
    verdict: str
    pattern: int | None = None

    @property
    def proved(self) -> bool:
        """Whether something holds at each point of it."""
        return self.verdict in ("works", "fails")

    def row(self) -> Row:
        """Its columns for CSV."""
        ends = {"eps_first": self.eps[0], "eps_last": self.eps[1], "lambda_first": self.lam[0], "lambda_last": self.lam[1]}
        return {**{name: f"{end:f}" for name, end in ends.items()}, **_verdict_row(self.verdict, self.pattern)}


@dataclass(frozen=True)
class RegionAnswer:
    """A gate over rectangles of parameters: a tile that works does so at each of its points. Areas are in units of
    10^-8 nm."""

    gate: Gate
    grid: Grid
    refine: int
    tiles: tuple[Tile, ...]
    works: int
    fails: int
    open: int
    run: Run

    def rows(self) -> list[Row]:
        """A row a tile."""
        return [tile.row() for tile in self.tiles]

    def draw(self, *args: Any, **kwargs: Any) -> Any:
        """``pictures.plot_regions`` of this answer."""
        from . import pictures

        return pictures.plot_regions(self, *args, **kwargs)


@dataclass(frozen=True)
class GenAnswer:
    """What a layout gives that the program made from a number: how many sites, nodes of the search tree, entries,
    and certain entries."""

    number: int
    sites: int
    nodes: int
    entries: int
    certain: int
    run: Run

    def rows(self) -> list[Row]:
        """One row."""
        return [{name: getattr(self, name) for name in ("number", "sites", "nodes", "entries", "certain")}]


__all__ = [
    "Cell", "CertificateAnswer", "DomainAnswer", "Entry", "GenAnswer", "GroundAnswer", "Interval",
    "LevelEntry", "Mark", "OccupationAnswer", "Part", "Pattern", "PotentialsAnswer", "RangeAnswer", "RegionAnswer",
    "Row", "Run", "Share", "Tile", "TruthAnswer", "WindowAnswer", "ev_of",
]  # fmt: skip
