"""One page on a gate, to hand on: what the program answers about it, its pictures, and how to check both.

``report(gate, "or.html")`` writes one HTML file that loads nothing and runs nothing. Each verdict and each number on it
comes from the program's output; a fault is met in words and leaves the rest of the page standing.
"""

from __future__ import annotations

from collections.abc import Iterable, Iterator, Sequence
from dataclasses import dataclass, field
from decimal import Decimal
from pathlib import Path
from typing import Any

from .answers import CertificateAnswer, DomainAnswer, Entry, RegionAnswer, TruthAnswer, WindowAnswer
from .heat import Temperatures, temperatures
from .layout import Gate, Grid
from .level_studies import Domain3, domain3
from .parameters import Number, Parameters, decimal_of
from .program import Version
from .sweeps import Point, cut_domain
from .trials import Reader, Search, Study, readers

#: What the program takes for the permittivity and the screening length (nm) at least.
_LEAST_EPS, _LEAST_LAM = Decimal(1), Decimal("0.1")


@dataclass(frozen=True)
class Gap:
    """How far above the ground list of a pattern the next charge list lies that may be valid, and the next that reads
    a wrong bit: at least so much, in 10^-12 eV; None where none is within the window (10^-12 eV)."""

    pattern: int
    window: int
    next: int | None = None
    next_bits: tuple[int | None, ...] = ()
    wrong: int | None = None
    fault: str = ""

    @classmethod
    def of(cls, reader: Reader, ground: Sequence[Entry], answer: WindowAnswer) -> Gap:
        """That of a window's answer, above the entries of the ground list."""
        known = {entry.charges for entry in ground}
        ceiling = max((_greatest(entry) for entry in answer.entries if entry.charges in known), default=None)
        if ceiling is None:
            return cls(reader.pattern, answer.window, fault="No list is valid, so there is no gap.")
        above = sorted((max(_least(e) - ceiling, 0), e.charges) for e in answer.entries if e.charges not in known)
        wrong = next((rise for rise, charges in above if not reader.is_right(charges)), None)
        if not above:
            return cls(reader.pattern, answer.window)
        return cls(reader.pattern, answer.window, above[0][0], reader.bits(above[0][1]), wrong)


def _least(entry: Entry) -> int:
    return entry.energy.least if entry.energy else 0


def _greatest(entry: Entry) -> int:
    return entry.energy.greatest if entry.energy else 0


@dataclass(frozen=True)
class Certified:
    """The certificate of a pattern's ground list: its checksum, tokens, and the words of the program that made it."""

    pattern: int
    sha256: str = ""
    tokens: int = 0
    words: tuple[str, ...] = ()
    fault: str = ""

    @classmethod
    def of(cls, pattern: int, point: Point) -> Certified:
        """That of a point of a sweep of certificates."""
        if point.fault is not None:
            return cls(pattern, fault=point.fault.words)
        answer: CertificateAnswer = point.answer
        return cls(pattern, answer.sha256, answer.tokens, _without_workers(answer.run.words))


def _without_workers(words: Sequence[str]) -> tuple[str, ...]:
    """Words without the number of workers, which changes only time."""
    at = words.index("--workers") if "--workers" in words else len(words)
    return (*words[:at], *words[at + 2 :])


@dataclass(frozen=True)
class Report:
    """All that a page tells of a gate. Parts that were not asked for, or have no answer, are None or empty."""

    title: str
    gate: Gate
    parameters: Parameters
    program: Version | None
    truth: TruthAnswer | None
    domain: DomainAnswer | RegionAnswer | None
    levels: Domain3 | None
    gaps: tuple[Gap, ...]
    warm: Temperatures | None
    studies: tuple[Study, ...]
    certificates: tuple[Certified, ...]
    faults: tuple[str, ...]

    def html(self) -> str:
        """The page."""
        from . import report_page

        return report_page.page_of(self)

    def save(self, path: str | Path) -> None:
        """Writes the page."""
        Path(path).write_text(self.html(), encoding="utf-8")


def report(
    gate: Gate,
    path: str | Path | None = None,
    *,
    title: str | None = None,
    domain: DomainAnswer | RegionAnswer | Grid | None = None,
    levels: tuple[Number, Number] | None = None,
    window: Number = "0.2",
    at_least: Number = "0.9",
    studies: Iterable[Study] = (),
    **search: Any,
) -> Report:
    """One page on a gate, written to ``path``.

    ``domain``: an answer to show, or a grid to ask about; None for 5 by 5 points round the parameters. ``levels``: two
    depths in V; None for 0.1 V on both sides. ``window`` (eV): of the gap and of the shares. ``at_least``: the share of
    right entries that is asked for over kT. ``studies``: those that were run. The others are those of ``Search``.
    """
    asked = _Questions(gate, Search(**search))
    found = asked.truth()
    made = Report(
        title=title if title is not None else gate.layout.name or f"a gate for {gate.function}",
        gate=gate,
        parameters=asked.parameters,
        program=found.run.program if found else None,
        truth=found,
        domain=domain if isinstance(domain, (DomainAnswer, RegionAnswer)) else asked.domain(domain),
        levels=asked.levels(levels),
        gaps=asked.gaps(found, decimal_of(window, "The window")),
        warm=temperatures(gate, window, at_least=at_least, **vars(asked.search)),
        studies=tuple(studies),
        certificates=asked.certificates(),
        faults=(),
    )
    whole = _with_faults(made, asked.faults)
    if path is not None:
        whole.save(path)
    return whole


def _with_faults(made: Report, met: Sequence[str]) -> Report:
    """The report with each fault that was met, once."""
    from dataclasses import replace

    return replace(made, faults=tuple(dict.fromkeys([*met, *_faults_of(made)])))


def _faults_of(made: Report) -> Iterator[str]:
    if isinstance(made.domain, DomainAnswer):
        yield from made.domain.faults
    for study in (made.levels, made.warm, *made.studies):
        yield from study.faults() if study is not None else ()
    yield from (gap.fault for gap in made.gaps if gap.fault)
    yield from (certified.fault for certified in made.certificates if certified.fault)


@dataclass(frozen=True)
class _Questions:
    """What is asked about a gate; keeps the faults that it meets."""

    gate: Gate
    search: Search
    faults: list[str] = field(default_factory=list)

    @property
    def parameters(self) -> Parameters:
        """Those at which the gate is asked about."""
        return self.search.of(self.gate)

    def truth(self) -> TruthAnswer | None:
        """Its truth table."""
        (point,) = self.search.points([self.gate], "truth")
        if point.fault is None:
            return point.answer  # type: ignore[no-any-return]
        self.faults.append(point.fault.words)
        return None

    def domain(self, grid: Grid | None) -> DomainAnswer:
        """Its domain over a grid, or over one round its parameters."""
        own = {"progress": self.search.progress, "program": self.search.program}
        limit = {} if self.search.limit is None else {"limit": self.search.limit}
        around = grid or grid_round(self.parameters)
        return cut_domain(self.gate, around, None, self.search.executor, parameters=self.parameters, **own, **limit)

    def levels(self, depths: tuple[Number, Number] | None) -> Domain3:
        """The levels at which it works, at its own permittivity and screening length."""
        depth = self.parameters.depth
        ends = depths or (max(depth - Decimal("0.1"), Decimal(0)), min(depth + Decimal("0.1"), Decimal(2)))
        here = Grid.of((self.parameters.eps, 1, 1), (self.parameters.lam, 1, 1))
        return domain3(self.gate, here, ends, **vars(self.search))

    def gaps(self, truth: TruthAnswer | None, window: Decimal) -> tuple[Gap, ...]:
        """The gap of each pattern of a truth table."""
        if truth is None:
            return ()
        layouts = [pattern.layout for pattern in truth.patterns]
        points = self.search.points(layouts, "window", {"window": str(window)})
        width = int(window.scaleb(12))
        return tuple(
            Gap(reader.pattern, width, fault=point.fault.words)
            if point.fault is not None
            else Gap.of(reader, pattern.entries, point.answer)
            for reader, pattern, point in zip(readers(self.gate), truth.patterns, points)
        )

    def certificates(self) -> tuple[Certified, ...]:
        """The certificate of each pattern's ground list."""
        layouts = [self.gate.layout_of(pattern) for pattern in range(self.gate.patterns)]
        points = self.search.points(layouts, "certify")
        return tuple(Certified.of(pattern, point) for pattern, point in enumerate(points))


def grid_round(parameters: Parameters) -> Grid:
    """5 permittivities and 5 screening lengths round those of the parameters, as far as the program takes them."""
    eps = max(parameters.eps - Decimal("0.8"), _LEAST_EPS)
    lam = max(parameters.lam - Decimal(1), _LEAST_LAM)
    return Grid.of((eps, "0.4", 5), (lam, "0.5", 5))
