"""One function for each task of the program. Each runs the program once, and gives its answer as a value.

All take, by name: ``parameters`` (None: those of the layout), ``limit`` (the most nodes of the search tree, 1 to
10000000), ``workers`` (1 to 16, changes only time), ``program`` (a path; None: see ``find_program``) and ``timeout``
(seconds). A fault is an exception of ``errors``.
"""

from __future__ import annotations

from collections.abc import Callable
from dataclasses import dataclass
from pathlib import Path
from typing import Any, TypedDict, Unpack

from . import reading
from .answers import (
    CertificateAnswer,
    DomainAnswer,
    Entry,
    GenAnswer,
    GroundAnswer,
    OccupationAnswer,
    Pattern,
    PotentialsAnswer,
    RangeAnswer,
    RegionAnswer,
    Run,
    TruthAnswer,
    WindowAnswer,
)
from .errors import BadAnswer, ValueFault
from .layout import Gate, Grid, Layout, Table
from .parameters import DEFAULTS, Number, Parameters, decimal_of, whole_of, word_of
from .program import Program, Version, find_program

#: What most tasks are asked about.
Subject = Layout | Table


class Settings(TypedDict, total=False):
    """What each task takes by name."""

    parameters: Parameters | None
    limit: int | None
    workers: int | None
    program: str | Path | Program | None
    timeout: float | None


@dataclass(frozen=True)
class _Call:
    """One run of the program: for which task, on what, and with which settings."""

    task: str
    words: tuple[str, ...]
    given: str
    name: str
    parameters: Parameters
    settings: Settings

    def run(self, kind: str) -> Run:
        """The run, whose text is of this kind."""
        program = find_program(self.settings.get("program"))
        words = ("--task", self.task, *self.words, *self.parameters.words(), *self._search_words())
        output = program.run(words, self.given, self.settings.get("timeout"), self.name)
        version = Version(program.path, program.sha256(), reading.form_of(output.text, kind))
        return Run(self.task, words, self.parameters, version, output.text, output.seconds)

    def _search_words(self) -> tuple[str, ...]:
        given = ((name, self.settings.get(name)) for name in ("limit", "workers"))
        pairs = ((f"--{name}", str(whole_of(value, name))) for name, value in given if value is not None)  # type: ignore[arg-type]
        return tuple(word for pair in pairs for word in pair)


_KNOWN = frozenset(Settings.__annotations__)


def _call(task: str, subject: Subject | Gate, settings: Settings, *words: str) -> _Call:
    unknown = sorted(set(settings) - _KNOWN)
    if unknown:
        raise ValueFault(f"The task {task} takes no {unknown[0]}. It takes {', '.join(sorted(_KNOWN))}.")
    layout = subject.layout if isinstance(subject, Gate) else subject
    if not isinstance(layout, (Layout, Table)):
        raise ValueFault(f"The task {task} is asked of a layout, a gate or a table, and not of {type(subject).__name__}.")
    parameters = settings.get("parameters") or layout.parameters
    if isinstance(layout, Table):
        return _Call(task, ("--form", "table", *words), layout.text, layout.name, parameters, settings)
    return _Call(task, words, layout.text(), layout.name, parameters, settings)


def _gate_call(task: str, gate: Gate, settings: Settings, *words: str) -> _Call:
    if not isinstance(gate, Gate):
        raise ValueFault(f"The task {task} is asked of a Gate, and not of {type(gate).__name__}.")
    return _call(task, gate, settings, *gate.words(), *words)


def _layout_of(subject: Subject, answered: Layout, entries: tuple[object, ...]) -> Layout | None:
    """The layout of an answer, which has to be the one that was asked about."""
    if not isinstance(subject, Layout):
        return None
    if (answered.sites, answered.fixed, answered.lattice) != (subject.sites, subject.fixed, subject.lattice):
        raise BadAnswer(f"The program answered to another layout than {subject.name or 'the one'} that it was given.")
    return subject


def ground(layout: Subject, **settings: Unpack[Settings]) -> GroundAnswer:
    """All charge lists that may be ground states, with their marks and energies."""
    run = _call("ground", layout, settings, "--energies").run("sidb-ground")
    answered, skipped, entries = reading.ground_of(run.text)
    return GroundAnswer(_layout_of(layout, answered, entries), entries, skipped, run)


def window(layout: Subject, window: Number, **settings: Unpack[Settings]) -> WindowAnswer:
    """All charge lists that may lie within ``window`` (eV, 0 to 2, at most 12 places) of the ground."""
    word = word_of(decimal_of(window, "The window"), "window")
    run = _call("window", layout, settings, "--energies", "--window", word).run("sidb-window")
    width, answered, skipped, entries = reading.window_of(run.text)
    return WindowAnswer(_layout_of(layout, answered, entries), entries, skipped, run, width)


def occupation(layout: Subject, window: Number, kt: Number, **settings: Unpack[Settings]) -> OccupationAnswer:
    """The shares of the charge lists within ``window`` (eV) of the ground, among them, at ``kt`` (eV, 0.001 to 1)."""
    words = [word_of(decimal_of(window, "The window"), "window"), word_of(decimal_of(kt, "kT"), "kt")]
    run = _call("occupation", layout, settings, "--window", words[0], "--kt", words[1]).run("sidb-occupation")
    return OccupationAnswer(layout if isinstance(layout, Layout) else None, *reading.occupation_of(run.text), run)


def level_range(layout: Subject, least: Number, greatest: Number, **settings: Unpack[Settings]) -> RangeAnswer:
    """The ground list at each level: mu_minus from -``greatest`` to -``least`` V (depths of 0 to 2 V)."""
    ends = (word_of(decimal_of(end, "A depth"), "depth") for end in (least, greatest))
    run = _call("range", layout, settings, "--range", ":".join(ends)).run("sidb-range")
    return RangeAnswer(layout if isinstance(layout, Layout) else None, reading.range_of(run.text), run)


def potentials(layout: Subject, **settings: Unpack[Settings]) -> PotentialsAnswer:
    """The enclosed potentials. ``Table(answer.run.text)`` is a table that can be changed and asked about."""
    run = _call("potentials", layout, settings).run("sidb-table")
    table = reading.table_of(run.text)
    of = layout if isinstance(layout, Layout) else None
    mu = (table.mu_minus, table.mu_plus)
    return PotentialsAnswer(of, table.base, *mu, table.charges, tuple(table.classes), table.pairs, table.near, run)


def certify(layout: Subject, **settings: Unpack[Settings]) -> CertificateAnswer:
    """A certificate that the ground list is complete, which ``check`` checks."""
    run = _call("certify", layout, settings).run("sidb-certificate")
    return CertificateAnswer(layout if isinstance(layout, Layout) else None, *reading.certificate_of(run.text), run)


def check(certificate: str, **settings: Unpack[Settings]) -> GroundAnswer:
    """The ground list of a certificate, whoever wrote it; a CertificateFault where it is not sound."""
    if not isinstance(certificate, str):
        raise ValueFault(f"A certificate is a text, and not {type(certificate).__name__}.")
    call = _Call("check", (), certificate, "certificate", settings.get("parameters") or DEFAULTS, settings)
    run = call.run("sidb-ground")
    _, skipped, entries = reading.ground_of(run.text)
    return GroundAnswer(None, entries, skipped, run)


def truth(gate: Gate, **settings: Unpack[Settings]) -> TruthAnswer:
    """The truth table of a gate: for each pattern of its inputs the ground list, and whether the outputs read what
    the function wants."""
    run = _gate_call("truth", gate, settings).run("sidb-truth")
    patterns, verdict, first = reading.truth_of(run.text)
    if [number for number, *_ in patterns] != list(range(gate.patterns)):
        raise BadAnswer("The program answered for other patterns than those of the gate.")
    return TruthAnswer(gate, tuple(_pattern(gate, *pattern) for pattern in patterns), verdict, first, run)


def _pattern(gate: Gate, number: int, wants: int, verdict: str, entries: tuple[Entry, ...]) -> Pattern:
    numbers = gate.numbers_of(number)
    if any(len(entry.charges) != len(numbers) for entry in entries):
        raise BadAnswer(f"The program answered for another number of sites under pattern {number}.")
    return Pattern(number, wants, verdict, entries, gate.layout_of(number), numbers)


def domain(gate: Gate, grid: Grid, **settings: Unpack[Settings]) -> DomainAnswer:
    """The verdict on a gate at each point of a grid of at most 64 by 64 points (``sweeps.cut_domain`` for more)."""
    run = _gate_call("domain", gate, settings, "--grid", grid.word()).run("sidb-domain")
    cells = reading.domain_of(run.text)
    if [(cell.eps, cell.lam) for cell in cells] != list(grid.points()):
        raise BadAnswer("The program answered at other points than those of the grid.")
    return DomainAnswer(gate, grid, cells, run)


def region(gate: Gate, grid: Grid, refine: int = 2, **settings: Unpack[Settings]) -> RegionAnswer:
    """The verdict on a gate at all points of rectangles of parameters, by proof. ``grid`` counts rectangles here,
    each as wide as a step; an open one is quartered at most ``refine`` times (0 to 6)."""
    words = ("--grid", grid.word(), "--refine", str(whole_of(refine, "refine")))
    run = _gate_call("region", gate, settings, *words).run("sidb-region")
    return RegionAnswer(gate, grid, refine, *reading.region_of(run.text), run)


def gen(number: int, sites: int = 40, **settings: Unpack[Settings]) -> GenAnswer:
    """Makes a layout of so many sites from a number, and counts its nodes and entries."""
    words = ("--number", str(whole_of(number, "number")), "--sites", str(whole_of(sites, "sites")))
    call = _Call("gen", words, "", f"layout {number}", settings.get("parameters") or DEFAULTS, settings)
    run = call.run("sidb-gen")
    return GenAnswer(**reading.gen_of(run.text), run=run)


#: Each task by its name in Python.
TASKS: dict[str, Callable[..., Any]] = {
    "ground": ground,
    "window": window,
    "occupation": occupation,
    "level_range": level_range,
    "potentials": potentials,
    "certify": certify,
    "truth": truth,
    "domain": domain,
    "region": region,
}
