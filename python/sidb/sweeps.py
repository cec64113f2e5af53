"""Many runs: a task at each pair of a layout (or gate) and parameters, over any executor.

The default uses all processors of this machine. Past one machine give the executor of an engine that is there, as
``distributed.Client(address).get_executor()`` or ``mpi4py.futures.MPIPoolExecutor()``. A point that fails touches
no other: its fault stands in its place.
"""

from __future__ import annotations

import csv
import os
import sys
import time
from collections.abc import Callable, Iterable, Iterator, Mapping, Sequence
from concurrent.futures import Executor, Future, ThreadPoolExecutor
from dataclasses import dataclass
from itertools import islice
from pathlib import Path
from queue import SimpleQueue
from typing import Any, TextIO

from . import tasks
from .answers import Cell, DomainAnswer, Row
from .errors import SidbError, ValueFault
from .layout import Gate, Grid, Layout, Table
from .parameters import Parameters
from .program import Program, find_program

#: What a sweep goes through.
Subject = Layout | Gate | Table
#: Called with how many points are done, and how many there are.
Progress = Callable[[int, int], None]

#: So many points are handed to an executor before their answers are taken.
_AHEAD = 512
#: The most points that the program takes along one axis of a grid.
_LONGEST_AXIS = 64


@dataclass(frozen=True)
class Fault:
    """Why a point has no answer: the name of the exception, the program's status and line (None and "" where it
    gave none), and words for a reader."""

    kind: str
    status: int | None
    line: str
    words: str


@dataclass(frozen=True)
class Point:
    """One point of a sweep: what was asked about, and either the answer or the fault. ``seconds``: what the point
    took where it was worked on."""

    number: int
    subject: Subject
    parameters: Parameters
    answer: Any = None
    fault: Fault | None = None
    seconds: float = 0.0

    def rows(self) -> list[Row]:
        """The rows of its answer, or one with its fault, each with the point's number, name and parameters."""
        front: Row = {"point": self.number, "name": _layout_of(self.subject).name, **self.parameters.as_row()}
        if self.fault is not None:
            return [front | {"fault": self.fault.line or self.fault.kind}]
        return [front | {"fault": ""} | row for row in self.answer.rows()]


@dataclass(frozen=True)
class Sweep:
    """All points of a sweep, in their order: layouts outer, parameters inner."""

    task: str
    points: tuple[Point, ...]

    @property
    def answers(self) -> list[Any]:
        """The answer of each point; None where it failed."""
        return [point.answer for point in self.points]

    @property
    def faults(self) -> list[Point]:
        """The points that failed."""
        return [point for point in self.points if point.fault is not None]

    def rows(self) -> list[Row]:
        """The rows of all points."""
        return [row for point in self.points for row in point.rows()]

    def write_csv(self, target: str | Path | TextIO) -> None:
        """Writes the rows to a file, with a head."""
        write_csv(self.rows(), target)

    def frame(self) -> Any:
        """The rows as a data frame of pandas, which has to be there."""
        import pandas

        return pandas.DataFrame(self.rows())


def write_csv(rows: Sequence[Mapping[str, Any]], target: str | Path | TextIO) -> None:
    """Writes rows to a file, or to what can be written to; the head has each column that a row has."""
    if isinstance(target, (str, Path)):
        with open(target, "w", newline="", encoding="utf-8") as file:
            write_csv(rows, file)
        return
    columns = dict.fromkeys(name for row in rows for name in row)
    writer = csv.DictWriter(target, list(columns), restval="", lineterminator="\n")
    writer.writeheader()
    writer.writerows(rows)


@dataclass(frozen=True)
class _Work:
    """A point that is still to be done; goes to a worker as it is."""

    number: int
    task: str
    subject: Subject
    parameters: Parameters
    options: dict[str, Any]

    def done(self) -> Point:
        """The point, with its answer or its fault."""
        begun = time.perf_counter()
        made: dict[str, Any] = {}
        try:
            made["answer"] = tasks.TASKS[self.task](self.subject, parameters=self.parameters, **self.options)
        except SidbError as fault:
            made["fault"] = Fault(type(fault).__name__, fault.status, fault.line, str(fault))
        except Exception as fault:
            made["fault"] = _other_fault(fault)
        return Point(self.number, self.subject, self.parameters, **made, seconds=time.perf_counter() - begun)

    def lost(self, fault: BaseException) -> Point:
        """The point where its worker was lost, or the executor could not hand it over."""
        return Point(self.number, self.subject, self.parameters, fault=_other_fault(fault))


def _other_fault(fault: BaseException) -> Fault:
    return Fault(type(fault).__name__, None, "", f"{type(fault).__name__}: {fault}")


def _do(work: _Work) -> Point:
    return work.done()


def _layout_of(subject: Subject) -> Layout | Table:
    return subject.layout if isinstance(subject, Gate) else subject


def sweep(
    subjects: Subject | Iterable[Subject],
    parameters: Parameters | Iterable[Parameters] | None = None,
    executor: Executor | None = None,
    *,
    task: str = "ground",
    options: Mapping[str, Any] | Sequence[Mapping[str, Any]] | None = None,
    progress: bool | Progress | None = None,
    program: str | Path | Program | None = None,
) -> Sweep:
    """The task at each pair of a subject and parameters.

    ``parameters`` None: those of each layout. ``options``: further arguments of the task for all points, or a list
    of them, one for each subject. ``executor`` None: as many threads as there are processors. ``progress`` None: a
    bar on standard error where that is a terminal; or a function. ``program`` is looked for where the work is done
    when it is None and an executor is given, so that each machine may have its own.
    """
    if task not in tasks.TASKS:
        raise ValueFault(f"There is no task {task!r}. There are: {', '.join(tasks.TASKS)}.")
    if executor is None or program is not None:
        program = find_program(program)
    work = list(_work(subjects, parameters, task, options, program))
    with _bar(progress, len(work), task) as told:
        if executor is not None:
            return Sweep(task, tuple(_points(work, executor, told)))
        with ThreadPoolExecutor(os.cpu_count()) as own:
            return Sweep(task, tuple(_points(work, own, told)))


def _work(subjects: Any, parameters: Any, task: str, options: Any, program: Program | None) -> Iterator[_Work]:
    many = [subjects] if isinstance(subjects, (Layout, Gate, Table)) else list(subjects)
    among = [parameters] if isinstance(parameters, Parameters) else None if parameters is None else list(parameters)
    each = list(options) if isinstance(options, Sequence) else [options or {}] * len(many)
    if len(each) != len(many):
        raise ValueFault(f"There are {len(many)} subjects, and options for {len(each)}.")
    number = 0
    for subject, more in zip(many, each):
        for chosen in among if among is not None else [_layout_of(subject).parameters]:
            yield _Work(number, task, subject, chosen, {"workers": 1, "program": program, **more})
            number += 1


def _points(work: list[_Work], executor: Executor, told: Progress) -> list[Point]:
    """The points in their order; at most ``_AHEAD`` are with the executor at once."""
    done: list[Point] = []
    finished: SimpleQueue[Future[Point]] = SimpleQueue()
    running: dict[Future[Point], _Work] = {}
    left = iter(work)
    try:
        while len(done) < len(work):
            for one in islice(left, _AHEAD - len(running)):
                future = _submitted(executor, one)
                running[future] = one
                future.add_done_callback(finished.put)
            future = finished.get()
            done.append(_taken(future, running.pop(future)))
            told(len(done), len(work))
    finally:
        for future in running:
            future.cancel()
    return sorted(done, key=lambda point: point.number)


def _submitted(executor: Executor, one: _Work) -> Future[Point]:
    try:
        return executor.submit(_do, one)
    except Exception as fault:  # an executor that is broken: each point left says so
        failed: Future[Point] = Future()
        failed.set_exception(fault)
        return failed


def _taken(future: Future[Point], one: _Work) -> Point:
    if future.cancelled():
        return one.lost(RuntimeError("its worker was lost, or the executor was shut down"))
    fault = future.exception()
    return future.result() if fault is None else one.lost(fault)


class _bar:
    """A bar of ``tqdm`` where it is there, else a line on standard error; or what the caller gave."""

    def __init__(self, progress: bool | Progress | None, whole: int, title: str) -> None:
        self.tell: Progress = progress if callable(progress) else lambda done, whole: None
        self.close: Callable[[], None] = lambda: None
        if progress is True or (progress is None and sys.stderr.isatty()):
            self._open(whole, title)

    def _open(self, whole: int, title: str) -> None:
        try:
            from tqdm import tqdm
        except ImportError:
            self.tell = lambda done, whole: print(f"\r{title}: {done} of {whole}", end="", file=sys.stderr)
            self.close = lambda: print(file=sys.stderr)
            return
        bar: Any = tqdm(total=whole, desc=title, unit="points")

        def tell(done: int, _whole: int) -> None:
            bar.update(done - bar.n)

        self.tell, self.close = tell, bar.close

    def __enter__(self) -> Progress:
        return self.tell

    def __exit__(self, *_: object) -> None:
        self.close()


def cut_domain(
    gate: Gate,
    grid: Grid,
    pieces: tuple[int, int] | None = None,
    executor: Executor | None = None,
    *,
    parameters: Parameters | None = None,
    **settings: Any,
) -> DomainAnswer:
    """``tasks.domain`` by pieces of the grid, for grids of any size and for many machines.

    ``pieces``: into how many pieces permittivity and screening length are cut; None: as few as the program allows,
    and at least as many as there are processors. The cells are those of the whole grid. Where a piece has no answer its
    cells are "missing", and ``faults`` says why. Further settings are those of ``sweep`` (``progress``, ``program``)
    and of ``tasks.domain`` (``limit``, ``timeout``).
    """
    cut = grid.cut(*(pieces or _pieces(grid)))
    own = {name: settings.pop(name) for name in ("progress", "program") if name in settings}
    options = [{"grid": piece, **settings} for piece in cut]
    done = sweep([gate] * len(cut), parameters, executor, task="domain", options=options, **own)
    cells = {(cell.eps, cell.lam): cell for answer in done.answers if answer for cell in answer.cells}
    missing = (cells.get((eps, lam)) or Cell(eps, lam, "missing") for eps, lam in grid.points())
    faults = (f"{cut[point.number].word()}: {point.fault.words}" for point in done.faults if point.fault)
    return DomainAnswer(gate, grid, tuple(missing), None, tuple(faults))


def _pieces(grid: Grid) -> tuple[int, int]:
    """As few as the program allows, and enough for all processors."""
    eps, lam = (-(-axis.count // _LONGEST_AXIS) for axis in (grid.eps, grid.lam))
    return max(eps, -(-(os.cpu_count() or 1) // lam)), lam
