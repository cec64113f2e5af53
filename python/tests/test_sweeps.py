"""Sweeps over executors: each point has its answer or its fault, whatever happens to the others."""

from __future__ import annotations

import csv
import os
import signal
import time
from concurrent.futures import Executor, Future, ProcessPoolExecutor, ThreadPoolExecutor
from decimal import Decimal
from pathlib import Path
from typing import Any

import pytest
import sidb
from conftest import sites, stored
from sidb.layout import Axis, Grid

NAMES = ["wire", "or_gate_00", "or_gate_01", "or_gate_10", "or_gate_11"]


def texts(sweep: sidb.Sweep) -> list[str]:
    """The program's text at each point."""
    return [answer.run.text for answer in sweep.answers]


@pytest.mark.parametrize("make", [None, lambda: ThreadPoolExecutor(2), lambda: ProcessPoolExecutor(2)])
def test_answers_are_those_of_single_runs(make: Any) -> None:
    layouts = [sites(name) for name in NAMES]
    if make is None:
        done = sidb.sweep(layouts)
    else:
        with make() as executor:
            done = sidb.sweep(layouts, executor=executor)
    assert texts(done) == [stored(name) for name in NAMES]
    assert [point.number for point in done.points] == list(range(5))
    assert done.faults == []


def test_parameters_are_inner() -> None:
    chosen = [sidb.Parameters(), sidb.Parameters(lam=8)]
    done = sidb.sweep([sites("or_gate_10"), sites("or_gate_11")], chosen)
    assert [(p.subject.name, p.parameters.lam) for p in done.points] == [
        ("or_gate_10", Decimal(5)), ("or_gate_10", Decimal(8)), ("or_gate_11", Decimal(5)), ("or_gate_11", Decimal(8)),
    ]  # fmt: skip
    assert texts(done)[2:] == [stored("or_gate_11"), stored("or_gate_11_tie")]


def test_failed_point_touches_no_other(tmp_path: Path) -> None:
    layouts = [sites("wire"), sidb.Layout([(n, 0, 0) for n in range(65)], name="many"), sites("wire_end")]
    done = sidb.sweep(layouts, options={"limit": 1000})
    assert [point.fault is None for point in done.points] == [True, False, True]
    assert texts(sidb.Sweep("ground", (done.points[0], done.points[2]))) == [stored("wire"), stored("wire_end")]
    fault = done.points[1].fault
    assert fault is not None
    assert (fault.kind, fault.status, fault.line) == ("InputFault", 3, "fault input too-many")
    done.write_csv(tmp_path / "rows.csv")
    with open(tmp_path / "rows.csv", newline="") as file:
        rows = list(csv.DictReader(file))
    assert [(row["name"], row["fault"], row["charges"]) for row in rows] == [
        ("wire", "", "-0-0-00-0-0-"), ("many", "fault input too-many", ""), ("wire_end", "", "-0-0-0-0"),
    ]  # fmt: skip
    assert rows[0]["energy_least"] == "269374160609"


def test_options_for_each_subject(inverter: sidb.Gate) -> None:
    limits = [{"limit": 4}, {"limit": 5}]
    done = sidb.sweep([inverter, inverter], task="truth", options=limits)
    assert [p.fault.line if p.fault else p.answer.verdict for p in done.points] == ["fault budget 4", "works"]
    with pytest.raises(sidb.ValueFault, match="options for 1"):
        sidb.sweep([inverter, inverter], task="truth", options=[{}])
    with pytest.raises(sidb.ValueFault, match="no task"):
        sidb.sweep(inverter, task="dance")


def test_progress_is_told() -> None:
    told: list[tuple[int, int]] = []
    sidb.sweep([sites("wire")] * 5, progress=lambda done, whole: told.append((done, whole)))
    assert told == [(n, 5) for n in range(1, 6)]


def test_rows_as_a_data_frame() -> None:
    pandas = pytest.importorskip("pandas", reason="pandas is optional") if _has("pandas") else None
    if pandas is not None:
        frame = sidb.sweep([sites("wire"), sites("wire_end")]).frame()
        assert list(frame["charges"]) == ["-0-0-00-0-0-", "-0-0-0-0"]


def _has(module: str) -> bool:
    import importlib.util

    return importlib.util.find_spec(module) is not None


class Broken(Executor):
    """Takes two points, and then no more."""

    def __init__(self) -> None:
        self.taken = 0

    def submit(self, work: Any, *args: Any, **kwargs: Any) -> Future[Any]:
        self.taken += 1
        if self.taken > 2:
            raise RuntimeError("the executor is shut down")
        future: Future[Any] = Future()
        future.set_result(work(*args, **kwargs))
        return future


def test_executor_that_breaks() -> None:
    done = sidb.sweep([sites("wire")] * 4, executor=Broken())
    assert [p.fault is None for p in done.points] == [True, True, False, False]
    assert done.points[3].fault is not None and "shut down" in done.points[3].fault.words


def test_process_that_is_ended() -> None:
    with ProcessPoolExecutor(1) as executor:
        worker = executor.submit(os.getpid).result()
        stopped = sidb.sweep([sites("wire")] * 3, executor=executor, progress=lambda done, _: os.kill(worker, signal.SIGKILL) if done == 1 else None)
    assert stopped.points[0].fault is None
    assert all(p.fault is None or "BrokenProcessPool" in p.fault.kind for p in stopped.points)


def test_cluster_of_two_workers_of_which_one_is_ended() -> None:
    import distributed

    with distributed.LocalCluster(
        n_workers=2, threads_per_worker=1, processes=True, dashboard_address=None, silence_logs=50
    ) as cluster, distributed.Client(cluster) as client:
        workers = list(client.run(os.getpid).values())
        ended: list[int] = []

        def end_one(done: int, _whole: int) -> None:
            if done == 10:
                os.kill(workers[0], signal.SIGKILL)
                ended.append(workers[0])

        layouts = [sites(name) for name in NAMES] * 12
        done = sidb.sweep(layouts, executor=client.get_executor(), progress=end_one)
    assert ended
    assert texts(done) == [stored(name) for name in NAMES] * 12


@pytest.mark.parametrize("pieces", [(1, 1), (2, 2), (3, 1), (1, 3), (3, 3), (9, 9), None])
def test_cells_of_the_pieces_are_those_of_the_whole(or_gate: sidb.Gate, pieces: tuple[int, int] | None) -> None:
    grid = Grid.parse("5.2:0.4:3,4.5:0.5:3")
    cut = sidb.cut_domain(or_gate, grid, pieces)
    assert cut.cells == or_gate.domain(grid).cells
    assert cut.faults == () and cut.run is None


def test_grid_larger_than_the_program_takes(inverter: sidb.Gate) -> None:
    grid = Grid.parse("5:0.01:65,4:0.5:2")
    with pytest.raises(sidb.WordsFault):
        inverter.domain(grid)
    cut = sidb.cut_domain(inverter, grid)
    assert [(cell.eps, cell.lam) for cell in cut.cells] == list(grid.points()) and len(cut.cells) == 130
    assert cut.cells[:128] == inverter.domain(Grid.parse("5:0.01:64,4:0.5:2")).cells


def test_piece_without_an_answer(inverter: sidb.Gate) -> None:
    cut = sidb.cut_domain(inverter, Grid.parse("99:1:2,5:1:2"), (3, 1))
    assert [cell.verdict for cell in cut.cells][:2] == ["works", "works"] or cut.cells[0].verdict in ("fails", "undecided")
    out = sidb.cut_domain(inverter, Grid.parse("100:1:2,5:1:2"), (2, 1))
    assert [cell.verdict for cell in out.cells][2:] == ["missing", "missing"]
    assert out.cells[0].verdict != "missing" and len(out.faults) == 1 and "101" in out.faults[0]


def test_axes_are_cut_into_all_their_values() -> None:
    axis = Axis("1.0000", "0.0001", 10)  # type: ignore[arg-type]
    for pieces in range(1, 12):
        cut = axis.cut(pieces)
        assert [value for piece in cut for value in piece.values()] == list(axis.values())
        assert max(piece.count for piece in cut) - min(piece.count for piece in cut) <= 1


def test_sweep_is_not_slow() -> None:
    """Threads run side by side: eight points take less time than eight waits, by a program that waits."""
    begun = time.perf_counter()
    done = sidb.sweep([sites("wire")] * 8)
    assert len(done.answers) == 8 and time.perf_counter() - begun < 5
