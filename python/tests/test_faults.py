"""Faults: one exception for each status, which says what went wrong, where, and what to do."""

from __future__ import annotations

import os
import pickle
import stat
from decimal import Decimal
from pathlib import Path

import pytest
import sidb
from conftest import EXAMPLES, sites
from sidb.errors import BY_STATUS, fault_of


def stand_in(folder: Path, script: str) -> str:
    """A program that is none: a script."""
    path = folder / "sidb"
    path.write_text(f"#!/bin/sh\n{script}\n")
    path.chmod(path.stat().st_mode | stat.S_IXUSR)
    return str(path)


def test_words_are_refused() -> None:
    with pytest.raises(sidb.WordsFault, match="out of its range") as fault:
        sites("wire").ground(parameters=sidb.Parameters(eps=1000))
    assert (fault.value.status, fault.value.line) == (2, "fault words")
    assert "wire" in str(fault.value)


def test_too_many_dots() -> None:
    with pytest.raises(sidb.InputFault, match="more than 64 dots") as fault:
        sidb.Layout([(n, 0, 0) for n in range(65)]).ground()
    assert (fault.value.status, fault.value.line) == (3, "fault input too-many")


def test_two_dots_at_one_place() -> None:
    with pytest.raises(sidb.InputFault, match="1 and 2 are the same"):
        sidb.Layout([(0, 0, 0), (0, 0, 0)]).ground()


def test_limit_of_nodes() -> None:
    assert sites("wire").ground(limit=123).certain
    with pytest.raises(sidb.BudgetFault, match="more nodes than the limit") as fault:
        sites("wire").ground(limit=122)
    assert (fault.value.status, fault.value.line) == (5, "fault budget 122")


def test_list_too_long() -> None:
    text = "sidb-table 1\nsites 8\nbase 3\nmu 0 0\nclass 0 0\n"
    text += "".join(f"pair {i} {j} 0\n" for i in range(8) for j in range(i + 1, 8)) + "end\n"
    with pytest.raises(sidb.ListTooLong, match="4,096") as fault:
        sidb.ground(sidb.Table(text))
    assert fault.value.status == 6


def test_certificate_with_a_broken_line() -> None:
    with pytest.raises(sidb.InputFault, match="Line 1 of the certificate"):
        sidb.check("sidb-certificate 9\n")


def test_gate_names_a_site_that_is_not_there() -> None:
    gate = sidb.Gate.parse(sites("inverter"), "0:3", "1:4", "not")
    with pytest.raises(sidb.InputFault, match="site 4, which the layout does not have"):
        gate.truth()


@pytest.mark.parametrize("status", sorted(BY_STATUS))
def test_each_status_has_its_exception(tmp_path: Path, status: int) -> None:
    program = stand_in(tmp_path, f"cat > /dev/null; echo fault words; exit {status}")
    with pytest.raises(BY_STATUS[status]) as fault:
        sites("wire").ground(program=program)
    assert fault.value.status == status
    assert len(str(fault.value)) > 40


def test_exceptions_are_all_different_and_go_through_pickle() -> None:
    assert len(set(BY_STATUS.values())) == len(BY_STATUS) == 10
    fault = fault_of(3, "fault input bad-line 5", ("--task", "ground"), "wire")
    again = pickle.loads(pickle.dumps(fault))
    assert (type(again), str(again), again.line, again.status) == (type(fault), str(fault), fault.line, 3)
    assert "Line 5" in str(fault) and "wire" in str(fault)


def test_status_that_is_none_of_the_program(tmp_path: Path) -> None:
    with pytest.raises(sidb.BadAnswer, match="status 77"):
        sites("wire").ground(program=stand_in(tmp_path, "exit 77"))


def test_program_ended_by_a_signal(tmp_path: Path) -> None:
    with pytest.raises(sidb.BadAnswer, match="signal 9"):
        sites("wire").ground(program=stand_in(tmp_path, "kill -9 $$"))


def test_no_answer_in_time(tmp_path: Path) -> None:
    with pytest.raises(sidb.ProgramTimeout, match="within 0.2 s"):
        sites("wire").ground(program=stand_in(tmp_path, "exec sleep 20"), timeout=0.2)


@pytest.mark.parametrize(
    "text",
    [
        "", "hello", "sidb-ground 1\n", "sidb-window 1\nsites 0\nskipped 0\nentries 0\nend\n",
        "sidb-ground 1\nsites 0\nskipped 0\nentries 2\n. certain\nend\n",
        "sidb-ground 1\nsites 0\nskipped 0\nentries 0\nend\nmore\n",
        "sidb-ground 1\nsites 0\nskipped 0\nentries 1\n- perhaps\nend\n",
        "sidb-ground 1\nsites 0\nskipped x\nentries 0\nend\n", "sidb-ground 1\nsites 0\nskipped 0\nentries 0\nend",
    ],
)  # fmt: skip
def test_output_that_is_no_answer(tmp_path: Path, text: str) -> None:
    (tmp_path / "text").write_text(text)
    program = stand_in(tmp_path, f"cat > /dev/null; cat {tmp_path}/text")
    with pytest.raises(sidb.BadAnswer):
        sidb.Layout(()).ground(program=program)


def test_answer_to_another_layout(tmp_path: Path) -> None:
    program = stand_in(tmp_path, f"cat > /dev/null; cat {EXAMPLES}/answers/wire")
    with pytest.raises(sidb.BadAnswer, match="another layout"):
        sites("wire_end").ground(program=program)
    assert sites("wire").ground(program=program).certain


def test_program_is_found_in_order(tmp_path: Path, monkeypatch: pytest.MonkeyPatch) -> None:
    built = os.environ["SIDB"]
    assert sidb.find_program().path == built
    monkeypatch.setenv("SIDB", str(tmp_path / "none"))
    with pytest.raises(sidb.ProgramMissing, match="SIDB of the environment"):
        sidb.find_program()
    assert sidb.find_program(built).path == built
    monkeypatch.delenv("SIDB")
    monkeypatch.setenv("PATH", str(tmp_path))
    monkeypatch.setattr("sidb.program.IN_CHECKOUT", tmp_path / "none")
    with pytest.raises(sidb.ProgramMissing, match="./build"):
        sidb.find_program()
    assert stand_in(tmp_path, "exit 0") == sidb.find_program().path


@pytest.mark.parametrize("wrong", [(0, 0), (0, 0, 0, 0), "000", (0.0, 0, 0), ("0", 0, 0), (True, 0, 0), None, 7])
def test_sites_of_wrong_types(wrong: object) -> None:
    with pytest.raises(sidb.ValueFault):
        sidb.Layout([wrong])  # type: ignore[list-item]


@pytest.mark.parametrize("wrong", ["five", None, True, float("nan"), float("inf"), "nan", "1e999999999", "1e-99999", [5]])
def test_numbers_of_wrong_types(wrong: object) -> None:
    with pytest.raises(sidb.ValueFault):
        sidb.Parameters(eps=wrong)  # type: ignore[arg-type]


def test_negative_number_has_no_word() -> None:
    with pytest.raises(sidb.ValueFault, match="no negative"):
        sites("wire").ground(parameters=sidb.Parameters(depth="-0.3"))


def test_numbers_are_exact() -> None:
    parameters = sidb.Parameters(eps=5.6, lam="5.0", depth=Decimal("0.10"), gap=0.1)
    assert parameters.words() == ("--depth", "0.1", "--gap", "0.1")
    assert sidb.Parameters(depth="0.344843633289").words() == ("--depth", "0.344843633289")
    assert sidb.Parameters(lam="1e2").words() == ("--lambda", "100")


def test_settings_and_tasks_that_there_are_not() -> None:
    with pytest.raises(sidb.ValueFault, match="takes no limits"):
        sites("wire").ground(limits=5)
    with pytest.raises(sidb.ValueFault, match="asked of a Gate"):
        sidb.truth(sites("wire"))  # type: ignore[arg-type]
    with pytest.raises(sidb.ValueFault, match="not of int"):
        sidb.ground(5)  # type: ignore[arg-type]


@pytest.mark.parametrize("text", ["0 0", "0 0 0 # a comment", "fix 0 0 0", "lattice 1 2 3", "+1 0 0", "0 0 1234567890", "a b c"])
def test_sites_texts_that_are_none(text: str) -> None:
    with pytest.raises(sidb.FileFault, match="line 2"):
        sidb.Layout.from_sites_text(f"0 0 0\n{text}\n")


def test_sites_text_is_read_as_the_program_reads_it() -> None:
    text = "# one\r\n\t2  0 0 \n\nlattice 400 0 0 800 0 200\n0 0 0\nfix 9 0 1 -2"
    layout = sidb.Layout.from_sites_text(text)
    assert layout.text() == "lattice 400 0 0 800 0 200\n0 0 0\n2 0 0\nfix 9 0 1 -2\n"
    program = sidb.find_program()
    assert layout.ground().run.text == program.run(("--energies",), text).text


def test_gates_that_are_none() -> None:
    layout = sites("inverter")
    with pytest.raises(sidb.ValueFault, match="no function of 1 inputs"):
        sidb.Gate.parse(layout, "0:3", "1:2", "or")
    with pytest.raises(sidb.ValueFault, match="0:2,1:3"):
        sidb.Gate.parse(layout, "0-3", "1:2", "not")
    with pytest.raises(sidb.ValueFault, match="no site at"):
        sidb.Gate(layout, [((0, 0, 0), (15, 0, 0))], [(1, 2)], "not")  # type: ignore[list-item]
    by_places = sidb.Gate(layout, [((0, 0, 0), (14, 0, 0))], [((6, 0, 0), (8, 0, 0))], "not")  # type: ignore[list-item]
    assert by_places == sidb.Gate.parse(layout, "0:3", "1:2", "not")


def test_gates_move_with_their_places(inverter: sidb.Gate) -> None:
    moved = inverter.moved(0, (20, 0, 0))
    assert moved.layout.sites == ((6, 0, 0), (8, 0, 0), (14, 0, 0), (20, 0, 0))
    assert (moved.inputs, moved.outputs) == (((3, 2),), ((0, 1),))
