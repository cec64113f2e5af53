"""``python -m sidb``: each command as a user calls it."""

from __future__ import annotations

import subprocess
import sys
from pathlib import Path

from conftest import EXAMPLES
from sidb.__main__ import main

GATE = ["--input", "0:2,1:3", "--output", "20:21", "--function", "or"]


def called(*words: str) -> subprocess.CompletedProcess[str]:
    """A call of the command line."""
    return subprocess.run([sys.executable, "-m", "sidb", *words], capture_output=True, text=True, check=False)


def test_draw_a_layout(tmp_path: Path) -> None:
    done = called("draw", str(EXAMPLES / "wire.sqd"), "--to", str(tmp_path / "wire.svg"))
    assert (done.returncode, done.stderr) == (0, "")
    assert done.stdout.startswith("0: -0-0-00-0-0-, certain: ") and "0.269374160609 to 0.269374160624 eV" in done.stdout
    assert (tmp_path / "wire.svg").exists()


def test_draw_a_gate(tmp_path: Path, capsys) -> None:  # type: ignore[no-untyped-def]
    assert main(["draw", str(EXAMPLES / "or_gate.sites"), *GATE, "--to", str(tmp_path / "or.png")]) == 0
    said = capsys.readouterr().out
    assert "01 wants 1: works, ---00--00--00-0-0-0-" in said and said.endswith("verdict: works\n")
    assert (tmp_path / "or.png").exists()


def test_map(tmp_path: Path, capsys) -> None:  # type: ignore[no-untyped-def]
    words = ["map", str(EXAMPLES / "or_gate.sites"), *GATE, "--grid", "5.2:0.4:3,4.5:0.5:3", "--to", str(tmp_path / "map.svg")]
    assert main([*words, "--csv", str(tmp_path / "map.csv")]) == 0
    assert capsys.readouterr().out == "works 8, fails 1\n"
    assert "6.0000,4.5000,fails,0\n" in (tmp_path / "map.csv").read_text()


def test_sweep(capsys) -> None:  # type: ignore[no-untyped-def]
    files = [str(EXAMPLES / name) for name in ("wire.sqd", "or_gate_11.sites")]
    assert main(["sweep", *files, "--vary", "lam=5,8", "--limit", "100000"]) == 0
    rows = capsys.readouterr().out.splitlines()
    assert rows[0].startswith("point,name,eps,lam,") and len(rows) == 6
    assert [row.split(",")[1:4] for row in rows[3:]] == [["or_gate_11", "5.6", "5"], ["or_gate_11", "5.6", "8"], ["or_gate_11", "5.6", "8"]]


def test_sweep_with_a_point_that_fails(capsys) -> None:  # type: ignore[no-untyped-def]
    assert main(["sweep", str(EXAMPLES / "wire.sites"), "--limit", "122"]) == 1
    said = capsys.readouterr()
    assert "fault budget 122" in said.out and "more nodes than the limit" in said.err


def test_from_sqd() -> None:
    done = called("from-sqd", str(EXAMPLES / "wire.sqd"))
    lines = [line for line in (EXAMPLES / "wire.sites").read_text().splitlines() if not line.startswith("#")]
    assert done.stdout.splitlines() == ["# from wire.sqd", *lines]


def test_faults_are_a_line_on_standard_error(capsys) -> None:  # type: ignore[no-untyped-def]
    for words in (["draw", "nosuch"], ["from-sqd", str(EXAMPLES / "broken.sqd")], ["draw", str(EXAMPLES / "wire.sites"), "--eps", "0"]):
        assert main(words) == 1
        said = capsys.readouterr()
        assert said.out == "" and said.err.startswith("sidb: ") and said.err.count("\n") == 1
    assert called().returncode == 2
