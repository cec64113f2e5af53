"""What the README and the example say is what happens."""

from __future__ import annotations

import re
import shutil
import subprocess
import sys
import time
from pathlib import Path

import pytest
import sidb
from conftest import EXAMPLES

TOP = EXAMPLES.parent


def test_python_of_the_readme_runs(tmp_path: Path, monkeypatch: pytest.MonkeyPatch) -> None:
    blocks = re.findall(r"```python\n(.*?)```", (TOP / "python" / "README.md").read_text(), re.DOTALL)
    assert len(blocks) >= 2
    shutil.copy(EXAMPLES / "or_gate.sqd", tmp_path)
    monkeypatch.chdir(tmp_path)
    exec(compile("\n".join(blocks), "README.md", "exec"), {})
    assert (tmp_path / "ground.svg").exists() and (tmp_path / "sweep.csv").exists()


def test_names_of_the_readme_are_there() -> None:
    from sidb import pictures, studies, symmetry

    named = re.findall(r"`([A-Za-z_]+)[`(]", (TOP / "python" / "README.md").read_text())
    known = {*dir(sidb), *dir(pictures), *dir(symmetry), *dir(studies), *dir(studies.Study), *dir(sidb.Sweep), *dir(sidb.Layout), *dir(sidb.Run), *dir(sidb.SidbError("")), *dir(sidb.Interval)}
    words = {"SIDB", "PATH", "muzm", "eps_r", "debye_length", "leave_out", "left_out", "distributed", "program", "parameters",
             "limit", "workers", "timeout", "run", "rows", "draw", "map", "sweep", "str", "sites", "samples"}  # fmt: skip
    assert [name for name in named if name not in known | words] == []


def test_example_from_a_file_of_siqad(tmp_path: Path) -> None:
    begun = time.perf_counter()
    done = subprocess.run(
        [sys.executable, str(EXAMPLES / "from_siqad.py"), str(tmp_path)], capture_output=True, text=True, check=False
    )
    assert (done.returncode, done.stderr) == (0, "")
    assert time.perf_counter() - begun < 60
    assert "or_gate: 22 dots, 1 fixed charge" in done.stdout and "the gate works" in done.stdout
    assert "84 points, 0 without an answer" in done.stdout
    for name in ("gate", "patterns", "ground", "domain", "regions", "levels", "shares"):
        assert (tmp_path / f"{name}.svg").stat().st_size < 60_000
    # one entry at least at each of the 84 points, and the head
    assert len((tmp_path / "sweep.csv").read_text().splitlines()) >= 85


def test_pictures_of_the_documents_are_those_of_the_example() -> None:
    kept = sorted((TOP / "docs" / "pictures" / "python").iterdir())
    scripts = "".join((EXAMPLES / name).read_text() for name in ("from_siqad.py", "gate_page.py"))
    own = [path for path in kept if path.name in scripts]
    assert {path.stem for path in own} == {"gate", "patterns", "ground", "domain", "regions", "levels", "shares"}
    studies = [path.stem.removeprefix("or_gate_") for path in kept if path not in own]
    assert all(f'"{study}"' in scripts for study in studies)
    assert all(path.stat().st_size < 60_000 for path in kept)


def test_or_gate_as_a_file_of_siqad_is_the_example() -> None:
    layout, own = sidb.read_sqd(EXAMPLES / "or_gate.sqd"), sidb.read_sites(EXAMPLES / "or_gate.sites")
    assert (layout.sites, layout.fixed, layout.lattice, layout.left_out) == (own.sites, own.fixed, own.lattice, ())
    # the program's own reader takes the dots alone, and so answers to another layout
    alone = sidb.find_program().run(("--form", "sqd"), (EXAMPLES / "or_gate.sqd").read_bytes()).text
    assert "fix" not in alone and "skipped 1\n" in alone
