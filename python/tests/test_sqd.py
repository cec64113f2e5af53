"""Files of SiQAD: what is taken, what is refused, and that a plain file has the program's own answer."""

from __future__ import annotations

import time
from pathlib import Path

import pytest
import sidb
from conftest import EXAMPLES

PLACE = '<latcoord n="{}" m="{}" l="{}"/>'
SILICON = '<lat_vec><a1 x="3.84" y="0"/><a2 x="0" y="7.68"/><N>2</N><b1 x="0" y="0"/><b2 x="0" y="2.25"/></lat_vec>'


def dot(n: int, m: int, l: int = 0, more: str = "") -> str:  # noqa: E741
    """A dot."""
    return f"<dbdot><layer_id>2</layer_id>{PLACE.format(n, m, l)}{more}</dbdot>"


def file(inside: str = "", vectors: str = "", front: str = "") -> str:
    """A file with these items in its design."""
    layers = f"<layers><layer_prop><name>Lattice</name>{vectors}</layer_prop></layers>"
    return f'<siqad>{front}{layers}<design><layer type="DB">{inside}</layer></design></siqad>'


def read(text: str | bytes, *leave_out: str) -> sidb.Layout:
    """The layout of a text."""
    return sidb.Layout.from_sqd_text(text, "file", leave_out)


@pytest.mark.parametrize("name", ["wire", "y_gate", "y_tie"])
def test_plain_file_has_the_programs_own_answer(name: str) -> None:
    path = EXAMPLES / f"{name}.sqd"
    layout = sidb.read_sqd(path)
    assert layout.left_out == () and layout.parameters == sidb.Parameters()
    own = sidb.find_program().run(("--form", "sqd", "--energies"), path.read_bytes())
    assert layout.ground().run.text == own.text == (EXAMPLES / "answers" / name).read_text()


def test_lattice_is_taken() -> None:
    vectors = SILICON.replace("3.84", "4").replace('b2 x="0" y="2.25"', 'b2 x="0.5" y="2.5"')
    layout = read(file(dot(0, 0) + dot(1, 0, 1), vectors))
    assert layout.lattice == (400, 0, 0, 768, 50, 250)
    assert layout.ground().run.program.form == "sidb-ground 2"


def test_lattice_with_one_atom() -> None:
    vectors = '<lat_vec><a1 x="4" y="0"/><a2 x="0" y="4"/><N>1</N></lat_vec>'
    assert read(file(dot(1, 2), vectors)).lattice == (400, 0, 0, 400, 0, 0)
    with pytest.raises(sidb.FileFault, match="1 atoms"):
        read(file(dot(1, 2, 1), vectors))


def test_charged_defects_are_fixed_charges() -> None:
    defect = f"<defect><incl_coords>{PLACE.format(8, 0, 0)}</incl_coords><coulomb charge='-1' eps_r='5.6' lambda_tf='5'/></defect>"
    layout = read(file(dot(0, 0) + dot(1, 0) + defect))
    assert layout.fixed == ((8, 0, 0, -1),) and layout.left_out == ()
    # a fixed electron on the right pushes the pair's electron to the left; alone it may be on either side
    assert [e.charges for e in layout.ground().entries] == ["-0"]
    assert [e.charges for e in read(file(dot(0, 0) + dot(1, 0))).ground().entries] == ["-0", "0-"]


def test_neutral_defects_are_named() -> None:
    layout = read(file(dot(0, 0) + f"<defect><incl_coords>{PLACE.format(8, 0, 0)}</incl_coords></defect>"))
    assert layout.fixed == () and layout.left_out == ("The neutral defect at (8, 0, 0) counts for nothing.",)


def test_defect_with_screening_of_its_own() -> None:
    text = file(dot(0, 0) + f"<defect>{PLACE.format(8, 0, 0)}<coulomb charge='1' eps_r='9.7' lambda_tf='2.1'/></defect>")
    with pytest.raises(sidb.FileFault, match="eps_r='9.7' of its own"):
        read(text)
    layout = read(text, "screening")
    assert layout.fixed == ((8, 0, 0, 1),) and len(layout.left_out) == 2


def test_defects_that_are_no_point_charge() -> None:
    two = PLACE.format(8, 0, 0) + PLACE.format(9, 0, 0)
    with pytest.raises(sidb.FileFault, match="2 places"):
        read(file(f"<defect>{two}<coulomb charge='1'/></defect>"))
    with pytest.raises(sidb.FileFault, match="whole number"):
        read(file(f"<defect>{PLACE.format(8, 0, 0)}<coulomb charge='0.5'/></defect>"))


def test_parameters_are_taken() -> None:
    front = "<sim_params><muzm>-0.25</muzm><eps_r>6.0</eps_r><debye_length>4.5</debye_length><num_instances>3</num_instances></sim_params>"
    layout = read(file(dot(0, 0), front=front))
    assert layout.parameters.words() == ("--eps", "6", "--lambda", "4.5", "--depth", "0.25")
    assert layout.ground().run.words[-6:] == layout.parameters.words()
    assert layout.left_out == ("The setting 'num_instances' of a simulation counts for nothing.",)


def test_parameters_that_cannot_be_taken() -> None:
    with pytest.raises(sidb.FileFault, match="above 0 V"):
        read(file(front="<sim_params><muzm>0.25</muzm></sim_params>"))
    with pytest.raises(sidb.FileFault, match="different eps_r"):
        read(file(front="<sim_params><eps_r>5</eps_r></sim_params><sim_params><eps_r>6</eps_r></sim_params>"))
    with pytest.raises(sidb.FileFault, match="has to be a number"):
        read(file(front="<sim_params><eps_r>many</eps_r></sim_params>"))


def test_electrodes_are_refused() -> None:
    text = file(dot(0, 0) + "<electrode><potential>1</potential></electrode>")
    with pytest.raises(sidb.FileFault, match="1 electrodes"):
        read(text)
    assert read(text, "electrodes").left_out == ("1 electrodes are left out.",)


def test_what_is_no_dot_is_named() -> None:
    layout = read(file(dot(0, 0) + "<textlabel/><textlabel/><aggregate>" + dot(1, 0) + "</aggregate>"))
    assert layout.sites == ((0, 0, 0), (1, 0, 0))
    assert layout.left_out == ("2 items 'textlabel' count for nothing.",)


def test_dot_that_is_drawn_elsewhere() -> None:
    assert read(file(dot(2, 1, 1, '<physloc x="7.68" y="9.93"/>'))).sites == ((2, 1, 1),)
    text = file(dot(2, 1, 1, '<physloc x="7.68" y="7.68"/>'))
    with pytest.raises(sidb.FileFault, match="drawn at y = 7.68 Å"):
        read(text)
    assert read(text, "physloc").sites == ((2, 1, 1),)


@pytest.mark.parametrize(
    "vectors",
    [
        SILICON.replace("3.84", "3.841"), SILICON.replace("3.84", "x"), SILICON.replace('<a1 x="3.84" y="0"/>', ""),
        SILICON.replace("<N>2</N>", "<N>3</N>"), SILICON.replace("<N>2</N>", ""), SILICON + SILICON.replace("3.84", "4"),
        SILICON.replace("3.84", "9" * 400),
    ],
)  # fmt: skip
def test_lattices_that_are_none(vectors: str) -> None:
    with pytest.raises(sidb.FileFault):
        read(file(dot(0, 0), vectors))


@pytest.mark.parametrize(
    "inside",
    ["<dbdot/>", dot(0, 0, more=PLACE.format(1, 0, 0)), dot(0, 0, more=dot(1, 0)), '<dbdot><latcoord n="0" m="0"/></dbdot>',
     '<dbdot><latcoord n="+1" m="0" l="0"/></dbdot>', '<dbdot><latcoord n="1.5" m="0" l="0"/></dbdot>', dot(0, 0, 2),
     '<dbdot><latcoord n="1234567890" m="0" l="0"/></dbdot>', '<dbdot><latcoord n="٣" m="0" l="0"/></dbdot>'],
)  # fmt: skip
def test_dots_that_are_none(inside: str) -> None:
    with pytest.raises(sidb.FileFault, match="file"):
        read(file(inside))


LAUGHS = "".join(f'<!ENTITY a{i} "{f"&a{i - 1};" * 10}">' for i in range(1, 30))


@pytest.mark.parametrize(
    ("text", "words"),
    [
        (f'<!DOCTYPE siqad [<!ENTITY a0 "ha">{LAUGHS}]><siqad>&a29;</siqad>', "entities"),
        (f'<!DOCTYPE siqad [<!ENTITY a0 "ha">{LAUGHS}]><siqad>&a29;</siqad>'.encode("utf-16"), "entities"),
        ('<!DOCTYPE siqad SYSTEM "file:///etc/passwd"><siqad/>', "entities"),
        ('<!DOCTYPE siqad [<!ENTITY x SYSTEM "file:///etc/passwd">]><siqad>&x;</siqad>', "entities"),
        ("<siqad>" + " " * 2 * 1024 * 1024 + "</siqad>", "more than 1048576 bytes"),
        ("<siqad>" + "<a>" * 300_000, "nested"), ("<svg/>", "root element"), ("", "no XML"), ("<siqad>", "no XML"),
        ("<siqad>&laugh;</siqad>", "no XML"), (b"\xff\xfe\x00", "no XML"), (b"\x00" * 100, "no XML"),
        ("<?xml version='1.0' encoding='klingon'?><siqad/>", "no XML"), ("<siqad a='1' a='2'/>", "no XML"),
    ],
)  # fmt: skip
def test_hostile_texts(text: str | bytes, words: str) -> None:
    begun = time.perf_counter()
    with pytest.raises(sidb.FileFault, match=words):
        read(text)
    assert time.perf_counter() - begun < 2


def test_files_that_cannot_be_read(tmp_path: Path) -> None:
    for name in ("none.sqd", "."):
        with pytest.raises(sidb.FileFault, match="cannot be read"):
            sidb.read_sqd(tmp_path / name)
    (tmp_path / "large.sqd").write_bytes(b" " * (2 * 1024 * 1024))
    with pytest.raises(sidb.FileFault, match="more than 1048576 bytes"):
        sidb.read_sqd(tmp_path / "large.sqd")
    (tmp_path / "binary.sites").write_bytes(b"\xff\xfe0 0 0")
    with pytest.raises(sidb.FileFault, match="not UTF-8"):
        sidb.read_sites(tmp_path / "binary.sites")


def test_broken_example() -> None:
    with pytest.raises(sidb.FileFault, match="broken is no XML text"):
        sidb.read_sqd(EXAMPLES / "broken.sqd")


def test_what_cannot_be_left_out() -> None:
    with pytest.raises(sidb.FileFault, match="can be left out"):
        read(file(), "dots")
