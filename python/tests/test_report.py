"""The page of a gate: what it says is what the program answers, and a hostile name is text."""

from __future__ import annotations

import base64
import hashlib
import os
import subprocess
from dataclasses import dataclass, field
from decimal import Decimal
from html.parser import HTMLParser
from pathlib import Path
from xml.etree import ElementTree

import pytest
import sidb
from conftest import EXAMPLES, sites
from sidb import markup, studies

pytest.importorskip("matplotlib")

from sidb.report import Gap, report  # noqa: E402
from sidb.report_page import MOST_ENTRIES  # noqa: E402

#: Elements that a page may have.
KNOWN = set(
    "html head meta title style body div h1 h2 h3 p span ul li table thead tbody tr th td figure figcaption img pre code".split()
)
HOSTILE = "<script>alert(1)</script>\"'&$\\frac{1}{2}$</title><img src=x onerror=alert(1)>\u202e\x07"


@dataclass
class Page(HTMLParser):
    """Reads a page without a browser: its elements, and the text of those that have a name."""

    text: str
    elements: list[tuple[str, dict[str, str]]] = field(default_factory=list)
    open: list[tuple[str, str]] = field(default_factory=list)
    named: dict[str, str] = field(default_factory=dict)
    tables: dict[str, list[list[str]]] = field(default_factory=dict)

    def __post_init__(self) -> None:
        super().__init__(convert_charrefs=True)
        self.feed(self.text)
        self.close()

    def handle_starttag(self, tag: str, attrs: list[tuple[str, str | None]]) -> None:
        given = {key: value or "" for key, value in attrs}
        self.elements.append((tag, given))
        if tag in ("meta", "img"):
            return
        self.open.append((tag, given.get("id", "")))
        if tag == "tr":
            self._table().append([])
        if tag in ("td", "th"):
            self._table()[-1].append("")

    def handle_endtag(self, tag: str) -> None:
        assert self.open.pop()[0] == tag

    def handle_data(self, data: str) -> None:
        for _, name in self.open:
            if name:
                self.named[name] = self.named.get(name, "") + data
        if any(tag in ("td", "th") for tag, _ in self.open):
            self._table()[-1][-1] += data

    def _table(self) -> list[list[str]]:
        names = [name for tag, name in self.open if tag == "table"]
        return self.tables.setdefault(names[-1], [])


@pytest.fixture(scope="module")
def inverter_page() -> Page:
    """The page of the inverter with two studies."""
    gate = sidb.Gate.parse(sites("inverter"), "0:3", "1:2", "not")
    ran = [studies.displacements(gate), studies.defects(gate, region=[(1, 0, 0), (-1, 0, 0)])]
    return Page(report(gate, domain=sidb.Grid.of(("5.6", "0.4", 2), (5, 1, 2)), window="0.1", studies=ran).html())


def test_truth_table_of_the_page_is_the_programs(or_gate: sidb.Gate) -> None:
    """Entry by entry, read out of the page by a parser, and out of the program's text by its lines."""
    for depth in ("0.32", "0.344843633289"):
        parameters = sidb.Parameters(depth=depth)  # type: ignore[arg-type]
        page = Page(report(or_gate, parameters=parameters, domain=sidb.Grid.of((6, 1, 1), ("4.5", 1, 1))).html())
        text = or_gate.truth(parameters=parameters).run.text
        assert page.tables["truth"][1:] == expected_rows(text)
        assert page.named["verdict"].startswith(text.split("\nverdict ")[1].split(" ")[0].split("\n")[0])


def expected_rows(text: str) -> list[list[str]]:
    """The rows of a truth text of a gate with two inputs, and with its output in the last two sites."""
    rows: list[list[str]] = []
    for line in text.split("\n"):
        words = line.split(" ")
        if words[0] == "pattern":
            front, entry = [f"{int(words[1]):02b}", words[3], words[4]], 0
        elif line[:1] in ("-", "0"):
            read = {"-0": "0", "0-": "1"}.get(words[0][-2:], "no bit")
            rows.append([front[0], front[1], read, front[2], str(entry), words[0], mark_in_words(words[1:])])
            entry += 1
    return rows


def mark_in_words(words: list[str]) -> str:
    """What the page says of a mark."""
    if words == ["certain"]:
        return "certain: a ground state whatever the potentials in their spans are"
    kind, *named, least, greatest = words[1:]
    between = "between {:.12f} and {:.12f}".format(*(Decimal(end).scaleb(-12) for end in (least, greatest)))
    if kind == "population":
        return f"unresolved: the test {named[1]} of site {named[0]} may fail (slack {between} V)"
    if kind == "hop":
        hop = f"an electron from site {named[0]} to site {named[1]}"
        return f"unresolved: the hop of {hop} may lower the energy (change {between} eV)"
    return f"unresolved: entry {named[0]} may lie lower (difference {between} eV)"


def test_a_page_has_no_script_and_loads_nothing(inverter_page: Page) -> None:
    assert {tag for tag, _ in inverter_page.elements} <= KNOWN
    for _, attributes in inverter_page.elements:
        assert not any(name.startswith("on") for name in attributes)
        assert attributes.get("src", "data:image/svg+xml;base64,").startswith("data:image/svg+xml;base64,")
        assert "href" not in attributes
    assert "url(" not in inverter_page.text and "@import" not in inverter_page.text
    policies = [a["content"] for _, a in inverter_page.elements if a.get("http-equiv") == "Content-Security-Policy"]
    assert policies == ["default-src 'none'; img-src data:; style-src 'unsafe-inline'"]


def test_each_picture_has_its_words(inverter_page: Page) -> None:
    pictures = [attributes for tag, attributes in inverter_page.elements if tag == "img"]
    assert len(pictures) == 1 + 2 + 2 + 2  # layout, patterns, domain and shares, studies
    assert all(len(picture["alt"]) > 20 for picture in pictures)


def test_what_the_page_says_of_the_inverter(inverter_page: Page) -> None:
    """By hand: both patterns have the one list -0-, no other is valid, so nothing else is in the window."""
    assert [row[:6] for row in inverter_page.tables["truth"][1:]] == [
        ["0", "1", "1", "works", "0", "-0-"], ["1", "0", "0", "works", "0", "-0-"],
    ]  # fmt: skip
    beyond = "100.000 meV (none in the window)"
    assert inverter_page.tables["gaps"][1:] == [["0", beyond, "", beyond], ["1", beyond, "", beyond]]
    for row in inverter_page.tables["shares"][1:]:
        assert set(row[1:-1]) == {"1.0000 – 1.0000"} and row[-1] == "0.9 holds at each kT up to 50 meV (580 K)"
    # the level goes from -0.42 to -0.22 V, and the inverter works from -0.3575 V on
    levels = inverter_page.tables["levels"][1:]
    assert [row[2] for row in levels] == ["fails under 0", "works"]
    assert levels[0][0] == "-0.420000000000" and levels[1][0].startswith("-0.35753") and levels[1][1] == "-0.220000000000"
    assert "Of 4: 4 works" in inverter_page.named["domain"]
    assert inverter_page.named["faults"] == "None."
    parameters = {row[0]: row[1:] for row in inverter_page.tables["parameters"][1:]}
    assert parameters["mu_minus"] == ["-0.32", "V"] and parameters["mu_plus"] == ["-0.91", "V"]
    assert parameters["screening length"] == ["5", "nm"]


def test_the_commands_of_the_page_make_and_check_the_certificates(inverter_page: Page, tmp_path: Path) -> None:
    program = sidb.find_program()
    os.symlink(program.path, tmp_path / "sidb")
    (tmp_path / "layout.sites").write_text(inverter_page.named["sites"])
    rows = inverter_page.tables["certificates"][1:]
    commands = inverter_page.named["commands"].split("\n")
    assert len(rows) == len(commands) == 2
    for row, command in zip(rows, commands):
        path = f"{tmp_path}:{os.environ['PATH']}"
        done = subprocess.run(["bash", "-c", command], cwd=tmp_path, env={"PATH": path}, capture_output=True, text=True)
        first, *rest = done.stdout.split("\n")
        assert done.returncode == 0 and first == f"{row[2]}  {row[0]}.certificate"
        assert hashlib.sha256((tmp_path / f"{row[0]}.certificate").read_bytes()).hexdigest() == row[2]
        assert "-0- certain" in rest and rest[0].startswith("sidb-ground")
    assert program.sha256() in inverter_page.named["program"]


def test_hostile_names_show_as_text(tmp_path: Path) -> None:
    path = tmp_path / "hostile.sites"
    path.write_text((EXAMPLES / "inverter.sites").read_text())
    layout = sidb.read_sites(path).renamed(HOSTILE)
    gate = sidb.Gate.parse(layout, "0:3", "1:2", "not")
    ran = [studies.displacements(gate, sites=[0]), studies.defects(gate, region=[(1, 0, 0)])]
    made = report(gate, tmp_path / "page.html", domain=sidb.Grid.of((6, 1, 1), (5, 1, 1)), window="0.1", studies=ran)
    page = Page((tmp_path / "page.html").read_text(encoding="utf-8"))
    assert made.title == HOSTILE
    assert {tag for tag, _ in page.elements} <= KNOWN
    assert not any(name.startswith("on") for _, attributes in page.elements for name in attributes)
    shown = HOSTILE.replace("\u202e", "\ufffd").replace("\x07", "\ufffd")
    headings = [text for text in page.text.split("<h1>")[1:]]
    assert len(headings) == 1 and "<script" not in page.text
    assert markup.shown(HOSTILE) == shown
    sources = [attributes["src"] for tag, attributes in page.elements if tag == "img"]
    for source in sources:
        ElementTree.fromstring(base64.b64decode(source.partition(",")[2]))
    assert Page("<h1 id='h'>" + headings[0].split("</h1>")[0] + "</h1>").named["h"] == shown


def test_what_a_file_of_siqad_left_out_shows_as_text() -> None:
    from dataclasses import replace

    layout = replace(sites("inverter"), left_out=("<b>an electrode</b> is left out.",))
    page = Page(report(sidb.Gate.parse(layout, "0:3", "1:2", "not"), window="0.1", domain=sidb.Grid.of((6, 1, 1), (5, 1, 1))).html())
    assert "b" not in {tag for tag, _ in page.elements}
    assert "&lt;b&gt;an electrode&lt;/b&gt; is left out." in page.text


def test_a_fault_is_met_in_words_and_leaves_the_page_standing(inverter: sidb.Gate) -> None:
    made = report(inverter, limit=1, window="0.1", domain=sidb.Grid.of((6, 1, 1), (5, 1, 1)))
    page = Page(made.html())
    assert made.truth is None and "limit" in made.faults[0]
    assert page.named["verdict"].startswith("No answer: ")
    assert [row[3] for row in page.tables["truth"][1:]] == ["no answer"] * 2
    assert "limit" in page.named["faults"]
    assert "more nodes than the limit" in page.named["domain"]


def test_more_entries_than_the_page_tells_are_counted() -> None:
    """Six far pairs of neighbours beside the gate of two: each has two lists, so 2^6 and more entries a pattern."""
    extra = [(400 * k + c, 100, 0) for k in range(5) for c in (0, 1)]
    layout = sites("far_pairs")
    layout = layout.with_sites([*layout.sites, *extra])
    gate = sidb.Gate(layout, (((2000, 0, 0), (2001, 0, 0)),), (((0, 0, 0), (1, 0, 0)),), "buf")  # type: ignore[arg-type]
    page = Page(report(gate, window="0", domain=sidb.Grid.of((6, 1, 1), (5, 1, 1))).html())
    rows = [row for row in page.tables["truth"][1:] if row[0] == "0"]
    assert len(rows) == MOST_ENTRIES + 1
    assert rows[-1][6] == f"and {2**6 - MOST_ENTRIES} more entries"


def test_gap_is_above_the_ground_and_rounded_down() -> None:
    """Stored answer: under 01 the next list of the OR gate of 18 dots lies 8.84 meV higher."""
    layout = sites("or_gate_01")
    ground, window = layout.ground(), layout.window("0.2")

    class Reading:
        pattern = 1

        def is_right(self, charges: str) -> bool:
            return charges.endswith("0-")

        def bits(self, charges: str) -> tuple[int | None, ...]:
            return (1 if self.is_right(charges) else 0,)

    gap = Gap.of(Reading(), ground.entries, window)  # type: ignore[arg-type]
    assert gap.next is not None and 8_840_000_000 <= gap.next < 8_850_000_000
    assert gap.next_bits == (0,) and gap.wrong == gap.next


def test_the_same_page_each_time(inverter: sidb.Gate) -> None:
    once, again = (report(inverter, window="0.1", domain=sidb.Grid.of((6, 1, 1), (5, 1, 1))).html() for _ in range(2))
    assert once == again


def test_the_command_line_writes_a_page(tmp_path: Path) -> None:
    words = ["report", str(EXAMPLES / "inverter.sites"), "--input", "0:3", "--output", "1:2", "--function", "not"]
    words += ["--to", str(tmp_path / "page.html"), "--window", "0.1", "--grid", "5.6:1:1,5:1:1", "--displacements", "1"]
    from sidb.__main__ import main

    assert main(words) == 0
    page = Page((tmp_path / "page.html").read_text(encoding="utf-8"))
    assert page.named["verdict"].startswith("works")
    assert "inverter" in page.text
