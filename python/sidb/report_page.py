"""The page of a report, as HTML: two sides of paper, without a script and without the network."""

from __future__ import annotations

import shlex
from collections.abc import Iterable, Iterator
from dataclasses import replace
from decimal import ROUND_CEILING, ROUND_FLOOR, Decimal
from typing import Any

from matplotlib.figure import Figure

from . import pictures
from .answers import DomainAnswer, Entry, Pattern, RegionAnswer, ev_of
from .heat import kelvin
from .level_studies import Levels
from .markup import Markup, element, joined, page, picture, shown, table
from .report import Certified, Gap, Report
from .trials import IN_WORDS, Study

#: So many entries of a pattern are told; of more there is a count.
MOST_ENTRIES = 12

#: A part of the levels that is narrower, in 10^-12 V, is counted and not told.
NARROW = 1_000_000

_STYLE = """
@page { size: A4; margin: 11mm }
* { box-sizing: border-box }
body { font: 8.2pt/1.25 "DejaVu Sans", Verdana, sans-serif; color: #111; background: #fff; margin: 0 auto; max-width: 188mm }
h1 { font-size: 15pt; margin: 0 0 1mm; overflow-wrap: anywhere } h2 { font-size: 9.5pt; margin: 1.5mm 0 0.8mm; border-bottom: 0.3mm solid #888 }
h3 { font-size: 8.6pt; margin: 1.5mm 0 0.5mm } p, ul { margin: 0 0 1mm } ul { padding-left: 4mm }
table { border-collapse: collapse; width: 100%; margin: 0 0 1mm } th, td { border: 0.2mm solid #999; padding: 0.3mm 1mm; text-align: left; vertical-align: top }
th { background: #eee } td { overflow-wrap: anywhere } code, pre, .charges { font-family: "DejaVu Sans Mono", monospace; font-size: 7pt }
pre { margin: 0 0 1mm; white-space: pre-wrap; overflow-wrap: anywhere } img { display: block; max-width: 100%; max-height: 53mm }
figure { margin: 0; break-inside: avoid } figcaption, .small { font-size: 7pt; line-height: 1.25; overflow-wrap: anywhere }
.two, .three { display: grid; grid-template-columns: 1fr 1fr; gap: 0.5mm 4mm; align-items: start }
.three { grid-template-columns: 1fr 1fr 1fr; gap: 0.5mm 3mm } .second table { font-size: 6.8pt } .second img { max-height: 42mm }
#levels td { font-size: 6.4pt; white-space: nowrap }
.verdict { font-size: 10.5pt; font-weight: bold; border: 0.5mm solid #111; padding: 1mm 2mm; margin: 1mm 0 }
.sites { columns: 7; column-gap: 3mm; font-size: 6.4pt; line-height: 1.15 } #commands { font-size: 6.2pt; line-height: 1.2 }
.side + .side { break-before: page }
@media screen { .side { padding: 4mm 0 } }
"""

_VERDICT_WORDS = {
    "works": "Under every choice of the potentials in their spans each pattern has a ground state, and each ground state reads "
    "the wanted bits.",
    "fails": "Under every choice of the potentials in their spans some ground state does not read the wanted bits.",
    "undecided": "At this accuracy neither can be said, or no charge list is valid.",
}

_LEGEND = "A dark dot with − is negative, a white one neutral, one with + positive; a diamond is a fixed charge. Lengths in Å."


def page_of(report: Report) -> str:
    """The whole page."""
    first = element("div", *_first_side(report), class_="side")
    second = element("div", *_second_side(report), class_="side second")
    return page(report.title, _STYLE, first, second)


def _first_side(report: Report) -> Iterator[Markup]:
    gate = report.gate
    yield element("h1", report.title)
    yield element("p", f"{len(gate.layout.sites)} dots, {len(gate.layout.fixed)} fixed charges; the function {gate.function}.")
    yield element("p", *_verdict(report), class_="verdict", id="verdict")
    layout = element("figure", _layout_picture(report), element("figcaption", _pairs_in_words(report)))
    yield element("div", layout, _parameters(report), class_="two")
    yield element("h2", "Truth table")
    yield _truth_table(report)
    if report.truth is not None:
        figures = (_pattern_figure(report, pattern) for pattern in report.truth.patterns)
        yield element("p", _LEGEND, class_="small")
        yield element("div", *figures, class_="two")


def _verdict(report: Report) -> list[object]:
    if report.truth is None:
        return ["No answer: ", report.faults[0] if report.faults else ""]
    verdict, pattern = report.truth.verdict, report.truth.pattern
    at = "" if pattern is None else f" under the inputs {report.gate.bits_of(pattern)}"
    return [f"{verdict}{at}. ", element("span", _VERDICT_WORDS[verdict], class_="small")]


def _layout_svg(report: Report, subject: Any, width: float) -> str:
    """A picture of the gate, or of what a pattern leaves of it, in so many inches; all in one frame, without a title,
    which stands in the page."""
    left, right, top, bottom = pictures.scene_of(report.gate, 0, "", {}).frame()
    figure = Figure(figsize=(width, min(max(width * (bottom - top) / (right - left), 0.6), 4) + 0.3))
    ax = figure.subplots()
    pictures.draw(subject, ax=ax, title="", legend=False, frame=(left, right, top, bottom))
    return pictures.svg_text(figure)


def _layout_picture(report: Report) -> Markup:
    return picture(_layout_svg(report, report.gate, 3.6), f"The layout of {report.title}: its dots, inputs, outputs and fixed charges")


def _pairs_in_words(report: Report) -> str:
    sites = report.gate.layout.sites
    pairs = [("input", pair) for pair in report.gate.inputs] + [("output", pair) for pair in report.gate.outputs]
    said = (
        f"{kind}: dot {zero} at {_place(sites[zero])} for 0, dot {one} at {_place(sites[one])} for 1"
        for kind, (zero, one) in pairs
        if max(zero, one) < len(sites)
    )
    return "; ".join(said) + "."


def _place(place: Iterable[int]) -> str:
    return "(" + ", ".join(map(str, place)) + ")"


def _parameters(report: Report) -> Markup:
    p = report.parameters
    rows = [
        ("relative permittivity", f"{p.eps:f}", "1"),
        ("screening length", f"{p.lam:f}", "nm"),
        ("mu_minus", f"{-p.depth:f}", "V"),
        ("mu_plus", f"{-p.depth - p.gap:f}", "V"),
        ("Coulomb number", f"{p.coulomb:f}", "V·Å"),
        ("charges of a dot", "−, 0, +" if p.base == 3 else "−, 0", f"base {p.base}"),
        ("lattice", ", ".join(map(str, report.gate.layout.lattice)), "10^-2 Å"),
    ]
    left_out = [element("li", said) for said in report.gate.layout.left_out]
    return element(
        "div",
        table(("parameter", "value", "unit"), rows, id="parameters"),
        element("h3", "Left out of the file") if left_out else None,
        element("ul", *left_out) if left_out else None,
        element("h3", "Faults met"),
        element("ul", *(element("li", fault) for fault in report.faults or ("None.",)), id="faults"),
    )


def _truth_table(report: Report) -> Markup:
    head = ("inputs", "wants", "reads", "verdict", "entry", "charges", "mark")
    rows = [row for pattern in range(report.gate.patterns) for row in _truth_rows(report, pattern)]
    return table(head, rows, id="truth")


def _truth_rows(report: Report, number: int) -> Iterator[tuple[object, ...]]:
    bits, wants = report.gate.bits_of(number), report.gate.value(number)
    if report.truth is None:
        yield bits, wants, "", "no answer", "", "", ""
        return
    pattern = report.truth.patterns[number]
    front = (bits, pattern.wants)
    for entry, found in enumerate(pattern.entries[:MOST_ENTRIES]):
        read = _bits(report.truth.bits_read(number, entry))
        yield *front, read, pattern.verdict, entry, _charges(found), found.mark.in_words()
    if not pattern.entries:
        yield *front, "", pattern.verdict, "", "", "no charge list is valid"
    elif len(pattern.entries) > MOST_ENTRIES:
        yield *front, "", pattern.verdict, "", "", f"and {len(pattern.entries) - MOST_ENTRIES} more entries"


def _charges(entry: Entry) -> Markup:
    return element("span", entry.charges, class_="charges")


def _bits(bits: Iterable[int | None]) -> str:
    return " ".join("no bit" if bit is None else str(bit) for bit in bits)


def _pattern_figure(report: Report, pattern: Pattern) -> Markup:
    bits = report.gate.bits_of(pattern.number)
    said = f"Inputs {bits}: {pattern.verdict}"
    charges = pattern.entries[0].charges if pattern.entries else "no list is valid"
    drawn = picture(_layout_svg(report, pattern, 3.6), f"{said}; charges by site: {charges}")
    more = f" (entry 0 of {len(pattern.entries)})" if len(pattern.entries) > 1 else ""
    return element("figure", drawn, element("figcaption", said + more))


def _second_side(report: Report) -> Iterator[Markup]:
    yield element("div", *_domain(report), *_warm_figure(report), element("div", *_levels(report)), class_="three")
    yield element("div", *_warm_table(report), element("div", *_gaps(report)), class_="two")
    if report.studies:
        yield element("h2", "Studies that were run")
        yield element("div", *(_study(study) for study in report.studies), class_="three")
    yield from _checks(report)


def _domain(report: Report) -> Iterator[Markup]:
    if report.domain is None:
        return
    drawn, verdicts, said = _map_of(report.domain)
    counts = ", ".join(f"{verdicts.count(verdict)} {IN_WORDS[verdict]}" for verdict in IN_WORDS if verdict in verdicts)
    told = f"Of {len(verdicts)}: {counts}. {said}"
    figure = element("figure", picture(pictures.svg_text(drawn), told), element("figcaption", told, id="domain"))
    yield element("div", element("h2", "Domain"), figure)


def _map_of(domain: DomainAnswer | RegionAnswer) -> tuple[Any, list[str], str]:
    """The map of a domain or of regions, its verdicts, and what they say. A sign in a name that cannot be printed would
    break the picture."""
    layout = domain.gate.layout
    domain = replace(domain, gate=replace(domain.gate, layout=layout.renamed(shown(layout.name))))
    if isinstance(domain, RegionAnswer):
        return pictures.plot_regions(domain), [tile.verdict for tile in domain.tiles], "A tile holds at each of its points."
    said = "Each cell is a point of the grid; nothing is said of what lies between two."
    return pictures.plot_domain(domain), [cell.verdict for cell in domain.cells], said


def _warm_figure(report: Report) -> Iterator[Markup]:
    if report.warm is not None:
        drawn = picture(pictures.svg_text(report.warm.draw(width=3.6)), " ".join(report.warm.sentences()))
        yield element("div", element("h2", "Shares at a temperature"), element("figure", drawn))


def _warm_table(report: Report) -> Iterator[Markup]:
    warm = report.warm
    if warm is None:
        return
    known = sorted({share.kt for pattern in warm.patterns for share in pattern.shares})
    kts = known[:: max(-(-len(known) // 3), 1)]
    rows = [
        (
            warm.gate.bits_of(p.pattern),
            *(_share(share.least, share.greatest) for share in p.shares if share.kt in kts),
            p.fault or f"{warm.at_least} {p.holds.in_words()}",
        )
        for p in warm.patterns
    ]
    head = ("inputs", *(f"{(kt * 1000).normalize():f} meV, {kelvin(kt)}" for kt in kts), "a share of")
    said = element("p", " ".join(warm.limits()), class_="small")
    yield element("div", element("h2", "Share of right readings"), table(head, rows, id="shares"), said)


def _share(least: int, greatest: int) -> str:
    """A share as parts of 1, rounded outward to 4 places."""
    place = Decimal("0.0001")
    low = Decimal(least).scaleb(-9).quantize(place, ROUND_FLOOR)
    high = Decimal(greatest).scaleb(-9).quantize(place, ROUND_CEILING)
    return f"{low} – {high}"


def _levels(report: Report) -> Iterator[Markup]:
    yield element("h2", "Levels")
    if report.levels is None:
        return
    (point,) = report.levels.points
    wide = [part for part in point.parts if part.size >= NARROW]
    narrow = len(point.parts) - len(wide)
    rows = [(f"{ev_of(part.first):f}", f"{ev_of(part.last):f}", _level_verdict(report, part)) for part in wide]
    yield table(("mu_minus from (V)", "to (V)", "the gate"), rows, id="levels")
    more = f" {narrow} parts narrower than a microvolt are not told." if narrow else ""
    yield element("p", "At each level of a part, by proof; mu_plus lies as far below as above." + more, class_="small")


def _level_verdict(report: Report, part: Levels) -> str:
    at = "" if part.pattern is None else f" under {report.gate.bits_of(part.pattern)}"
    return part.what + at


def _gaps(report: Report) -> Iterator[Markup]:
    yield element("h2", "Gap")
    rows = [(report.gate.bits_of(gap.pattern), *_gap(gap)) for gap in report.gaps]
    yield table(("inputs", "next list, at least", "it reads", "next wrong list, at least"), rows, id="gaps")
    yield element("p", "Above the ground list, for each charge list that may be valid.", class_="small")


def _gap(gap: Gap) -> tuple[str, str, str]:
    if gap.fault:
        return gap.fault, "", ""
    beyond = f"{_mev(gap.window)} (none in the window)"
    reads = "" if gap.next is None else _bits(gap.next_bits)
    return (beyond if gap.next is None else _mev(gap.next), reads, beyond if gap.wrong is None else _mev(gap.wrong))


def _mev(energy: int) -> str:
    """An energy (10^-12 eV) in meV, rounded down."""
    return f"{(Decimal(energy).scaleb(-9)).quantize(Decimal('0.001'), ROUND_FLOOR)} meV"


def _study(study: Study) -> Markup:
    said = " ".join(study.sentences())
    drawn = picture(pictures.svg_text(study.draw(width=3.6)), said)
    return element("figure", element("h3", study.title), drawn, element("figcaption", said), class_="study")


def _checks(report: Report) -> Iterator[Markup]:
    yield element("h2", "How to check this page")
    if report.program is not None:
        said = (f"Answers by {report.program.path} ({report.program.form}), SHA-256 ", element("code", report.program.sha256))
        yield element("p", *said, id="program", class_="small")
    rows = [(report.gate.bits_of(c.pattern), c.tokens or c.fault, element("code", c.sha256)) for c in report.certificates]
    yield table(("inputs", "tokens", "SHA-256 of the certificate of the ground list"), rows, id="certificates")
    yield element("p", "With the layout below as layout.sites; the last command of a line prints the ground list:", class_="small")
    commands = (command_of(report, certified) for certified in report.certificates if certified.sha256)
    yield element("pre", "\n".join(commands), id="commands")
    yield element("pre", report.gate.layout.text(), id="sites", class_="sites")


def command_of(report: Report, certified: Certified) -> str:
    """The commands that make a pattern's certificate again, print its checksum, and check it."""
    layout = report.gate.layout
    kept = set(report.gate.numbers_of(certified.pattern))
    absent = [place for number, place in enumerate(layout.sites) if number not in kept]
    leaves = " ".join(f"-e '{place.n} {place.m} {place.l}'" for place in absent)
    name = f"{report.gate.bits_of(certified.pattern)}.certificate"
    words = shlex.join(certified.words)
    return f"grep -vxF {leaves} layout.sites | sidb {words} > {name}; sha256sum {name}; sidb --task check < {name}"


__all__ = ["MOST_ENTRIES", "NARROW", "command_of", "joined", "page_of", "shown"]
