"""Pictures of layouts and answers, by matplotlib, as SVG or PNG.

Layouts look as in SiQAD: columns to the right, dimer rows downward, lengths in Å. Each charge has a shape and a
sign besides its colour, and each verdict a brightness and a hatch, so that pictures tell the same in grey.
"""

from __future__ import annotations

import io
import math
from collections.abc import Iterable, Mapping, Sequence
from dataclasses import dataclass, field, replace
from pathlib import Path as FilePath
from typing import Any

from .answers import (
    Cell,
    DomainAnswer,
    GroundAnswer,
    Mark,
    OccupationAnswer,
    Pattern,
    RangeAnswer,
    RegionAnswer,
    Tile,
    TruthAnswer,
)
from .errors import SidbError, ValueFault
from .layout import Gate, Layout, Place

try:
    import matplotlib
    from matplotlib.axes import Axes
    from matplotlib.figure import Figure
    from matplotlib.lines import Line2D
    from matplotlib.patches import Patch, PathPatch
    from matplotlib.path import Path
except ImportError as missing:
    raise SidbError("Pictures need matplotlib: Debian's python3-matplotlib, or pip install sidb[plot].") from missing


@dataclass(frozen=True)
class ChargeStyle:
    """How a dot of a charge looks: its fill, its edge, the sign on it and that sign's colour, its name."""

    fill: str
    edge: str
    sign: str
    ink: str
    name: str


CHARGE_STYLE: dict[int | None, ChargeStyle] = {
    -1: ChargeStyle("#0b4f8a", "#06294a", "−", "white", "negative"),
    0: ChargeStyle("white", "#666666", "", "black", "neutral"),
    1: ChargeStyle("#f0a04b", "#7a4400", "+", "black", "positive"),
    None: ChargeStyle("#c8c8c8", "#444444", "", "black", "dot"),
}

#: Fill, hatch and words for each verdict on a gate.
VERDICT_STYLE: dict[str, tuple[str, str, str]] = {
    "works": ("#0b4f8a", "", "works"),
    "fails": ("#f6c89b", "", "fails"),
    "undecided": ("white", "////", "undecided"),
    "budget": ("white", "....", "over the limit of nodes"),
    "long": ("white", "xxxx", "list too long"),
    "missing": ("white", "++++", "no answer"),
}
_POINT_STYLE = {"works": ("o", "white"), "fails": ("X", "#7a1f00"), "open": ("s", "#888888")}
_SETTINGS = {"svg.fonttype": "none", "svg.hashsalt": "sidb", "hatch.linewidth": 0.6, "font.size": 8.0}
_MOST_ROWS = 40
_MOST_POINTS = 300


def save(figure: Figure, path: str | FilePath) -> None:
    """Writes a figure as SVG (small, and the same bytes each time), PNG or PDF, by the ending of the path."""
    ending = FilePath(path).suffix.lower()
    if ending not in (".svg", ".png", ".pdf"):
        raise ValueFault(f"A picture is written as .svg, .png or .pdf, and not as {str(path)!r}.")
    undated = {".svg": "Date", ".pdf": "CreationDate"}.get(ending)
    metadata = {undated: None} if undated else {}
    with matplotlib.rc_context(_SETTINGS):
        figure.savefig(path, format=ending[1:], metadata=metadata, bbox_inches="tight", dpi=150)


def svg_text(figure: Figure) -> str:
    """A figure as the text of an SVG element, for a page: without a declaration or a document type."""
    made = io.StringIO()
    with matplotlib.rc_context(_SETTINGS):
        figure.savefig(made, format="svg", metadata={"Date": None}, bbox_inches="tight")
    text = made.getvalue()
    return text[text.index("<svg"):]


def _figure(width: float, height: float, rows: int = 1, columns: int = 1) -> tuple[Figure, list[Axes]]:
    with matplotlib.rc_context(_SETTINGS):
        figure = Figure(figsize=(width, height))
        axes = figure.subplots(rows, columns, squeeze=False)
    return figure, list(axes.flat)


def _finished(ax: Axes, path: str | FilePath | None) -> Figure:
    figure = ax.figure
    if path is not None:
        save(figure, path)
    return figure


# Layouts


@dataclass(frozen=True)
class Scene:
    """What a picture of a layout shows: charges and colours by place, the mark of the entry, labels beside places,
    and room for all of ``whole``, where the layout is a part of that; or the frame ``bounds``."""

    layout: Layout
    title: str
    charges: Mapping[Place, int] = field(default_factory=dict)
    colours: Mapping[Place, str] = field(default_factory=dict)
    mark: Mark | None = None
    labels: Mapping[Place, str] = field(default_factory=dict)
    whole: Layout | None = None
    bounds: tuple[float, float, float, float] | None = None

    def positions(self) -> list[tuple[float, float]]:
        """Of all dots and fixed charges, in Å."""
        layout = self.whole or self.layout
        places = [*layout.sites, *(fix.place for fix in layout.fixed)] or [Place(0, 0, 0)]
        return [self.at(place) for place in places]

    def at(self, place: Place) -> tuple[float, float]:
        """Where a place lies, in Å."""
        x, y = self.layout.lattice.position(place)
        return x / 100, y / 100

    def frame(self) -> tuple[float, float, float, float]:
        """Left, right, top and bottom, in Å, with a margin, and with room for labels; not too flat to look at."""
        if self.bounds is not None:
            return self.bounds
        xs, ys = zip(*self.positions())
        left, right = min(xs) - 12, max(xs) + 12
        right += (right - left) * 0.12 if self.labels else 0
        above = max(12, ((right - left) * 0.15 - (max(ys) - min(ys))) / 2)
        return left, right, min(ys) - above, max(ys) + above


def draw(
    subject: Layout | Gate | GroundAnswer | Pattern,
    entry: int = 0,
    path: str | FilePath | None = None,
    ax: Axes | None = None,
    *,
    title: str | None = None,
    marks: bool = True,
    legend: bool = True,
    colours: Mapping[Place, str] | None = None,
    frame: tuple[float, float, float, float] | None = None,
) -> Figure:
    """Draws a layout: its lattice, dots with their charges in one entry, fixed charges, and what decides.

    Of a gate the inputs and outputs are named. ``colours`` fills dots, by place, in place of their charges' colours.
    ``frame``: left, right, top and bottom of the picture in Å; None for all dots with a margin.
    """
    scene = replace(scene_of(subject, entry, title, colours or {}), bounds=frame)
    if ax is None:
        left, right, top, bottom = scene.frame()
        width = min(max((right - left) / 22, 3.2), 9.0)
        figure, (ax,) = _figure(width, min(max(width * (bottom - top) / (right - left), 1.0), 12.0) + 0.6)
    with matplotlib.rc_context(_SETTINGS):
        _draw_scene(ax, scene, marks)
        if legend:
            _draw_legend(ax, scene)
    return _finished(ax, path)


def scene_of(subject: Any, entry: int, title: str | None, colours: Mapping[Place, str]) -> Scene:
    """What a picture of a subject shows."""
    if isinstance(subject, Layout):
        return Scene(subject, subject.name if title is None else title, colours=colours)
    if isinstance(subject, Gate):
        said = f"{subject.layout.name}: {subject.function}" if title is None else title
        return Scene(subject.layout, said, colours=colours, labels=_labels_of(subject))
    if not isinstance(subject, (GroundAnswer, Pattern)) or subject.layout is None:
        raise ValueFault(f"A picture is one of a layout, a gate, or an answer to a layout, and not of {type(subject).__name__}.")
    if not subject.entries:
        return Scene(subject.layout, f"{subject.layout.name}: no list is valid" if title is None else title)
    if not 0 <= entry < len(subject.entries):
        raise ValueFault(f"There is no entry {entry}: there are {len(subject.entries)}, counted from 0.")
    mark = subject.entries[entry].mark
    said = f"{subject.layout.name}: entry {entry} of {len(subject.entries)}, {mark.kind if mark.certain else 'unresolved'}"
    return Scene(subject.layout, said if title is None else title, subject.charges_at(entry), colours, mark)


def _labels_of(gate: Gate) -> dict[Place, str]:
    pairs = [(f"in {i}", pair) for i, pair in enumerate(gate.inputs)] if len(gate.inputs) > 1 else [("in", gate.inputs[0])]
    pairs += [("out", pair) for pair in gate.outputs]
    return {gate.layout.sites[site]: f"{name} = {bit}" for name, pair in pairs for bit, site in enumerate(pair)}


def _draw_scene(ax: Axes, scene: Scene, marks: bool = True) -> None:
    left, right, top, bottom = scene.frame()
    ax.set_xlim(left, right)
    ax.set_ylim(bottom, top)
    ax.set_aspect("equal")
    ax.apply_aspect()
    ax.set_title(_plain(scene.title), fontsize=8)
    ax.set_xlabel("Å")
    ax.tick_params(labelsize=6)
    size = _dot_size(ax, scene)
    _draw_lattice(ax, scene)
    _draw_dots(ax, scene, size)
    _draw_fixed(ax, scene, size)
    for place, label in scene.labels.items():
        x, y = scene.at(place)
        look = {"fontsize": min(size + 1, 6), "va": "center"}
        ax.annotate(_plain(label), (x, y), (size * 0.7 + 1, 0), textcoords="offset points", **look)
    if marks and scene.mark is not None:
        _draw_mark(ax, scene, scene.mark, size)


def _plain(text: str) -> str:
    """A text as it is: matplotlib would read what stands between dollar signs as a formula."""
    return text.replace("$", r"\$")


def _dot_size(ax: Axes, scene: Scene) -> float:
    """The diameter of a dot, in points: so that neighbours in a picture don't cover one another."""
    left, right, _, _ = scene.frame()
    width = float(ax.get_position().width * ax.figure.get_size_inches()[0] * 72)
    return min(max(width / (right - left) * 3.4, 4.0), 14.0)


def _draw_lattice(ax: Axes, scene: Scene) -> None:
    """Each row of atoms as a line, and each place of it as a dash of the line. All lines are one path, which begins
    its dashes anew with each."""
    lattice = scene.layout.lattice
    left, right, top, bottom = scene.frame()
    column, row = lattice.ax / 100, lattice.by / 100
    points = ax.get_position().width * ax.figure.get_size_inches()[0] * 72 / (right - left) * column
    if column <= 0 or row <= 0 or lattice.ay != 0 or points < 4:
        return
    starts = [scene.at(Place(0, m, atom)) for m in range(math.floor(top / row) - 1, math.ceil(bottom / row) + 1) for atom in (0, 1)]
    ends = [(x + math.ceil((left - x) / column) * column, y) for x, y in starts if top < y < bottom]
    path = Path([at for x, y in ends for at in ((x, y), (right, y))], [Path.MOVETO, Path.LINETO] * len(ends))
    dots = (0, (0.01, points / 1.0 - 0.01))
    ax.add_patch(PathPatch(path, fill=False, edgecolor="#8c8c8c", linewidth=1.0, linestyle=dots, capstyle="round", zorder=0))


def _draw_dots(ax: Axes, scene: Scene, size: float) -> None:
    for charge, style in CHARGE_STYLE.items():
        places = [place for place in scene.layout.sites if scene.charges.get(place) == charge]
        plain = [place for place in places if place not in scene.colours]
        _draw_circles(ax, scene, plain, style.fill, style.edge, size)
        for place in (place for place in places if place in scene.colours):
            _draw_circles(ax, scene, [place], scene.colours[place], style.edge, size)
        if style.sign and size >= 5:
            _draw_signs(ax, [scene.at(place) for place in places], style, size)


def _draw_circles(ax: Axes, scene: Scene, places: Sequence[Place], fill: str, edge: str, size: float) -> None:
    if places:
        xs, ys = zip(*(scene.at(place) for place in places))
        ax.plot(xs, ys, "o", markersize=size, markerfacecolor=fill, markeredgecolor=edge, markeredgewidth=0.8, zorder=3)


def _draw_signs(ax: Axes, at: Sequence[tuple[float, float]], style: ChargeStyle, size: float) -> None:
    if at:
        sign = {"−": "_", "+": "+"}[style.sign]
        look = {"markersize": size * 0.55, "markeredgecolor": style.ink, "markeredgewidth": max(0.8, size / 9)}
        ax.plot(*zip(*at), sign, zorder=4, **look)


def _draw_fixed(ax: Axes, scene: Scene, size: float) -> None:
    for fix in scene.layout.fixed:
        x, y = scene.at(fix.place)
        ax.plot(
            [x], [y], "D", markersize=size * 0.85, markerfacecolor="#ffe9a8", markeredgecolor="black",
            markeredgewidth=1.0, zorder=3,
        )  # fmt: skip
        said = f"{fix.charge:+d}".replace("-", "−")
        ax.annotate(said, (x, y), (size * 0.6 + 1, 0), textcoords="offset points", fontsize=7, va="center", zorder=4)


def _draw_mark(ax: Axes, scene: Scene, mark: Mark, size: float) -> None:
    """A ring round the site of a test, an arrow for a hop; in words below the picture."""
    sites = scene.layout.sites
    if mark.site is not None:
        ax.plot(*scene.at(sites[mark.site]), "o", markersize=size * 1.7, fillstyle="none", color="#c00000", zorder=5)
    if mark.start is not None and mark.end is not None:
        arrow = {"arrowstyle": "->", "color": "#c00000", "connectionstyle": "arc3,rad=-0.4"}
        ax.annotate("", scene.at(sites[mark.end]), scene.at(sites[mark.start]), arrowprops=arrow, zorder=5)
    if not mark.certain:
        ax.set_xlabel("Å\n" + mark.in_words(), fontsize=7, wrap=True)


def _draw_legend(ax: Axes, scene: Scene) -> None:
    handles = [_dot_handle(CHARGE_STYLE[charge]) for charge in CHARGE_STYLE if _is_shown(scene, charge)]
    if scene.layout.fixed:
        handles.append(_handle("D", "#ffe9a8", "black", "fixed charge"))
    if handles:
        ax.legend(
            handles=handles, fontsize=6, loc="upper left", bbox_to_anchor=(1.0, 1.0), frameon=False, borderaxespad=0.3,
        )  # fmt: skip


def _is_shown(scene: Scene, charge: int | None) -> bool:
    return any(scene.charges.get(site) == charge and site not in scene.colours for site in scene.layout.sites)


def _dot_handle(style: ChargeStyle) -> Line2D:
    return _handle("o", style.fill, style.edge, f"{style.name} {style.sign}".strip())


def _handle(marker: str, fill: str, edge: str, label: str) -> Line2D:
    return Line2D([], [], linestyle="none", marker=marker, markerfacecolor=fill, markeredgecolor=edge, label=label)


def draw_patterns(truth: TruthAnswer, path: str | FilePath | None = None) -> Figure:
    """A picture of each pattern of a truth table, two to a line, with the first entry of each."""
    scenes = [_pattern_scene(truth, number) for number in range(len(truth.patterns))]
    left, right, top, bottom = scenes[0].frame()
    width, lines = min(max((right - left) / 50, 2.4), 4.2), (len(scenes) + 1) // 2
    figure, axes = _figure(2 * width, lines * (width * (bottom - top) / (right - left) + 0.5), lines, 2)
    with matplotlib.rc_context(_SETTINGS):
        for ax, scene in zip(axes, scenes):
            _draw_scene(ax, scene)
            ax.set_xlabel("")
        figure.subplots_adjust(left=0.06, right=0.99, wspace=0.14, hspace=0.2)
        _draw_legend(axes[1], scenes[1])
    return _finished(axes[0], path)


def _pattern_scene(truth: TruthAnswer, number: int) -> Scene:
    pattern = truth.patterns[number]
    outputs = {truth.gate.layout.sites[site]: f"= {bit}" for pair in truth.gate.outputs for bit, site in enumerate(pair)}
    title = f"{truth.gate.bits_of(number)}: {pattern.verdict}, wants {pattern.wants}"
    if not pattern.entries:
        return Scene(pattern.layout, title + ", no list", labels=outputs, whole=truth.gate.layout)
    mark = pattern.entries[0].mark
    return Scene(pattern.layout, title, pattern.charges_at(), mark=mark, labels=outputs, whole=truth.gate.layout)


# Domains and regions

Rectangle = tuple[float, float, float, float]


def plot_domain(answer: DomainAnswer, path: str | FilePath | None = None, ax: Axes | None = None) -> Figure:
    """A map of works, fails, undecided and the rest over permittivity and screening length. Each cell is a point
    of the grid; nothing is said of what lies between two points."""
    ax = ax or _figure(4.6, 3.4)[1][0]
    half = [float(axis.step) / 2 for axis in (answer.grid.eps, answer.grid.lam)]
    found: dict[str, list[Rectangle]] = {}
    for cell in answer.cells:
        x, y = float(cell.eps), float(cell.lam)
        _add(found.setdefault(cell.verdict, []), (x - half[0], x + half[0], y - half[1], y + half[1]))
    with matplotlib.rc_context(_SETTINGS):
        _draw_verdicts(ax, found)
        if len(answer.cells) <= _MOST_POINTS:
            xs, ys = [float(cell.eps) for cell in answer.cells], [float(cell.lam) for cell in answer.cells]
            ax.plot(xs, ys, ".", color="#9a9a9a", markersize=3)
        _label_map(ax, f"{answer.gate.layout.name}: {answer.gate.function}, at the points of a grid")
    return _finished(ax, path)


def _add(rectangles: list[Rectangle], new: Rectangle) -> None:
    """Joins a rectangle to the one before it, where it goes on from that one."""
    old = rectangles[-1] if rectangles else None
    if old and old[:2] == new[:2] and math.isclose(old[3], new[2]):
        rectangles[-1] = (*old[:3], new[3])
    else:
        rectangles.append(new)


def _draw_verdicts(ax: Axes, found: Mapping[str, list[Rectangle]], more: Sequence[Line2D] = ()) -> None:
    for verdict, (fill, hatch, _) in VERDICT_STYLE.items():
        if verdict in found:
            patch = PathPatch(
                _path_of(found[verdict]), facecolor=fill, hatch=hatch, edgecolor="#555555" if hatch else fill,
                linewidth=0.0 if hatch else 0.3,
            )  # fmt: skip
            ax.add_patch(patch)
    shown = [verdict for verdict in VERDICT_STYLE if verdict in found]
    ax.legend(
        handles=[*map(_verdict_handle, shown), *more], fontsize=7, loc="upper left", bbox_to_anchor=(1.0, 1.0),
        frameon=False, borderaxespad=0.3,
    )  # fmt: skip
    every = [rectangle for rectangles in found.values() for rectangle in rectangles]
    ax.set_xlim(min(r[0] for r in every), max(r[1] for r in every))
    ax.set_ylim(min(r[2] for r in every), max(r[3] for r in every))


def _verdict_handle(verdict: str) -> Patch:
    fill, hatch, words = VERDICT_STYLE[verdict]
    return Patch(facecolor=fill, hatch=hatch, edgecolor="#555555", linewidth=0.5, label=words)


def _path_of(rectangles: Iterable[Rectangle]) -> Path:
    """All rectangles as one path, which keeps a picture of thousands of cells small."""
    corners, codes = [], []
    for left, right, low, high in rectangles:
        corners += [(left, low), (right, low), (right, high), (left, high), (left, low)]
        codes += [Path.MOVETO, Path.LINETO, Path.LINETO, Path.LINETO, Path.CLOSEPOLY]
    return Path(corners, codes)


def _label_map(ax: Axes, title: str) -> None:
    ax.set_xlabel("relative permittivity")
    ax.set_ylabel("screening length (nm)")
    ax.set_title(_plain(title), fontsize=8)
    ax.tick_params(labelsize=7)


def plot_regions(
    answer: RegionAnswer,
    path: str | FilePath | None = None,
    ax: Axes | None = None,
    *,
    domain: DomainAnswer | None = None,
) -> Figure:
    """The tiles of a region: what is proved at each point of a tile in full colour, what is open hatched; the points
    of a domain on top."""
    ax = ax or _figure(4.6, 3.4)[1][0]
    found: dict[str, list[Rectangle]] = {}
    for tile in answer.tiles:
        found.setdefault(tile.verdict, []).append(_rectangle_of(tile))
    points = _by_verdict(domain.cells if domain is not None else ())
    with matplotlib.rc_context(_SETTINGS):
        _draw_verdicts(ax, found, [_point_handle(verdict) for verdict in points])
        outlines = _path_of(map(_rectangle_of, answer.tiles))
        ax.add_patch(PathPatch(outlines, fill=False, edgecolor="#888888", linewidth=0.2))
        _draw_points(ax, points)
        _label_map(ax, f"{answer.gate.layout.name}: {answer.gate.function}, by proof over each tile")
    return _finished(ax, path)


def _rectangle_of(tile: Tile) -> Rectangle:
    return float(tile.eps[0]), float(tile.eps[1]), float(tile.lam[0]), float(tile.lam[1])


def _by_verdict(cells: Iterable[Cell]) -> dict[str, list[Cell]]:
    """Points by how they are drawn: all that neither works nor fails alike."""
    found: dict[str, list[Cell]] = {}
    for cell in cells:
        found.setdefault(cell.verdict if cell.verdict in _POINT_STYLE else "open", []).append(cell)
    return {verdict: found[verdict] for verdict in _POINT_STYLE if verdict in found}


def _draw_points(ax: Axes, points: Mapping[str, Sequence[Cell]]) -> None:
    for verdict, cells in points.items():
        xs, ys = [float(cell.eps) for cell in cells], [float(cell.lam) for cell in cells]
        ax.plot(xs, ys, **_point_look(verdict), zorder=4)


def _point_look(verdict: str) -> dict[str, Any]:
    marker, colour = _POINT_STYLE[verdict]
    look = {"markersize": 3, "markeredgecolor": "black", "markeredgewidth": 0.4}
    return {"linestyle": "none", "marker": marker, "markerfacecolor": colour, **look}


def _point_handle(verdict: str) -> Line2D:
    return Line2D([], [], label=f"{verdict}, at a point", **_point_look(verdict))


# Levels and shares


def plot_levels(answer: RangeAnswer, path: str | FilePath | None = None, ax: Axes | None = None) -> Figure:
    """The parts of an interval of levels: a row for each charge list, in full colour where it is certain, hatched
    where it is unresolved. A part that is too thin to see is a line."""
    lists = answer.lists()[:_MOST_ROWS]
    ax = ax or _figure(5.6, 0.9 + 0.22 * max(len(lists), 1))[1][0]
    with matplotlib.rc_context(_SETTINGS):
        for row, charges in enumerate(lists):
            for certain in (True, False):
                spans = [(first, last) for first, last, is_certain in answer.parts_of(charges) if is_certain == certain]
                _draw_spans(ax, row, spans, certain)
        _draw_splits(ax, answer, len(lists))
        _label_rows(ax, lists, len(answer.lists()))
        ax.set_xlim(answer.parts[0].first / 1e12, answer.parts[-1].last / 1e12)
        ax.set_xlabel("mu_minus (V)")
        handles = [Patch(facecolor="#0b4f8a", label="certain"), Patch(facecolor="white", hatch="////", edgecolor="#c00000", label="unresolved")]
        ax.legend(handles=handles, fontsize=6, loc="lower left", bbox_to_anchor=(0.0, 1.0), ncol=2, frameon=False)
    return _finished(ax, path)


def _draw_spans(ax: Axes, row: int, spans: Sequence[tuple[int, int]], certain: bool) -> None:
    if spans:
        bars = [(first / 1e12, (last - first) / 1e12) for first, last in spans]
        look: dict[str, Any] = {"facecolors": "#0b4f8a"} if certain else {"facecolors": "white", "hatch": "////", "edgecolors": "#c00000"}
        ax.broken_barh(bars, (row - 0.35, 0.7), linewidth=0.5, **look)


def _draw_splits(ax: Axes, answer: RangeAnswer, rows: int) -> None:
    for part in answer.parts:
        if part.entries is None:
            ax.axvspan(part.first / 1e12, part.last / 1e12, color="#cccccc", hatch="xx", zorder=0)


def _label_rows(ax: Axes, lists: Sequence[str], count: int) -> None:
    ax.set_yticks(range(len(lists)))
    ax.set_yticklabels(lists, family="monospace", fontsize=6)
    ax.set_ylim(len(lists) - 0.4, -0.6)
    ax.tick_params(axis="x", labelsize=7)
    if count > len(lists):
        ax.set_ylabel(f"{len(lists)} of {count} lists", fontsize=7)


def plot_occupation(answer: OccupationAnswer, path: str | FilePath | None = None, ax: Axes | None = None) -> Figure:
    """The shares of the entries at a temperature, as bars; of more than 40 the greatest. The ends of a share differ by
    less than a line's width."""
    shown = sorted(sorted(answer.shares, key=lambda s: -s.greatest)[:_MOST_ROWS], key=answer.shares.index)
    ax = ax or _figure(5.6, 0.9 + 0.22 * max(len(shown), 1))[1][0]
    with matplotlib.rc_context(_SETTINGS):
        widths = [float(share.shares[1]) for share in shown]
        ax.barh(range(len(shown)), widths, 0.7, color="#0b4f8a")
        for row, share in enumerate(shown):
            ax.text(widths[row] + 0.01, row, f"{share.shares[0]:.4f}", fontsize=6, va="center")
        _label_rows(ax, [share.charges for share in shown], len(answer.shares))
        ax.set_xlim(0, min(1.15, max([0.2, *widths]) * 1.15))
        ax.set_xlabel("share among the entries")
        ax.set_title(f"kT = {answer.kt / 1e9:g} meV, window {answer.window / 1e9:g} meV", fontsize=8)
    return _finished(ax, path)
