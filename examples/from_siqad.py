#!/usr/bin/env python3
"""From a file of SiQAD to ground states, a truth table, a map, and a sweep.

    python3 examples/from_siqad.py [FOLDER]

Writes pictures and a table into FOLDER (the current one where none is given). Made of cells, which begin with "# %%", for
editors that run one at a time; in a notebook each `draw()` shows its picture. Needs the built program and matplotlib
(python/README.md).
"""

import sys
from decimal import Decimal
from pathlib import Path

HERE = Path(__file__).resolve().parent
sys.path.insert(0, str(HERE.parent / "python"))  # not needed where the package is installed

import sidb  # noqa: E402
from sidb import pictures  # noqa: E402

FOLDER = Path(sys.argv[1] if len(sys.argv) > 1 else ".")
FOLDER.mkdir(parents=True, exist_ok=True)

# %% The file. Its charged defect becomes a fixed charge: the program's own reader would leave it out.

layout = sidb.read_sqd(HERE / "or_gate.sqd")
print(f"{layout.name}: {len(layout.sites)} dots, {len(layout.fixed)} fixed charge")
for sentence in layout.left_out:
    print(sentence)

# %% A gate: of each input pair one dot is there, the first for a 0; the output reads 0 where its first dot is negative.

gate = layout.gate(inputs=[(0, 2), (1, 3)], outputs=[(20, 21)], function="or")
gate.draw(path=FOLDER / "gate.svg")

# %% The truth table, with the ground list of each pattern.

truth = gate.truth()
for pattern in truth.patterns:
    print(f"{gate.bits_of(pattern.number)}: wants {pattern.wants}, {pattern.verdict}")
    for entry in pattern.entries:
        print(f"    {entry.charges} {entry.mark.in_words()}")
print(f"the gate {truth.verdict}")
truth.draw(path=FOLDER / "patterns.svg")

# %% One pattern as a layout of its own: its energy, in 10^-12 eV and in eV, and its picture.

single = gate.layout_of(1)
ground = single.ground()
least, greatest = ground.entries[0].energy.ev
print(f"pattern 1 alone: energy between {least} and {greatest} eV")
ground.draw(path=FOLDER / "ground.svg")

# %% Where it works: 24 by 24 points of permittivity and screening length, on all processors.

domain = sidb.cut_domain(gate, sidb.Grid.of(eps=("4.8", "0.1", 24), lam=("3.8", "0.1", 24)))
works = sum(cell.verdict == "works" for cell in domain.cells)
print(f"works at {works} of {len(domain.cells)} points")
domain.draw(path=FOLDER / "domain.svg")

# %% And at every point between: rectangles, cut in four where their spans do not decide; the points of a domain on top.

region = gate.region(sidb.Grid.parse("5.7:0.05:2,4.5:0.05:2"), refine=3)
points = gate.domain(sidb.Grid.parse("5.705:0.01:10,4.505:0.01:10"))
print(f"works at every point of {region.works / (region.works + region.fails + region.open):.0%} of a square")
region.draw(path=FOLDER / "regions.svg", domain=points)

# %% For which levels the pattern keeps its ground list, and what is left of it at 298 K.

single.level_range("0.2", "0.4").draw(path=FOLDER / "levels.svg")
single.occupation(window="0.2", kt="0.0257").draw(path=FOLDER / "shares.svg")

# %% A sweep: each pattern at 21 screening lengths; a row for each charge list, for a spreadsheet or pandas.

lengths = [sidb.Parameters(lam=Decimal(40 + k) / 10) for k in range(21)]
sweep = sidb.sweep([gate.layout_of(pattern) for pattern in range(gate.patterns)], lengths)
sweep.write_csv(FOLDER / "sweep.csv")
print(f"{len(sweep.points)} points, {len(sweep.faults)} without an answer: sweep.csv")

# %% All pictures are files of SVG or PNG; one figure may hold several.

figure = pictures.plot_domain(domain)
pictures.save(figure, FOLDER / "domain.png")
