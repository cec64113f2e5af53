"""How robust is a gate? Studies over the proved tasks: each verdict in them is the program's.

``displacements``: a dot, or several, a place off. ``defects``: a charged defect nearby. ``fit``: at which parameters an
observed charge list is a ground state. ``temperatures``: how warm it may be. ``domain3``: at which levels, besides
permittivity and screening length, a gate works.

Each goes through ``sweep``: over any executor, with a progress bar, and a point that fails touches no other. Each gives
a study with ``sentences()``, ``rows()``, ``write_csv(path)``, ``frame()``, ``faults()`` and ``draw(path)``.
"""

from __future__ import annotations

from .heat import Holds, RightShare, Temperatures, WarmPattern, temperatures
from .level_studies import Domain3, Fit, FitPoint, LevelPoint, Levels, domain3, fit
from .robustness import Defect, Defects, Displaced, Displacements, Move, Region, defects, displacements
from .trials import Outcome, Reader, Search, Study, Tally

__all__ = [
    "Defect", "Defects", "Displaced", "Displacements", "Domain3", "Fit", "FitPoint", "Holds", "LevelPoint", "Levels",
    "Move", "Outcome", "Reader", "Region", "RightShare", "Search", "Study", "Tally", "Temperatures", "WarmPattern",
    "defects", "displacements", "domain3", "fit", "temperatures",
]  # fmt: skip
