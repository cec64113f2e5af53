"""Runs the proved program ``sidb`` on layouts of silicon dangling bonds, and shows its answers.

This package proves nothing and decides nothing: each number in it comes out of the program's output.

    import sidb
    sidb.read_sqd("or.sqd").ground().draw(path="or.svg")
"""

from .answers import (
    Cell,
    CertificateAnswer,
    DomainAnswer,
    Entry,
    GenAnswer,
    GroundAnswer,
    Interval,
    Mark,
    OccupationAnswer,
    Part,
    Pattern,
    PotentialsAnswer,
    RangeAnswer,
    RegionAnswer,
    Run,
    Share,
    Tile,
    TruthAnswer,
    WindowAnswer,
)
from .errors import (
    BadAnswer,
    BudgetFault,
    CertificateFault,
    FileFault,
    InputFault,
    ListTooLong,
    NoMemory,
    NotBuilt,
    NoWords,
    ProgramMissing,
    ProgramTimeout,
    ReadFailed,
    SidbError,
    ValueFault,
    WordsFault,
    WriteFailed,
)
from .layout import SILICON, Axis, Fixed, Gate, Grid, Lattice, Layout, Place, Table, read_sites, read_sqd
from .parameters import Parameters
from .program import Program, Version, find_program
from .sweeps import Point, Sweep, cut_domain, sweep
from .tasks import (
    certify,
    check,
    domain,
    gen,
    ground,
    level_range,
    occupation,
    potentials,
    region,
    truth,
    window,
)

__all__ = [name for name in dir() if not name.startswith("_")]
__version__ = "1.0"
