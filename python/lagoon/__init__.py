"""Salt transport on a lagoon mesh, in whole numbers: the proved steps from Python, and the command `lagoon`.

    import lagoon
    bay = lagoon.Session.open("bay.txt")
    for moment in bay.run():
        print(moment.step, moment.total, moment.q["Salt Pan"])

`docs/PYTHON.md` walks through all of it. Verdicts and figures are the engine's: the C library's calls or, where no library is built, those
of the program `calls`. Python's own are texts and records both ways, the words of a refusal, which have to be about the engine's cause and
place, in-mass and out-mass by face, the sums of a budget, and pictures.
"""

from importlib import import_module
from typing import TYPE_CHECKING

from .command import version

if TYPE_CHECKING:
    from .engine import library
    from .layout import RIM
    from .proved import After, Charge, Line, Part, Period, Records, board, charged, in_two, judged, page, pages, plain_step, records_in_two, \
        share, step
    from .sessions import Budget, Moment, Picture, Run, Session, check, pack, unpack
    from .values import Field, Mesh, Named, Refused, Step

HOMES = {"engine": ("library",), "layout": ("RIM",), "values": ("Field", "Mesh", "Named", "Refused", "Step"),
         "proved": ("After", "Charge", "Line", "Part", "Period", "Records", "board", "charged", "in_two", "judged", "page", "pages", "plain_step",
                    "records_in_two", "share", "step"),
         "sessions": ("Budget", "Moment", "Picture", "Run", "Session", "check", "pack", "unpack")}

__version__ = version()
__all__ = [name for names in HOMES.values() for name in names]


def __getattr__(name):
    """A module is read when a name of it is first used: so the command starts at once, and an interrupt finds it ready."""
    for module, names in HOMES.items():
        if name in names:
            return getattr(import_module(f".{module}", __name__), name)
    raise AttributeError(f"module {__name__!r} has no attribute {name!r}")


def __dir__():
    return sorted([*__all__, "__version__"])
