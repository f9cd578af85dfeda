"""Muchiqen for people with maps: thins the borders of a coverage with the proved command.

The command is exact and proved. This package proves nothing of its own: what it promises it
checks, by the command's own ``check``, by exact counts of its own and by shapely.
"""

from typing import Any

from .command import Command
from .errors import MuchiqenError
from .grid import Grid
from .large import LargeReport, ThinnedLarge, simplify_large
from .report import Report
from .thin import Thinned, ThinnedText, simplify, simplify_topology
from .topology import Topology
from .viewer import view_page

__all__ = [
    "Command",
    "Grid",
    "LargeReport",
    "MuchiqenError",
    "Report",
    "Thinned",
    "ThinnedLarge",
    "ThinnedText",
    "Topology",
    "picture",
    "picture_of",
    "simplify",
    "simplify_large",
    "simplify_topology",
    "view_page",
]


def __getattr__(name: str) -> Any:
    if name in ("picture", "picture_of"):
        from . import pictures

        return getattr(pictures, name)
    raise AttributeError(f"module {__name__!r} has no attribute {name!r}")
