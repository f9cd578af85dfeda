"""What a run did, for people to read."""

from dataclasses import dataclass, field

from .command import Weights
from .meetings import Held


@dataclass
class Measures:
    """What every run is measured by.

    Positions are those of arcs, repeats included. ``bound`` is in grid steps, times the weight up
    where there are weights. ``step`` is the grid step up and ``largest_move`` the largest move by
    snapping on an axis, both in the CRS's units.
    """

    arcs: int
    positions_before: int
    positions_after: int
    bound: int
    step: float
    weights: Weights | None
    largest_move: float

    def measured(self) -> list[str]:
        """Give the measures as lines."""
        weights = "" if self.weights is None else f", weights {self.weights[0]} {self.weights[1]}"
        return [
            f"{self.positions_before:,} positions of {self.arcs:,} arcs, "
            f"{self.positions_after:,} left",
            f"grid step {self.step:g}, bound {self.bound} steps{weights}, "
            f"largest move by snapping {self.largest_move:g}",
        ]


@dataclass
class Report(Measures):
    """What ``simplify`` did.

    ``built_by`` is ``build`` (of the command), ``muchiqen`` or ``file``. ``verdict`` is the
    checker's word where it was asked.
    """

    built_by: str
    held: list[Held] = field(default_factory=list)
    notes: list[str] = field(default_factory=list)
    verdict: str | None = None

    def lines(self) -> list[str]:
        """Give the report as lines."""
        lines = [*self.measured(), f"{len(self.held)} arcs held"]
        lines += [f"held: {held}" for held in self.held[:20]]
        if len(self.held) > 20:
            lines.append(f"held: {len(self.held) - 20} more")
        lines += [f"note: {note}" for note in self.notes]
        if self.verdict is not None:
            lines.append(f"check: {self.verdict}")
        return lines

    def __str__(self) -> str:
        return "\n".join(self.lines())
