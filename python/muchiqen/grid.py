"""The whole grid on which the command works, and the way to it and back."""

import math
from dataclasses import dataclass
from typing import Any

import numpy as np
import numpy.typing as npt

from .errors import BadGrid, BadTolerance

Places = npt.NDArray[np.int64]
"""Positions on the grid, one row of x and y each."""

Coordinates = npt.NDArray[np.float64]
"""Positions in the units of a CRS, one row of x and y each."""

EDGE = 2**29
"""Coordinates on the grid are from ``-EDGE`` to ``EDGE``."""


@dataclass(frozen=True)
class Grid:
    """A place (i, j) of the grid stands for ``translate + scale * (i, j)`` in the CRS's units."""

    scale: tuple[float, float] = (1.0, 1.0)
    translate: tuple[float, float] = (0.0, 0.0)

    def __post_init__(self) -> None:
        if not all(math.isfinite(s) and s > 0 for s in self.scale):
            raise BadGrid(f"step {self.scale} is not above zero")
        if not all(math.isfinite(t) for t in self.translate):
            raise BadGrid(f"origin {self.translate} is not finite")

    @property
    def step(self) -> float:
        """The grid step up, in the CRS's units."""
        return self.scale[1]

    def snap(self, coordinates: Coordinates) -> Places:
        """Give the nearest places. Raises BadGrid where one is off the grid."""
        places = np.empty(coordinates.shape, dtype=np.int64, order="F")
        for axis in (0, 1):
            found = np.rint((coordinates[:, axis] - self.translate[axis]) / self.scale[axis])
            if found.size and not max(-found.min(), found.max()) <= EDGE:
                raise BadGrid(f"the map reaches past {EDGE} steps of {self.scale}")
            places[:, axis] = found
        return places

    def unsnap(self, places: Places) -> Coordinates:
        """Give the coordinates of places: for a step of 10^-k the doubles of short decimals."""
        found = np.empty(places.shape, dtype=np.float64, order="F")
        for axis in (0, 1):
            found[:, axis] = _steps(places[:, axis], self.scale[axis]) + self.translate[axis]
        return found

    def moves(self, coordinates: Coordinates, places: Places) -> Coordinates:
        """Give how far snapping moved each position on each axis, rounding noise taken as 0."""
        moved = self.unsnap(places)
        for axis in (0, 1):
            found, values, origin = moved[:, axis], coordinates[:, axis], abs(self.translate[axis])
            np.abs(np.subtract(found, values, out=found), out=found)
            most = max(float(-values.min()), float(values.max()), origin) if len(values) else 0.0
            few = np.flatnonzero(found <= _noise(most))
            few = few[found[few] <= _noise(np.maximum(np.abs(values[few]), origin))]
            found[few] = 0.0
        return moved


def _noise(sizes: Any) -> Any:
    """Give how far a number of some size, above 0, may be off by rounding."""
    return 4 * np.spacing(sizes)


def _steps(numbers: Places, step: float) -> Coordinates:
    parts = round(1 / step) if step < 1 else 0
    if parts and math.isclose(parts * step, 1.0, rel_tol=1e-15):
        return np.asarray(numbers / parts, dtype=np.float64)
    return np.asarray(numbers * step, dtype=np.float64)


def checked_tolerance(tolerance: object) -> float:
    """Give the tolerance as a float; BadTolerance where it is below zero, infinite or no number."""
    if isinstance(tolerance, bool) or not isinstance(tolerance, (int, float, np.number)):
        raise BadTolerance(tolerance)
    value = float(tolerance)
    if not math.isfinite(value) or value < 0:
        raise BadTolerance(tolerance)
    return value


def choose(coordinates: Coordinates, tolerance: float, most_weight: int = 1) -> Grid:
    """Give a grid whose step is a power of ten.

    The step is the greatest power of ten of which at least a hundred go into the tolerance and a
    thousand into the map, or a coarser one where the map, times ``most_weight``, would not fit on
    the grid otherwise.
    """
    if not len(coordinates):
        return Grid()
    low, high = extent(coordinates)
    span = float((high - low).max()) or 1.0
    room = EDGE / most_weight * 0.99
    fine = _power_below(min(tolerance / 100, span / 1000)) if tolerance > 0 else 0.0
    step = max(fine, _power_above(span / 2 / room))
    if float(np.abs((low, high)).max()) / step <= room:
        return Grid((step, step))
    middle = np.rint((low + high) / 2 / step) * step
    return Grid((step, step), (float(middle[0]), float(middle[1])))


def extent(coordinates: Coordinates) -> tuple[Coordinates, Coordinates]:
    """Give the least and the greatest x and y of some positions."""
    columns = [coordinates[:, axis] for axis in (0, 1)]
    return np.array([c.min() for c in columns]), np.array([c.max() for c in columns])


def _power_below(value: float) -> float:
    exponent = math.floor(math.log10(value))
    if 10.0 ** (exponent + 1) <= value * (1 + 1e-12):
        exponent += 1
    return float(f"1e{exponent}")


def _power_above(value: float) -> float:
    exponent = math.ceil(math.log10(value))
    return float(f"1e{exponent}")
