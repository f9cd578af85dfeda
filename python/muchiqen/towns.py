"""Towns: points that stay in their polygons."""

from typing import Any

import geopandas as gpd
import numpy as np
from shapely.geometry import Point

from .errors import NotACoverage
from .grid import Coordinates
from .shapes import points_of


def towns_of(
    towns: gpd.GeoDataFrame | gpd.GeoSeries | None, crs: Any, notes: list[str]
) -> tuple[list[Any], Coordinates]:
    """Give the labels and coordinates of the towns, in the CRS of the coverage.

    Raises NotACoverage where one is no point, or not finite.
    """
    if towns is None:
        return [], np.empty((0, 2))
    points = towns.geometry
    if crs is not None and points.crs is not None and points.crs != crs:
        points = points.to_crs(crs)
        notes.append("the towns were brought to the CRS of the coverage")
    shapes = np.asarray(points.array.data, dtype=object)
    if set(map(type, shapes)) <= {Point}:
        coordinates = points_of(shapes)
        if coordinates is not None and np.isfinite(coordinates).all():
            return points.index.tolist(), coordinates
    return _one_by_one(points, notes)


def _one_by_one(points: gpd.GeoSeries, notes: list[str]) -> tuple[list[Any], Coordinates]:
    labels, rows, missing, wrong = [], [], 0, []
    for label, point in zip(points.index, points, strict=True):
        if point is None or point.is_empty:
            missing += 1
        elif point.geom_type not in ("Point", "MultiPoint"):
            wrong.append(label)
        else:
            for single in getattr(point, "geoms", [point]):
                labels.append(label)
                rows.append(single.coords[0][:2])
    coordinates = np.array(rows, dtype=np.float64).reshape(-1, 2)
    wrong += [labels[at] for at in np.flatnonzero(~np.isfinite(coordinates).all(axis=1))]
    if wrong:
        raise NotACoverage("a town is no point with finite coordinates", wrong)
    if missing:
        notes.append(f"{missing} towns without a geometry, left out")
    return labels, coordinates
