"""Reads maps by GDAL, and writes outputs so that none is ever there by half."""

import errno
import os
import shutil
import tempfile
from collections.abc import Callable
from pathlib import Path
from typing import Any

import geopandas as gpd

from .errors import NotRead, NotWritten

_DRIVERS = {
    ".shp": "ESRI Shapefile",
    ".gpkg": "GPKG",
    ".geojson": "GeoJSON",
    ".json": "GeoJSON",
    ".fgb": "FlatGeobuf",
    ".gml": "GML",
}


def read_frame(path: str | os.PathLike[str], layer: str | None = None) -> gpd.GeoDataFrame:
    """Read a layer of anything that GDAL reads. Raises NotRead."""
    name = os.fspath(path)
    if not os.path.exists(name):
        raise NotRead(name, "there is no such file")
    try:
        return gpd.read_file(name, **({"layer": layer} if layer else {}))
    except Exception as error:
        raise NotRead(name, str(error)) from error


def is_topology(path: str | os.PathLike[str]) -> bool:
    """Tell by its name and first bytes whether a file is a TopoJSON text."""
    if Path(path).suffix.lower() not in (".json", ".topojson"):
        return False
    try:
        with open(path, "rb") as file:
            return b'"Topology"' in file.read(4096) or b'"Topology"' in _tail(file)
    except OSError:
        return False


def _tail(file: Any) -> bytes:
    file.seek(0, os.SEEK_END)
    file.seek(max(0, file.tell() - 4096))
    tail: bytes = file.read()
    return tail


def write_bytes(path: str | os.PathLike[str], content: bytes) -> None:
    """Write a file: to a temporary one beside it, then by its name. Raises NotWritten."""

    def write(place: Path) -> None:
        with open(place, "wb") as file:
            file.write(content)
            file.flush()
            os.fsync(file.fileno())

    write_beside(path, write)


def write_beside(path: str | os.PathLike[str], write: Callable[[Path], None]) -> None:
    """Let ``write`` make a file, or several of one stem, in a folder beside; then take their names.

    Raises NotWritten where that fails; nothing is left beside, and what stood there stands.
    """
    goal = Path(path)
    try:
        folder = Path(tempfile.mkdtemp(prefix=f".{goal.name}.", dir=goal.parent))
    except OSError as error:
        raise NotWritten(str(goal), str(error.strerror)) from error
    try:
        write(folder / goal.name)
        made = sorted(folder.iterdir(), key=lambda file: file.name == goal.name)
        if not any(file.name == goal.name for file in made):
            raise NotWritten(str(goal), "nothing was written")
        for file in made:
            os.replace(file, goal.parent / file.name)
    except OSError as error:
        reason = error.strerror or errno.errorcode.get(error.errno or 0, str(error))
        raise NotWritten(str(goal), reason) from error
    finally:
        shutil.rmtree(folder, ignore_errors=True)


def write_frame(
    frame: gpd.GeoDataFrame, path: str | os.PathLike[str], layer: str | None = None
) -> None:
    """Write a GeoDataFrame in the format of its name's ending, and read back how many rows it has.

    Raises NotWritten where the ending is none of those known, or where the rows differ.
    """
    driver = _DRIVERS.get(Path(path).suffix.lower())
    if driver is None:
        raise NotWritten(os.fspath(path), f"no format for the ending {Path(path).suffix!r}")

    def write(place: Path) -> None:
        try:
            frame.to_file(place, driver=driver, **({"layer": layer} if layer else {}))
            count = _count(place)
        except OSError:
            raise
        except Exception as error:
            raise NotWritten(os.fspath(path), str(error)) from error
        if count != len(frame):
            raise NotWritten(os.fspath(path), f"{count} of {len(frame)} rows were written")

    write_beside(path, write)


def _count(place: Path) -> int:
    import fiona

    with fiona.open(place) as layer:
        return len(layer)
