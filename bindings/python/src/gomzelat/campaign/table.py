"""Results as CSV: one row for each point, which a later campaign goes on from."""

from __future__ import annotations

import csv
import os
from collections.abc import Iterable, Mapping
from dataclasses import dataclass, fields
from pathlib import Path

from .counts import Counts, wilson
from .curves import Curve, Point


@dataclass(frozen=True)
class Place:
    """What a row is about: a point, and the number of the first block that was done."""

    point: Point
    first: int = 0


_NUMBERS = ("length", "g", "qm", "nl", "n_ir", "windows", "limit")
_COUNTS = tuple(it.name for it in fields(Counts))
COLUMNS = (
    *("name", *_NUMBERS, "versions", "channel", "amp", "seed", "snr_db", "first", *_COUNTS),
    *("block_error_rate", "lower", "upper", "bit_error_rate"),
)


def _row(place: Place, counts: Counts) -> dict[str, object]:
    point, curve = place.point, place.point.curve
    lower, upper = wilson(counts.errors, counts.blocks)
    return {
        "name": curve.name,
        **{it: getattr(curve, it) for it in _NUMBERS},
        "versions": " ".join(map(str, curve.versions)),
        **{"channel": point.channel, "amp": point.amp, "seed": point.seed, "snr_db": repr(point.snr)},
        "first": place.first,
        **{it: getattr(counts, it) for it in _COUNTS},
        "block_error_rate": f"{counts.block_error_rate:.6g}",
        **{"lower": f"{lower:.6g}", "upper": f"{upper:.6g}"},
        "bit_error_rate": f"{counts.bit_error_rate(curve.length):.6g}",
    }


def _place(row: Mapping[str, str]) -> Place:
    versions = tuple(map(int, row["versions"].split()))
    curve = Curve(row["name"], versions=versions, **{it: int(row[it]) for it in _NUMBERS})
    point = Point(curve, float(row["snr_db"]), row["channel"], int(row["amp"]), int(row["seed"]))
    return Place(point, int(row["first"]))


def read(file: str | Path) -> dict[Place, Counts]:
    """Read the counts of a file, or none where there is no file.

    Raises
    ------
    ValueError
        The file is no table of a campaign.
    """
    if not Path(file).exists():
        return {}
    with open(file, newline="", encoding="utf-8") as rows:
        table = csv.DictReader(rows)
        if not set(COLUMNS) <= set(table.fieldnames or ()):
            raise ValueError(f"{file} is no table of a campaign")
        return {_place(it): Counts(*(int(it[name]) for name in _COUNTS)) for it in table}


def write(file: str | Path, results: Mapping[Place, Counts]) -> None:
    """Write counts to a file, which is either the old or the new one at any time."""
    made = Path(f"{file}.part")
    with open(made, "w", newline="", encoding="utf-8") as out:
        rows = csv.DictWriter(out, COLUMNS, lineterminator="\n")
        rows.writeheader()
        rows.writerows(_row(place, counts) for place, counts in results.items())
    os.replace(made, file)


def summed(results: Iterable[Mapping[Place, Counts]]) -> dict[Point, Counts]:
    """Return the counts of each point, over parts that were done apart. No block may be counted twice.

    Raises
    ------
    ValueError
        Two parts of a point have a block in common.
    """
    parts: dict[Point, list[tuple[int, Counts]]] = {}
    for place, counts in (it for result in results for it in result.items()):
        parts.setdefault(place.point, []).append((place.first, counts))
    for point, of_point in parts.items():
        of_point.sort(key=lambda it: it[0])
        if any(first + counts.blocks > after for (first, counts), (after, _) in zip(of_point, of_point[1:])):
            raise ValueError(f"two parts have blocks in common: {point.curve.name} at {point.snr} dB")
    return {point: sum((counts for _, counts in it), Counts()) for point, it in parts.items()}
