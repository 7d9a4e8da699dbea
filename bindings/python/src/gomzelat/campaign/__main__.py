"""Measures block error rates against E_s/N_0, and draws them.

    python3 -m gomzelat.campaign --csv rates.csv --picture rates.svg

What is in the CSV already is gone on from. Blocks are numbered, so that any of them can be done anywhere: with --first
a run does others, into a CSV of its own, and --add puts them together.
"""

from __future__ import annotations

import argparse
import sys
import time
from pathlib import Path

import numpy as np
from tqdm import tqdm

from .curves import CHANNELS, DEFAULT, Curve, Point, dump, load
from .executors import NAMES, executor
from .picture import draw
from .running import Campaign
from .stopping import Stop
from .table import Place, read, summed, write

SAVED_EVERY = 10.0


def _arguments() -> argparse.ArgumentParser:
    words = argparse.ArgumentParser(
        prog="python3 -m gomzelat.campaign",
        description=__doc__,
        formatter_class=argparse.RawDescriptionHelpFormatter,
    )
    words.add_argument("--csv", type=Path, help="where results are kept; a later run goes on from them")
    words.add_argument("--picture", type=Path, help="where a picture is drawn: .svg, .png, .pdf")
    words.add_argument("--title", default="", help="what stands above the picture")
    words.add_argument(
        "--add", nargs="*", default=[], type=Path, metavar="CSV", help="other parts for the picture"
    )
    words.add_argument(
        "--curves", type=Path, metavar="JSON", help="what is measured, as --dump-curves writes it"
    )
    words.add_argument(
        "--dump-curves", type=Path, metavar="JSON", help="write the curves of this run and end"
    )
    words.add_argument(
        "--snr",
        type=float,
        nargs=3,
        default=(-7, 6, 0.5),
        metavar=("FROM", "TO", "STEP"),
        help="E_s/N_0 in dB",
    )
    words.add_argument("--errors", type=int, default=100, help="a point ends with so many block errors (100)")
    words.add_argument("--blocks", type=int, default=100_000, help="or after so many blocks (100000)")
    words.add_argument(
        "--floor", type=float, default=1e-3, help="a curve ends below this rate of block errors (0.001)"
    )
    words.add_argument("--first", type=int, default=0, help="the number of the first block (0)")
    words.add_argument(
        "--channel", choices=CHANNELS, default="awgn", help="numpy's noise, or whole numbers"
    )
    words.add_argument("--amp", type=int, default=20, help="the soft value of a bit without noise (20)")
    words.add_argument("--seed", type=int, default=1)
    words.add_argument(
        "--executor", choices=NAMES, default="processes", help="what runs the blocks (processes)"
    )
    words.add_argument("--workers", type=int, help="how many processes (as many as there are processors)")
    words.add_argument(
        "--scheduler", metavar="ADDRESS", help="dask's scheduler; else a cluster of this machine"
    )
    words.add_argument(
        "--chunk", type=int, default=50, help="blocks of a point's first calls (50); results don't depend on it"
    )
    words.add_argument("--quiet", action="store_true", help="no progress bar")
    return words


def _measure(given: argparse.Namespace, points: list[Point]) -> None:
    """Measures the points, and keeps what is known in the CSV, also where it is interrupted."""
    results = read(given.csv)
    known = {place.point: counts for place, counts in results.items() if place.first == given.first}
    stop = Stop(given.errors, given.blocks, given.floor)
    saved = time.monotonic()
    try:
        with executor(given.executor, given.workers, given.scheduler) as (pool, width):
            campaign = Campaign(pool, stop, width, given.chunk, given.first, known)
            with tqdm(total=len(points), unit="point", disable=given.quiet) as bar:
                for it in campaign.run(points):
                    results[Place(it.point, given.first)] = it.counts
                    bar.set_postfix_str(
                        f"{it.point.curve.name} {it.point.snr:g} dB {it.counts.errors}/{it.counts.blocks}"
                    )
                    bar.update(it.is_done)
                    if time.monotonic() - saved > SAVED_EVERY:
                        write(given.csv, results)
                        saved = time.monotonic()
    finally:
        write(given.csv, results)


def _points(curves: list[Curve], given: argparse.Namespace) -> list[Point]:
    first, last, step = given.snr
    if not step > 0 or last < first:
        raise ValueError("E_s/N_0 rises from FROM to TO by a STEP above 0")
    levels = [round(float(it), 6) for it in np.arange(first, last + step / 2, step)]
    return [Point(curve, snr, given.channel, given.amp, given.seed) for curve in curves for snr in levels]


def main() -> int:
    words = _arguments()
    given = words.parse_args()
    curves = load(given.curves) if given.curves else DEFAULT
    if given.dump_curves:
        dump(curves, given.dump_curves)
        return 0
    if given.csv is None:
        words.error("--csv is missing")
    try:
        _measure(given, _points(curves, given))
    except ValueError as error:
        words.error(str(error))
    if given.picture:
        totals = summed([read(given.csv), *map(read, given.add)])
        order = {(curve, given.channel, given.amp, given.seed): number for number, curve in enumerate(curves)}
        drawn = [it for it in totals if (it.curve, it.channel, it.amp, it.seed) in order]
        drawn.sort(key=lambda it: order[it.curve, it.channel, it.amp, it.seed])
        draw({it: totals[it] for it in drawn}, given.picture, given.title, max(given.floor, 1e-6))
    return 0


if __name__ == "__main__":
    sys.exit(main())
