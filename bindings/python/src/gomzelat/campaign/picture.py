"""A campaign's picture: rates of block errors against E_s/N_0."""

from __future__ import annotations

from collections.abc import Mapping
from pathlib import Path
from typing import Any

import numpy as np

from .counts import Counts, wilson
from .curves import Curve, Point


_MARKERS = "os^Dv*"
_MARKS = "shades: Wilson, 95 %\ndotted: Shannon limit"


def _by_curve(results: Mapping[Point, Counts]) -> dict[Curve, list[tuple[float, Counts]]]:
    curves: dict[Curve, list[tuple[float, Counts]]] = {}
    for point, counts in results.items():
        if counts.blocks:
            curves.setdefault(point.curve, []).append((point.snr, counts))
    return {curve: sorted(it, key=lambda pair: pair[0]) for curve, it in curves.items()}


def _draw(axes: Any, curve: Curve, at: list[tuple[float, Counts]], style: dict[str, str]) -> None:
    snr = [snr for snr, _ in at]
    rates = np.array([counts.block_error_rate for _, counts in at])
    bounds = np.array([wilson(counts.errors, counts.blocks) for _, counts in at])
    seen = rates > 0
    name = f"{curve.name}, limit {curve.shannon_limit():.1f} dB"
    axes.semilogy(np.array(snr)[seen], rates[seen], markersize=4, label=name, **style)
    axes.fill_between(
        snr, np.maximum(bounds[:, 0], 1e-9), bounds[:, 1], color=style["color"], alpha=0.15, linewidth=0
    )
    undetected = np.array([counts.undetected / counts.blocks for _, counts in at])
    if undetected.any():
        found = undetected > 0
        label = f"{curve.name}, undetected"
        axes.semilogy(np.array(snr)[found], undetected[found], "x", color=style["color"], label=label)
    axes.axvline(curve.shannon_limit(), color=style["color"], linewidth=0.8, linestyle=":")


def draw(results: Mapping[Point, Counts], file: str | Path, title: str = "", floor: float = 1e-3) -> None:
    """Draw the rates of block errors, with their Wilson intervals for 95 % as shades, errors that no check told as
    crosses, and, dotted in its colour, the Shannon limit of each curve's efficiency. Where no error was seen there is a
    shade alone.

    Parameters
    ----------
    results : mapping from Point to Counts
        What `summed` or a campaign gives.
    file : str or Path
        Where the picture is written; its ending says how, as .svg, .png or .pdf.
    floor : float
        The lowest rate that the picture has room for.
    """
    import matplotlib

    matplotlib.use("Agg")
    from matplotlib import pyplot

    # The same results make the same file.
    with matplotlib.rc_context({"svg.hashsalt": "gomzelat", "svg.fonttype": "none"}):
        figure, axes = pyplot.subplots(figsize=(9, 5.5))
        colors = pyplot.rcParams["axes.prop_cycle"].by_key()["color"]
        numbers: dict[tuple[Any, ...], int] = {}
        for curve, at in _by_curve(results).items():
            of_rate = (curve.length, curve.g, curve.qm, curve.nl, curve.n_ir)
            number = numbers.setdefault(of_rate, len(numbers))
            style = {"color": colors[number % len(colors)], "marker": _MARKERS[number % len(_MARKERS)]}
            _draw(axes, curve, at, {**style, "linestyle": "-" if len(curve.versions) == 1 else "--"})
        axes.set(xlabel="$E_s/N_0$ [dB]", ylabel="block error rate", title=title, ylim=(floor / 2, 1.2))
        axes.grid(True, which="both", alpha=0.25)
        axes.legend(title=_MARKS, loc="center left", bbox_to_anchor=(1.01, 0.5))
        figure.savefig(
            file, bbox_inches="tight", metadata={"Date": None} if str(file).endswith(".svg") else None
        )
        pyplot.close(figure)
