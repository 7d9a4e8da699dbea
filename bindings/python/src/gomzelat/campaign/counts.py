"""Counts of block results, and confidence intervals of rates."""

from __future__ import annotations

import math
from dataclasses import dataclass, fields
from typing import Any

import numpy as np
import numpy.typing as npt


@dataclass(frozen=True)
class Counts:
    """Blocks and their results; `errors` are those that weren't delivered as they were sent, `undetected` those among
    them that were delivered as something else, `bit_errors` wrong payload bits."""

    blocks: int = 0
    errors: int = 0
    undetected: int = 0
    bit_errors: int = 0
    transmissions: int = 0
    iterations: int = 0

    def __add__(self, other: Counts) -> Counts:
        return Counts(*(getattr(self, it.name) + getattr(other, it.name) for it in fields(self)))

    @property
    def block_error_rate(self) -> float:
        """The share of blocks that weren't delivered as they were sent."""
        return self.errors / self.blocks if self.blocks else math.nan

    def bit_error_rate(self, length: int) -> float:
        """Return the share of wrong bits of payloads of so many bytes."""
        return self.bit_errors / (8 * length * self.blocks) if self.blocks else math.nan


def counted(records: npt.NDArray[Any]) -> Counts:
    """Return the counts of records."""
    told = {"error": "errors"}
    names = records.dtype.names or ()
    return Counts(len(records), **{told.get(it, it): int(records[it].sum(dtype=np.int64)) for it in names})


def wilson(errors: int, blocks: int, sigmas: float = 1.959964) -> tuple[float, float]:
    """Return the Wilson interval of a rate, by default for 95 %.

    Examples
    --------
    >>> [round(it, 4) for it in wilson(10, 100)]
    [0.0552, 0.1744]
    """
    if blocks == 0:
        return 0.0, 1.0
    rate, square = errors / blocks, sigmas * sigmas
    middle = (rate + square / (2 * blocks)) / (1 + square / blocks)
    half = (
        sigmas
        * math.sqrt(rate * (1 - rate) / blocks + square / (4 * blocks * blocks))
        / (1 + square / blocks)
    )
    return max(0.0, middle - half), min(1.0, middle + half)
