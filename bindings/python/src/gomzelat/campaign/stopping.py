"""When enough blocks of a point are done: by their numbers, so that the counts are the same however they were divided."""

from __future__ import annotations

from dataclasses import dataclass
from typing import Any

import numpy as np
import numpy.typing as npt

from .counts import Counts, counted


@dataclass(frozen=True)
class Stop:
    """A point ends with the block that is its `errors`-th error, or after `blocks` blocks; a curve with the first point
    whose rate of block errors is below `floor`, from the lowest E_s/N_0 on."""

    errors: int = 100
    blocks: int = 100_000
    floor: float = 0.0

    def __post_init__(self) -> None:
        if self.errors < 1 or self.blocks < 1:
            raise ValueError("a point ends with one error or block at least")

    def ends(self, counts: Counts) -> bool:
        """Return whether a point with these counts is done."""
        return counts.errors >= self.errors or counts.blocks >= self.blocks

    def ends_curve(self, counts: Counts) -> bool:
        """Return whether the points above one with these counts are left out."""
        return counts.block_error_rate < self.floor

    def taken(self, counts: Counts, records: npt.NDArray[Any]) -> Counts:
        """Return the counts with the records that follow, up to the one that ends the point."""
        reached = counts.errors + np.cumsum(records["error"]) >= self.errors
        count = int(reached.argmax()) + 1 if reached.any() else len(records)
        return counts + counted(records[: min(count, self.blocks - counts.blocks)])
