"""Points measured by any executor of concurrent.futures."""

from __future__ import annotations

from collections import deque
from collections.abc import Iterator, Mapping, Sequence
from concurrent.futures import FIRST_COMPLETED, Executor, Future, wait
from dataclasses import dataclass, field
from typing import Any

from .blocks import run_blocks
from .counts import Counts
from .curves import Point
from .stopping import Stop


#: With longer calls an interrupt would lose much.
_MOST_OF_A_CALL = 1000


@dataclass(frozen=True)
class Progress:
    """A point's counts so far, and whether they are all."""

    point: Point
    counts: Counts
    is_done: bool


@dataclass
class _Work:
    """The points of one curve, the lowest E_s/N_0 first, of which one is under way."""

    points: deque[Point]
    counts: Counts
    submitted: int
    pending: deque[Future[Any]] = field(default_factory=deque)


class Campaign:
    """Measures points: block `first` of each, and those after it, until `stop` says that it is enough.

    Parameters
    ----------
    executor : concurrent.futures.Executor
        What runs the blocks. The counts are the same whichever it is.
    stop : Stop
        When a point and a curve end.
    width : int
        How many calls are under way at once.
    chunk : int
        The blocks of a call, at the beginning of a point; later calls have more. The counts don't depend on it.
    first : int
        The number of the first block.
    known : mapping from Point to Counts
        What an earlier campaign came to, from the same first block on.

    Raises
    ------
    ValueError
        `width` or `chunk` is below 1, or `first` below 0.
    """

    def __init__(
        self,
        executor: Executor,
        stop: Stop,
        width: int = 8,
        chunk: int = 50,
        first: int = 0,
        known: Mapping[Point, Counts] | None = None,
    ) -> None:
        if width < 1 or chunk < 1 or first < 0:
            raise ValueError("a campaign has one call and block at least, and blocks are counted from 0")
        self.executor, self.stop, self.width, self.chunk, self.first = executor, stop, width, chunk, first
        self.known = known or {}

    def run(self, points: Sequence[Point]) -> Iterator[Progress]:
        """Yield the counts of the points as they grow, and of each at last with `is_done`.

        Examples
        --------
        >>> from concurrent.futures import ThreadPoolExecutor
        >>> from gomzelat.campaign import Curve, Point
        >>> with ThreadPoolExecutor() as pool:
        ...     [last] = Campaign(pool, Stop(blocks=20)).run([Point(Curve("1/3", 100, 2400), snr=6.0)])
        >>> last.counts.blocks, last.counts.errors, last.is_done
        (20, 0, True)
        """
        curves: dict[tuple[Any, ...], list[Point]] = {}
        for point in points:
            curves.setdefault((point.curve, point.channel, point.amp, point.seed), []).append(point)
        works = [self._begun(deque(sorted(it, key=lambda point: point.snr))) for it in curves.values()]
        while works:
            for work in list(works):
                yield from self._taken(work)
                if not work.points:
                    works.remove(work)
            self._submit(works)
            # What is done already but waits for an earlier call of its point wakes nobody.
            under_way = [it for work in works for it in work.pending if not it.done()]
            if under_way:
                wait(under_way, return_when=FIRST_COMPLETED)

    def _begun(self, points: deque[Point]) -> _Work:
        counts = self.known.get(points[0], Counts()) if points else Counts()
        return _Work(points, counts, self.first + counts.blocks)

    def _taken(self, work: _Work) -> Iterator[Progress]:
        """Counts what is done, in the order of the blocks, and goes on to the next point where that is enough."""
        while work.points:
            if not self.stop.ends(work.counts):
                if not work.pending or not work.pending[0].done():
                    return
                work.counts = self.stop.taken(work.counts, work.pending.popleft().result())
            point, is_done = work.points[0], self.stop.ends(work.counts)
            yield Progress(point, work.counts, is_done)
            if is_done:
                self._next_point(work)

    def _next_point(self, work: _Work) -> None:
        for future in work.pending:
            future.cancel()
        ended = work.counts
        work.points.popleft()
        if self.stop.ends_curve(ended):
            work.points.clear()
        begun = self._begun(work.points)
        work.counts, work.submitted, work.pending = begun.counts, begun.submitted, begun.pending

    def _submit(self, works: list[_Work]) -> None:
        """Keeps the executor busy, with the curve that has the fewest calls first, and few that wait for an earlier one."""
        under_way = sum(not it.done() for work in works for it in work.pending)
        room = 4 * self.width - sum(len(it.pending) for it in works)
        for _ in range(min(room, self.width - under_way)):
            left = [it for it in works if self._rest(it) > 0]
            if not left:
                return
            work = min(left, key=lambda it: len(it.pending))
            count = self._next_count(work)
            work.pending.append(self.executor.submit(run_blocks, work.points[0], work.submitted, count))
            work.submitted += count

    def _next_count(self, work: _Work) -> int:
        """Returns the blocks of a point's next call: more where many are done, so that calls cost little beside them and
        what is done in vain at the end is little beside what was needed; and fewer toward the end, for all to share."""
        rest = self._rest(work)
        share = min(work.counts.blocks // (4 * self.width), rest // self.width, _MOST_OF_A_CALL)
        return min(rest, max(self.chunk, share))

    def _rest(self, work: _Work) -> int:
        return self.first + self.stop.blocks - work.submitted
