"""Which transport blocks a conformance suite has: one for each size of a code block, and the corner cases."""

from __future__ import annotations

from collections.abc import Iterator
from dataclasses import dataclass, field

from ..channel import Channel
from ..sender import plan
from ..values import Transmission


@dataclass(frozen=True)
class Case:
    """A transport block, its transmissions, and a channel and a receiver for them."""

    name: str
    what: str
    length: int
    transmissions: tuple[Transmission, ...]
    n_ir: int = 0
    channel: Channel = field(default=Channel(amp=40, noise=20, seed=1))
    windows: int = 8
    limit: int = 8


def sizes() -> list[int]:
    """Return the 188 sizes of a code block (36.212 5.1.3.2.3, table 5.1.3-3).

    Examples
    --------
    >>> len(sizes()), sizes()[0], sizes()[-1]
    (188, 40, 6144)
    """
    return [*range(40, 512, 8), *range(512, 1024, 16), *range(1024, 2048, 32), *range(2048, 6145, 64)]


def _of_size(k: int) -> Case:
    sent = Transmission(qm=2, g=2 * k, rv=0)
    return Case(f"size_{k:04}", f"one code block of {k} bits", (k - 24) // 8, (sent,))


def _first(wanted: str) -> int:
    """Returns the least length whose plan is of a kind."""
    for length in range(1, 18723):
        it = plan(length)
        kinds = {
            "two sizes": it.c_minus > 0 and it.f == 0,
            "two sizes and fillers": it.c_minus > 0 and it.f > 0,
            "two blocks and fillers": it.c == 2 and it.f > 0,
            "most fillers": it.c == 1 and it.f == 56,
        }
        if kinds[wanted]:
            return length
    raise ValueError(f"no length has {wanted}")


def _all_versions(qm: int, g: int, nl: int = 1) -> tuple[Transmission, ...]:
    return tuple(Transmission(qm, g, rv, nl) for rv in (0, 2, 3, 1))


def corners() -> list[Case]:
    """Return the cases beside those of the sizes."""
    quiet, loud = Channel(amp=40, noise=0, seed=2), Channel(amp=20, noise=28, seed=3)
    two = _first("two sizes")
    return [
        Case("fillers_least", "one byte, with fillers", 1, (Transmission(2, 120, 0),)),
        Case(
            "fillers_most",
            "as many fillers as a single code block has",
            _first("most fillers"),
            _all_versions(2, 4608),
        ),
        Case("two_sizes", "code blocks of two sizes", two, (Transmission(4, 24 * two, 0),)),
        Case(
            "two_sizes_fillers",
            "code blocks of two sizes, with fillers",
            _first("two sizes and fillers"),
            (Transmission(2, 24 * _first("two sizes and fillers"), 0),),
        ),
        Case(
            "two_blocks_fillers",
            "fillers in the first of two",
            _first("two blocks and fillers"),
            _all_versions(6, 18000),
        ),
        Case(
            "thirteen_blocks",
            "many code blocks, limited",
            9422,
            (Transmission(6, 82800, 0),),
            77328,
            Channel(40, 4, 4),
        ),
        Case("versions", "each redundancy version", 100, _all_versions(2, 1000), channel=loud),
        Case("limited", "a limited buffer, each redundancy version", 100, _all_versions(2, 1600), 1500, loud),
        Case("limited_two", "a limited buffer of two code blocks", 1000, _all_versions(4, 12000), 12800),
        Case("layers", "two layers", 100, (Transmission(4, 1600, 0, 2), Transmission(4, 1600, 2, 2))),
        Case(
            "layers_unequal",
            "two layers, code blocks that send unlike many",
            1000,
            (Transmission(6, 12012, 0, 2),),
        ),
        *(Case(f"order_{qm}", f"Q_m = {qm}", 150, (Transmission(qm, 2400, 0),)) for qm in (2, 4, 6)),
        Case(
            "wrap",
            "more bits than the buffer has: they go round it",
            10,
            (Transmission(2, 2000, 3),),
            channel=loud,
        ),
        Case(
            "wrap_limited", "round a limited buffer, from each version", 10, _all_versions(2, 600), 200, loud
        ),
        Case(
            "high_rate",
            "little more than the systematic bits",
            100,
            (Transmission(2, 880, 0),),
            channel=quiet,
        ),
        Case(
            "mixed",
            "transmissions of unlike lengths and orders",
            60,
            (Transmission(6, 540, 0), Transmission(2, 300, 2)),
        ),
        Case(
            "lost",
            "more noise than the receiver can mend",
            100,
            (Transmission(2, 1000, 0),),
            channel=Channel(5, 100, 5),
        ),
    ]


def cases() -> Iterator[Case]:
    """Give all cases, those of the sizes first."""
    yield from map(_of_size, sizes())
    yield from corners()
