"""Block error rates and bit error rates against E_s/N_0, by any executor of concurrent.futures.

`python3 -m gomzelat.campaign --help` says how to run one from a shell. In Python:

>>> from concurrent.futures import ThreadPoolExecutor
>>> points = [Point(Curve("1/2", 100, 1600), snr) for snr in (0.0, 6.0)]
>>> with ThreadPoolExecutor() as pool:
...     results = {it.point: it.counts for it in Campaign(pool, Stop(errors=10, blocks=50)).run(points)}
>>> [results[it].errors for it in points]
[10, 0]
"""

from .blocks import RECORD, noise_of, run_block, run_blocks
from .counts import Counts, counted, wilson
from .curves import DEFAULT, Curve, Point, dump, load
from .executors import Here, executor
from .picture import draw
from .running import Campaign, Progress
from .stopping import Stop
from .table import Place, read, summed, write

__all__ = [
    "DEFAULT",
    "RECORD",
    "Campaign",
    "Counts",
    "Curve",
    "Here",
    "Place",
    "Point",
    "Progress",
    "Stop",
    "counted",
    "draw",
    "dump",
    "executor",
    "load",
    "noise_of",
    "read",
    "run_block",
    "run_blocks",
    "summed",
    "wilson",
    "write",
]
