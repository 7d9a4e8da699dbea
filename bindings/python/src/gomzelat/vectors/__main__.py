"""Writes a conformance suite: for each size of a code block, and for corner cases, a payload and all that becomes of it
(36.212 5.1.1 to 5.1.5), soft values with noise, and what this project's receiver makes of them.

    python3 -m gomzelat.vectors vectors

FOLDER/index.json names the files of each case and says what they hold; $readmemh of Verilog reads them.
"""

from __future__ import annotations

import argparse
import sys
from fnmatch import fnmatch
from pathlib import Path

from tqdm import tqdm

from .cases import cases
from .suite import write_suite


def main() -> int:
    words = argparse.ArgumentParser(
        prog="python3 -m gomzelat.vectors",
        description=__doc__,
        formatter_class=argparse.RawDescriptionHelpFormatter,
    )
    words.add_argument(
        "folder", type=Path, help="where the suite is written; it is made where it isn't there"
    )
    words.add_argument(
        "--only", default="*", metavar="PATTERN", help="the cases with such names, as 'limited*'"
    )
    words.add_argument("--quiet", action="store_true", help="no progress bar")
    given = words.parse_args()
    given.folder.mkdir(parents=True, exist_ok=True)
    chosen = [it for it in cases() if fnmatch(it.name, given.only)]
    index = write_suite(given.folder, tqdm(chosen, unit="case", disable=given.quiet))
    files = sum(1 for _ in given.folder.glob("*/*.hex"))
    delivered = sum(it["outcome"]["delivered"] for it in index["cases"])
    print(f"{len(index['cases'])} cases in {files} files of hex, of which {delivered} cases are delivered")
    return 0


if __name__ == "__main__":
    sys.exit(main())
