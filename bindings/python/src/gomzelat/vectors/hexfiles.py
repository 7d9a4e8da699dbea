"""Hex files, as $readmemh of Verilog reads them: numbers of fixed width with blanks between them."""

from __future__ import annotations

from pathlib import Path

import numpy as np
import numpy.typing as npt


def write(file: Path, values: npt.ArrayLike, digits: int) -> str:
    """Write numbers of so many digits, negative ones in two's complement, and return the file's name.

    Examples
    --------
    >>> import tempfile
    >>> with tempfile.TemporaryDirectory() as folder:
    ...     _ = write(Path(folder, "a.hex"), [1, -1, 40], 2)
    ...     Path(folder, "a.hex").read_text(), read(Path(folder, "a.hex")).tolist()
    ('01 ff 28\\n', [1, 255, 40])
    """
    numbers = np.asarray(values, np.int64).reshape(-1) & (16**digits - 1)
    words = [f"{it:0{digits}x}" for it in numbers.tolist()]
    lines = [" ".join(words[at : at + 32]) for at in range(0, len(words), 32)]
    file.write_text("\n".join(lines) + "\n", encoding="ascii")
    return file.name


def read(file: Path) -> npt.NDArray[np.int64]:
    """Read the numbers of a file."""
    return np.array([int(it, 16) for it in file.read_text(encoding="ascii").split()], np.int64)
