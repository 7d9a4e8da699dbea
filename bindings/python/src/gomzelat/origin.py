"""What the library was proved from: the commit of the repository and the kit that proved it."""

from __future__ import annotations

import json
import subprocess
from pathlib import Path


def _said(words: list[str], folder: str) -> str | None:
    try:
        ran = subprocess.run(words, cwd=folder, capture_output=True, text=True, check=True, timeout=60)
    except (OSError, subprocess.SubprocessError):
        return None
    return ran.stdout.strip() or None


def of_folder(folder: str) -> dict[str, str | None]:
    """Returns the commit of the repository that a folder is in, and the kit of this machine; None for what isn't known."""
    return {
        "commit": _said(["git", "describe", "--always", "--dirty", "--abbrev=40", "--exclude=*"], folder),
        "kit": _said(["rt", "version"], folder),
    }


def origin() -> dict[str, str | None]:
    """Return what this package's library was proved from: what the wheel was built with, else the state of the
    repository that contains the package.

    Returns
    -------
    dict
        `commit` of the repository, and `kit`, the prover; None for what isn't known.

    Examples
    --------
    >>> sorted(origin())
    ['commit', 'kit']
    """
    here = Path(__file__).resolve().parent
    built = here / "built.json"
    if built.exists():
        told: dict[str, str | None] = json.loads(built.read_text(encoding="utf-8"))
        return told
    return of_folder(str(here))
