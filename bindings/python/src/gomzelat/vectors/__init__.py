"""Conformance vectors for whoever writes a coder of their own: `python3 -m gomzelat.vectors FOLDER`."""

from .cases import Case, cases, corners, sizes
from .hexfiles import read
from .suite import CONVENTIONS, write_case, write_suite

__all__ = ["CONVENTIONS", "Case", "cases", "corners", "read", "sizes", "write_case", "write_suite"]
