"""The calls of libgomzelat.so: where the file is, and its C declarations.

It loads the file that GOMZELAT_LIBRARY names, else the one in this package, where a wheel has it, else the one in the
repository's bindings/out, where bindings/build puts it.
"""

from __future__ import annotations

import ctypes
import os
from functools import lru_cache
from pathlib import Path
from typing import Any

import numpy as np
import numpy.typing as npt

from .refused import Answer, Refused

_SIZE, _U32, _U64, _MEMORY = ctypes.c_size_t, ctypes.c_uint32, ctypes.c_uint64, ctypes.c_void_p


def _structure(name: str, **fields: Any) -> type[ctypes.Structure]:
    return type(name, (ctypes.Structure,), {"_fields_": list(fields.items())})


CTransmission = _structure("CTransmission", qm=_U32, nl=_U32, g=_U32, rv=_U32)
CPlan = _structure("CPlan", c=_SIZE, k_plus=_SIZE, k_minus=_SIZE, c_plus=_SIZE, c_minus=_SIZE, f=_SIZE)
CPiece = _structure("CPiece", k=_SIZE, fill=_SIZE, buffer=_SIZE, places=_SIZE, start=_SIZE, bits=_SIZE)
CReceiver = _structure("CReceiver", n_ir=_U32, windows=_U32, limit=_U32)
COutcome = _structure("COutcome", delivered=_U32, transmissions=_SIZE, iterations=_SIZE)
CSizes = _structure("CSizes", cells=_SIZE, blocks=_SIZE, bits=_SIZE)
CResult = _structure("CResult", passed=_U32, iterations=_SIZE)
CCode = _structure("CCode", k=_SIZE, fill=_SIZE, check=_U32)
CChannel = _structure("CChannel", seed=_U64, amp=_U32, noise=_U32)
CScrambling = _structure("CScrambling", rnti=_U32, q=_U32, slot=_U32, cell=_U32)

_ARGUMENTS: dict[str, list[Any]] = {
    "codeword": [_MEMORY, _SIZE, CTransmission, _U32, _MEMORY, _SIZE],
    "codewords": [_MEMORY, _SIZE, _MEMORY, _SIZE, _U32, _MEMORY, _SIZE],
    "plan": [_SIZE, _MEMORY],
    "code_block": [_MEMORY, _SIZE, _SIZE, _MEMORY, _SIZE],
    "streams": [_MEMORY, _SIZE, _SIZE, _MEMORY, _SIZE],
    "spots": [_SIZE, _SIZE, _MEMORY, _SIZE],
    "piece": [_SIZE, _SIZE, CTransmission, _U32, _MEMORY],
    "select": [_MEMORY, _SIZE, _SIZE, CTransmission, _U32, _MEMORY, _SIZE],
    "crc24a": [_MEMORY, _SIZE, _MEMORY, _SIZE],
    "crc24b": [_MEMORY, _SIZE, _MEMORY, _SIZE],
    "receive": [_SIZE, _MEMORY, _SIZE, CReceiver, _MEMORY, _SIZE, _MEMORY, _SIZE, _MEMORY],
    "sizes": [_SIZE, _MEMORY],
    "combine": [_SIZE, CTransmission, _U32, _MEMORY, _SIZE, _MEMORY, _SIZE],
    "decode": [_SIZE, CReceiver, _MEMORY, _SIZE, _MEMORY, _SIZE, _MEMORY, _SIZE, _MEMORY, _SIZE, _MEMORY],
    "decode_block": [CCode, _U32, _U32, _MEMORY, _SIZE, _MEMORY, _SIZE, _MEMORY],
    "noisy": [_MEMORY, _SIZE, _SIZE, CChannel, _U32, _U32, _MEMORY, _SIZE],
    "trial_payload": [_U64, _U32, _MEMORY, _SIZE],
    "init": [CScrambling, _MEMORY],
    "scramble": [_MEMORY, _SIZE, _SIZE, CScrambling],
    "descramble": [_MEMORY, _SIZE, CScrambling],
    "map": [_MEMORY, _SIZE, _SIZE, _U32, _MEMORY, _SIZE],
    "demap": [_MEMORY, _SIZE, _U32, _U32, _MEMORY, _SIZE],
    "version": [],
}
#: The edition of these declarations, as in gomzelat.h.
VERSION = 2


def path() -> Path:
    """Returns the file of the library."""
    named = os.environ.get("GOMZELAT_LIBRARY")
    here = Path(__file__).resolve().parent
    places = [Path(named)] if named else [here / "libgomzelat.so", here.parents[2] / "out" / "libgomzelat.so"]
    found = next((it for it in places if it.exists()), None)
    if found is None:
        tried = ", ".join(map(str, places))
        raise OSError(
            f"there is no library at {tried}: run bindings/build, or name the file in GOMZELAT_LIBRARY"
        )
    return found


@lru_cache(maxsize=None)
def _loaded() -> ctypes.CDLL:
    loaded = ctypes.CDLL(str(path()))
    # The first edition didn't tell.
    edition = loaded.gomzelat_version() if hasattr(loaded, "gomzelat_version") else 1
    if edition != VERSION:
        raise OSError(
            f"{path()} is of edition {edition}, and this package calls edition {VERSION}: "
            "bindings/build makes it, and GOMZELAT_LIBRARY names it"
        )
    return loaded


@lru_cache(maxsize=None)
def _function(name: str) -> Any:
    try:
        function = getattr(_loaded(), f"gomzelat_{name}")
    except AttributeError:
        raise OSError(f"{path()} has no gomzelat_{name}: it is no whole library") from None
    function.argtypes, function.restype = _ARGUMENTS[name], _U32
    return function


def call(name: str, *arguments: Any) -> None:
    """Calls a function of the library, with the GIL released, and raises its error."""
    answer = _function(name)(*arguments)
    if answer == Answer.NO_MEMORY:
        raise MemoryError
    if answer:
        raise Refused(answer)


def at(array: npt.NDArray[Any]) -> int | None:
    """Returns the address of an array's items, which may be none."""
    return array.ctypes.data if array.size else None


def result_type() -> np.dtype[Any]:
    """Returns the type of an entry of a code block, as C lays it out."""
    return np.dtype(CResult)
