"""A conformance suite written to a folder: hex files, and an index of them."""

from __future__ import annotations

import hashlib
import json
from collections.abc import Iterable
from dataclasses import asdict
from pathlib import Path
from typing import Any

import numpy as np

from .. import library
from ..arrays import Bytes, Softs, pack, unpack
from ..channel import noisy, trial_payload
from ..checks import crc24a
from ..origin import origin
from ..receiver import receive
from ..sender import codeword, plan
from ..stages import code_block, piece, select, streams
from .cases import Case
from .hexfiles import write

CONVENTIONS = {
    "files": "numbers in hex with blanks between them, as $readmemh reads them; a folder for each case",
    "payload, check, codeword": "bytes of two digits, the highest bit first; unused low bits of the last are 0",
    "block, sent": "a digit for each bit, 0 or 1; fillers are 0",
    "d0, d1, d2": "a digit for each of K + 4 bits: 0, 1, or 2 at a NULL",
    "soft": "two digits, two's complement, -127 to 127: positive where 0 is likelier",
    "check": "the 24 bits of CRC24A of the payload; those of CRC24B are the last 24 of each code block where C > 1",
    "outcome": "what this project's receiver makes of the soft values; another receiver may do better or worse",
}


def _block(folder: Path, case: Case, payload: Bytes, r: int) -> dict[str, Any]:
    pieces = [piece(case.length, r, it, case.n_ir) for it in case.transmissions]
    coded = streams(payload, r)
    sent = [select(payload, r, it, case.n_ir) for it in case.transmissions]
    return {
        **{"k": pieces[0].k, "fillers": pieces[0].fill, "k_w": pieces[0].buffer, "n_cb": pieces[0].places},
        "transmissions": [{"k_0": it.start, "e": it.bits} for it in pieces],
        "block": write(folder / f"block_{r}.hex", code_block(payload, r), 1),
        **{f"d{i}": write(folder / f"block_{r}_d{i}.hex", coded[i], 1) for i in range(3)},
        "sent": [write(folder / f"block_{r}_sent_{i}.hex", bits, 1) for i, bits in enumerate(sent)],
    }


def _outcome(case: Case, payload: Bytes, softs: list[Softs]) -> dict[str, Any]:
    told = receive(
        case.length,
        case.transmissions,
        np.concatenate(softs),
        case.n_ir,
        windows=case.windows,
        limit=case.limit,
    )
    if told.payload is not None and not np.array_equal(told.payload, payload):
        raise AssertionError(f"{case.name} is delivered as something else")
    return {"delivered": told.delivered, "transmissions": told.transmissions, "iterations": told.iterations}


def write_case(folder: Path, case: Case) -> dict[str, Any]:
    """Write the files of a case to a folder of its own, and return its entry of the index."""
    place = folder / case.name
    place.mkdir(parents=True, exist_ok=True)
    payload = trial_payload(case.length, case.channel.seed)
    sent = [codeword(payload, it, case.n_ir) for it in case.transmissions]
    softs = [
        noisy(bits, it.g, case.channel, 0, i) for i, (bits, it) in enumerate(zip(sent, case.transmissions))
    ]
    cut = plan(case.length)
    return {
        **{
            "name": case.name,
            "what": case.what,
            "folder": case.name,
            "bytes": case.length,
            "plan": asdict(cut),
        },
        "n_ir": case.n_ir,
        "transmissions": [asdict(it) for it in case.transmissions],
        "payload": write(place / "payload.hex", payload, 2),
        "check": write(place / "check.hex", pack(crc24a(unpack(payload))), 2),
        "code_blocks": [_block(place, case, payload, r) for r in range(cut.c)],
        "codewords": [write(place / f"codeword_{i}.hex", bits, 2) for i, bits in enumerate(sent)],
        "channel": asdict(case.channel),
        "softs": [write(place / f"soft_{i}.hex", values, 2) for i, values in enumerate(softs)],
        "receiver": {"windows": case.windows, "limit": case.limit},
        "outcome": _outcome(case, payload, softs),
    }


def write_suite(folder: Path, cases: Iterable[Case]) -> dict[str, Any]:
    """Write cases and their index to a folder, and return the index."""
    index = {
        "standard": "3GPP TS 36.212 5.1.1 to 5.1.5",
        "proved": origin(),
        "library": hashlib.sha256(library.path().read_bytes()).hexdigest(),
        "conventions": CONVENTIONS,
        "cases": [write_case(folder, it) for it in cases],
    }
    (folder / "index.json").write_text(json.dumps(index, indent=1) + "\n", encoding="utf-8")
    return index
