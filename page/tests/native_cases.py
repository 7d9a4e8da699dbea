"""Random cases and what the native library makes of them, a line of JSON each, for native_test.mjs: of each call that
the page makes, the SHA-256 of what it gives.

    PYTHONPATH=bindings/python:bindings/python/src python3 page/tests/native_cases.py 200 1
"""

from __future__ import annotations

import json
import random
import sys
from hashlib import sha256
from typing import Any

import numpy as np
from compare import Case, drawn

from gomzelat import (
    Refused,
    Scrambling,
    code_block,
    demap_points,
    descramble,
    map_bits,
    piece,
    plan,
    receive,
    scramble,
    scrambling_init,
    select,
    spots,
    streams,
)


def digest(values: Any, kind: str) -> str:
    return sha256(np.ascontiguousarray(values, dtype=kind).tobytes()).hexdigest()


def of_stages(case: Case, r: int) -> dict[str, Any]:
    """The calls that answer for one code block, in the last transmission."""
    length, last = len(case.sent), case.transmissions[-1]
    cut, told = plan(length), piece(length, r, last, case.n_ir)
    # The library's own numbers of places: a NULL is 2^32 - 1.
    pairs = spots(length, r).astype(np.int64)
    numbers = np.where(pairs[:, 0] < 0, 2**32 - 1, 65536 * pairs[:, 0] + pairs[:, 1])
    return {
        "plan": [cut.c, cut.k_plus, cut.k_minus, cut.c_plus, cut.c_minus, cut.f],
        "piece": [told.k, told.fill, told.buffer, told.places, told.start, told.bits],
        "code_block": digest(code_block(case.sent, r), "<u1"),
        "streams": digest(streams(case.sent, r), "<u1"),
        "spots": digest(numbers, "<u4"),
        "select": digest(select(case.sent, r, last, case.n_ir), "<u1"),
    }


def of_signals(case: Case, word: bytes, by: Scrambling) -> dict[str, Any]:
    """The calls of 36.211, for the last transmission."""
    last, amp = case.transmissions[-1], case.channel.amp
    scrambled = scramble(word, by, last.g)
    points = map_bits(scrambled, last.qm, last.g)
    values = demap_points(points * amp, last.qm, amp)
    return {
        "init": scrambling_init(by),
        "scramble": digest(scrambled, "<u1"),
        "map": digest(np.column_stack([points.real, points.imag]), "<i4"),
        "demap": digest(values, "<i1"),
        "descramble": digest(descramble(values, by), "<i1"),
    }


def answers(case: Case, r: int, by: Scrambling) -> dict[str, Any]:
    try:
        words, softs = case.soft()
        outcome = receive(
            len(case.sent), case.transmissions, np.concatenate(softs), case.n_ir, case.windows, case.limit
        )
    except Refused as refused:
        return {"refused": int(refused.number)}
    payload = b"" if outcome.payload is None else outcome.payload.tobytes()
    return {
        "codewords": [sha256(it).hexdigest() for it in words],
        "noisy": [digest(it, "<i1") for it in softs],
        "receive": [outcome.delivered, outcome.transmissions, outcome.iterations, sha256(payload).hexdigest()],
        **of_stages(case, r),
        **of_signals(case, words[-1], by),
    }


def main() -> None:
    count, seed = int(sys.argv[1]), int(sys.argv[2])
    source = random.Random(seed)
    for _ in range(count):
        case = drawn(source)
        r = source.randrange(plan(len(case.sent)).c)
        by = Scrambling(source.randrange(65536), source.randrange(2), source.randrange(20), source.randrange(504))
        asked = {
            "payload": case.sent.hex(),
            "transmissions": [{"qm": it.qm, "nl": it.nl, "g": it.g, "rv": it.rv} for it in case.transmissions],
            "nIr": case.n_ir,
            "channel": {"amp": case.channel.amp, "noise": case.channel.noise, "seed": str(case.channel.seed)},
            "receiver": {"nIr": case.n_ir, "windows": case.windows, "limit": case.limit},
            "scrambling": {"rnti": by.rnti, "q": by.q, "slot": by.slot, "cell": by.cell},
            "block": r,
        }
        print(json.dumps({"asked": asked, "answers": answers(case, r, by)}))


if __name__ == "__main__":
    main()
