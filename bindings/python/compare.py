"""Random cases through the library and through the program: codewords, soft values, payloads, and what the report says
have to be equal. Ends with 1 where something differs.

    python3 compare.py PROGRAM --cases 100 --seed 1
"""

from __future__ import annotations

import argparse
import random
import subprocess
import sys
from collections import Counter
from dataclasses import dataclass, replace

import numpy as np

from gomzelat import Answer, Channel, Refused, Transmission, codewords, noisy, receive, trial_payload


@dataclass(frozen=True)
class Case:
    sent: bytes
    transmissions: tuple[Transmission, ...]
    n_ir: int
    channel: Channel
    windows: int
    limit: int

    def soft(self) -> tuple[list[bytes], list[np.ndarray]]:
        """Returns the codewords of all transmissions, and their soft values."""
        sent = codewords(self.sent, self.transmissions, self.n_ir)
        pairs = enumerate(zip(sent, self.transmissions))
        softs = [noisy(bits, it.g, self.channel, 0, number) for number, (bits, it) in pairs]
        return [it.tobytes() for it in sent], softs


def drawn(random: random.Random) -> Case:
    """Returns a case, of which most have a buffer that fits."""
    length = random.choice([1, 2, random.randint(1, 100), random.randint(1, 3000), random.randint(1, 18722)])
    qm, nl = random.choice([2, 4, 6]), random.choice([1, 2])
    rate = random.uniform(0.25, 0.95)
    g = max(1, round((8 * length + 24) / rate / (qm * nl))) * qm * nl
    count = random.randint(1, 8 if length < 1000 else 2)
    versions = [0, *(random.randint(0, 3) for _ in range(count - 1))]
    n_ir = random.choice([0, 0, 60 * length, 20 * length, random.randint(1, 1_000_000)])
    channel = Channel(random.randint(20, 60), random.randint(0, 40), random.getrandbits(64))
    return Case(
        trial_payload(length, random.getrandbits(64)).tobytes(),
        tuple(Transmission(qm, min(g, 1_000_000 // 12 * 12), rv, nl) for rv in versions),
        min(n_ir, 1_000_000),
        channel,
        random.choice([1, 5, 8, 16, 32, 64]),
        random.randint(1, 8),
    )


def run(program: str, words: list[str], data: bytes) -> tuple[int, bytes, str]:
    ran = subprocess.run([program, *words], input=data, capture_output=True, check=False)
    return ran.returncode, ran.stdout, ran.stderr.decode()


def blocks_of(stream: bytes, count: int, size: int) -> list[bytes]:
    """Returns the transmissions of the one block of a stream, each of so many bytes."""
    at = 18 + count + 4
    return [stream[at + i * size : at + (i + 1) * size] for i in range(count)]


def encoded(program: str, case: Case) -> tuple[int, bytes, str]:
    """Runs the program's encoder."""
    one = case.transmissions[0]
    words = [f"tb={len(case.sent)}", f"g={one.g}", f"qm={one.qm}", f"nl={one.nl}", f"nir={case.n_ir}"]
    words.append("rv=" + ",".join(str(it.rv) for it in case.transmissions))
    return run(program, ["encode", *words], case.sent)


def received(program: str, case: Case, soft: bytes, softs: list[np.ndarray]) -> tuple[str, list[str]]:
    """Returns what both receivers come to, and what differs."""
    status, out, report = run(program, ["decode", f"windows={case.windows}", f"limit={case.limit}"], soft)
    told = receive(
        len(case.sent),
        case.transmissions,
        np.concatenate(softs),
        case.n_ir,
        windows=case.windows,
        limit=case.limit,
    )
    effort = f"transmissions {told.transmissions} iterations {told.iterations}"
    line = (
        f"block 0 delivered bytes {len(case.sent)} {effort}" if told.delivered else f"block 0 failed {effort}"
    )
    found = []
    if report.splitlines()[0] != line:
        found.append(f"told {line!r}, and there {report.splitlines()[0]!r}")
    payload = b"" if told.payload is None else told.payload.tobytes()
    if out != payload or (status == 0) != told.delivered:
        found.append("another payload")
    return "delivered" if told.delivered else "failed", found


def differences(program: str, case: Case) -> tuple[str, list[str]]:
    """Returns what the case came to, and what differs."""
    one, count = case.transmissions[0], len(case.transmissions)
    status, hard, report = encoded(program, case)
    try:
        sent, softs = case.soft()
    except Refused as refused:
        # The program wants a buffer that fits each shorter payload too, which need no more.
        same = (refused.number, status) == (Answer.BAD_BUFFER, 2)
        return "refused", [] if same else [f"refused with {refused.number}, and there {status}"]
    if status != 0:
        return "refused", [f"encode ended with {status}: {report}"]
    found = [] if blocks_of(hard, count, (one.g + 7) // 8) == sent else ["other codewords"]
    words = [f"amp={case.channel.amp}", f"noise={case.channel.noise}", f"seed={case.channel.seed}"]
    _, soft, _ = run(program, ["channel", *words], hard)
    if blocks_of(soft, count, one.g) != [it.tobytes() for it in softs]:
        found.append("other soft values")
    end, more = received(program, case, soft, softs)
    return end, found + more


def main() -> int:
    words = argparse.ArgumentParser(description=__doc__, formatter_class=argparse.RawDescriptionHelpFormatter)
    words.add_argument("program")
    words.add_argument("--cases", type=int, default=100)
    words.add_argument("--seed", type=int, default=1)
    given = words.parse_args()
    source = random.Random(given.seed)
    ends: Counter[str] = Counter()
    for number in range(given.cases):
        case = drawn(source)
        end, found = differences(given.program, case)
        ends.update([end] + ["differing"] * bool(found))
        for difference in found:
            print(f"case {number}: {difference}\n    {len(case.sent)} bytes, {replace(case, sent=b'')}")
    told = (f"{ends[it]} {it}" for it in ("delivered", "failed", "refused", "differing"))
    print(f"{given.cases} cases:", ", ".join(told))
    return 1 if ends["differing"] else 0


if __name__ == "__main__":
    sys.exit(main())
