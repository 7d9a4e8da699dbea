"""Campaigns: the same counts however they are divided and whatever runs them."""

import csv
import os
import shutil
import subprocess
import sys
import threading
from concurrent.futures import ThreadPoolExecutor

import pytest

import gomzelat as gz
from gomzelat.campaign import (
    Campaign,
    Counts,
    Curve,
    Here,
    Place,
    Point,
    Stop,
    counted,
    draw,
    executor,
    read,
    run_block,
    run_blocks,
    summed,
    wilson,
    write,
)
from gomzelat.campaign import running

HALF = Curve("1/2", 100, 1600)
TWICE = Curve("3/4 twice", 100, 1066, versions=(0, 2))
POINTS = [Point(curve, snr) for curve in (HALF, TWICE) for snr in (0.5, 1.0, 1.5)]
STOP = Stop(errors=7, blocks=60, floor=0.1)


def measured(pool, stop=STOP, points=POINTS, **how):
    return {it.point: it.counts for it in Campaign(pool, stop, **how).run(points)}


@pytest.fixture(scope="module")
def by_loop():
    """The counts of a plain loop over blocks, which knows nothing of executors."""
    results = {}
    for curve in (HALF, TWICE):
        for point in (it for it in POINTS if it.curve == curve):
            counts = Counts()
            while counts.errors < STOP.errors and counts.blocks < STOP.blocks:
                counts += counted(run_blocks(point, counts.blocks, 1))
            results[point] = counts
            if counts.errors / counts.blocks < STOP.floor:
                break
    return results


def test_counts_do_not_depend_on_how_blocks_are_divided(by_loop):
    assert len({it.errors for it in by_loop.values()}) > 1
    for chunk, width in ((1, 1), (7, 2), (50, 9), (1000, 3)):
        assert measured(Here(), chunk=chunk, width=width) == by_loop
    with ThreadPoolExecutor(3) as pool:
        assert measured(pool, chunk=5, width=9) == by_loop


def test_long_points_have_fewer_calls_which_count_the_same():
    calls = []

    class Counting(Here):
        def submit(self, fn, /, *arguments, **named):
            calls.append(arguments[1:])
            return super().submit(fn, *arguments, **named)

    point, stop = Point(Curve("1/3", 10, 360), 1.0), Stop(errors=10**6, blocks=2000)
    found = measured(Counting(), stop, [point], chunk=5, width=2)
    assert found == {point: counted(run_blocks(point, 0, 2000))}
    assert len(calls) < 100 and [first for first, _ in calls[1:]] == [sum(it) for it in calls[:-1]]


def test_nothing_is_asked_while_an_earlier_call_is_awaited(monkeypatch):
    rounds, begins = [], threading.Event()

    class Late(ThreadPoolExecutor):
        def submit(self, fn, /, point, first, count):
            return super().submit(self.late, fn, point, first, count)

        def late(self, fn, point, first, count):
            if first == 0:
                begins.wait(30)
            elif first == 30:
                threading.Timer(0.5, begins.set).start()
            return fn(point, first, count)

    waits = running.wait
    monkeypatch.setattr(running, "wait", lambda *words, **named: rounds.append(1) or waits(*words, **named))
    with Late(2) as pool:
        assert measured(pool, Stop(errors=100, blocks=40), POINTS[:1], chunk=10, width=2)[POINTS[0]].blocks == 40
    assert len(rounds) < 20


def test_processes_count_the_same(by_loop):
    with executor("processes", 2) as (pool, width):
        assert measured(pool, chunk=10, width=width) == by_loop


def test_a_cluster_of_dask_counts_the_same(by_loop):
    pytest.importorskip("distributed")
    with executor("dask", 2) as (pool, width):
        assert measured(pool, chunk=10, width=width) == by_loop


def command(*words):
    return [sys.executable, "-m", "gomzelat.campaign", "--quiet", *map(str, words)]


def environment():
    return {**os.environ, "PYTHONPATH": os.path.dirname(os.path.dirname(gz.__file__))}


RUN = ("--errors", 5, "--blocks", 30, "--floor", 0, "--snr", 0, 2, 1, "--chunk", 7)


def test_mpi_counts_the_same(tmp_path):
    pytest.importorskip("mpi4py")
    if not shutil.which("mpiexec"):
        pytest.skip("there is no mpiexec")
    here, there = tmp_path / "here.csv", tmp_path / "mpi.csv"
    subprocess.run(
        [*command("--csv", here, "--executor", "here"), *map(str, RUN)], env=environment(), check=True
    )
    words = ["mpiexec", "--oversubscribe", "-n", "3", sys.executable, "-m", "mpi4py.futures", *command()[1:]]
    as_root = {"OMPI_ALLOW_RUN_AS_ROOT": "1", "OMPI_ALLOW_RUN_AS_ROOT_CONFIRM": "1"}
    more = ["--csv", str(there), "--executor", "mpi", *map(str, RUN)]
    subprocess.run([*words, *more], env={**environment(), **as_root}, check=True, timeout=300)
    assert read(there) == read(here) and len(read(here)) > 6


def test_a_later_run_goes_on(tmp_path, by_loop):
    file = tmp_path / "rates.csv"
    few = measured(Here(), Stop(errors=3, blocks=20))
    write(file, {Place(point): counts for point, counts in few.items()})
    known = {place.point: counts for place, counts in read(file).items()}
    assert known == few
    calls = []

    class Counting(Here):
        def submit(self, fn, /, *arguments, **named):
            calls.append(arguments)
            return super().submit(fn, *arguments, **named)

    assert {**measured(Counting(), chunk=7, known=known)}.items() >= by_loop.items()
    assert all(first >= known[point].blocks for point, first, _ in calls)


def test_parts_add_up(tmp_path):
    point, whole = POINTS[1], Stop(errors=10**6, blocks=40)
    parts = []
    for first, blocks in ((0, 15), (15, 25)):
        file = tmp_path / f"{first}.csv"
        found = measured(Here(), Stop(10**6, blocks), [point], first=first)
        write(file, {Place(it, first): counts for it, counts in found.items()})
        parts.append(read(file))
    assert summed(parts) == measured(Here(), whole, [point])
    with pytest.raises(ValueError):
        summed([parts[0], parts[0]])
    assert summed([read(tmp_path / "nothing.csv")]) == {}


def test_a_block_is_the_same_anywhere():
    alone = [run_block(POINTS[1], it) for it in (12, 3)]
    records = run_blocks(POINTS[1], 0, 13)
    assert [tuple(records[it].item()) for it in (12, 3)] == alone


@pytest.mark.parametrize("channel", ["awgn", "integer"])
def test_noise_decides(channel):
    loud, quiet = (counted(run_blocks(Point(HALF, snr, channel), 0, 20)) for snr in (-9.0, 9.0))
    assert (loud.errors, loud.undetected) == (20, 0) and loud.bit_errors > 20 * 100
    assert (quiet.errors, quiet.bit_errors, quiet.transmissions) == (0, 0, 20)


def test_the_wilson_interval_is_the_books():
    # Newcombe 1998, Statistics in Medicine 17, table I, method 3.
    for errors, blocks, wanted in (
        (81, 263, (0.2553, 0.3662)),
        (15, 148, (0.0624, 0.1605)),
        (0, 20, (0, 0.1611)),
        (1, 29, (0.0061, 0.1718)),
    ):
        assert wilson(errors, blocks) == pytest.approx(wanted, abs=6e-5)


@pytest.mark.parametrize("qm, g", [(2, 1600), (4, 1600), (6, 1602)])
def test_the_noise_has_the_strength_that_is_told(qm, g):
    curve = Curve("rate 1/2", 100, g, qm)
    below, above = (
        counted(run_blocks(Point(curve, curve.shannon_limit() + it), 0, 20)) for it in (-0.2, 4.5)
    )
    assert (below.errors, above.errors) == (20, 0)


def test_the_channel_of_whole_numbers_has_bits_alone():
    with pytest.raises(ValueError):
        run_block(Point(Curve("16QAM", 100, 1600, 4), 9.0, "integer"), 0)


def test_the_command_measures_draws_and_goes_on(tmp_path):
    file, picture = tmp_path / "rates.csv", tmp_path / "rates.svg"
    words = command("--csv", file, "--picture", picture, "--executor", "here", *RUN)
    subprocess.run(words, env=environment(), check=True)
    first = file.read_bytes()
    assert b"block error rate" in picture.read_bytes()
    subprocess.run(words, env=environment(), check=True)
    assert file.read_bytes() == first
    with open(file, newline="", encoding="utf-8") as rows:
        [row] = [it for it in csv.DictReader(rows) if (it["name"], it["snr_db"]) == ("1/3, 1 sent", "2.0")]
    assert (row["g"], row["errors"], row["blocks"], row["lower"]) == ("2400", "0", "30", "0")


def test_errors_that_no_check_told_are_drawn_apart(tmp_path):
    results = {
        Point(HALF, snr): Counts(100, 20 - it, 5 - it, 50, 100, 300) for it, snr in enumerate((0.0, 1.0))
    }
    draw(results, tmp_path / "a.svg")
    assert "1/2, undetected" in (tmp_path / "a.svg").read_text(encoding="utf-8")
