"""Receptions call by call: what is kept, and that they come to what one call tells."""

import copy
import pickle

import numpy as np
import pytest

import gomzelat as gz


def softs(payload, sent, number, noise):
    return gz.noisy(gz.codeword(payload, sent), sent.g, gz.Channel(30, noise, 9), 0, number)


@pytest.mark.parametrize("length, noise", [(2, 60), (100, 10), (100, 55), (800, 45), (800, 127)])
def test_it_comes_to_what_one_call_tells(length, noise):
    payload = gz.trial_payload(length, 3)
    sent = [gz.Transmission(2, 16 * length + 48, rv) for rv in (0, 2, 3)]
    values = [softs(payload, it, number, noise) for number, it in enumerate(sent)]
    told = gz.receive(length, sent, np.concatenate(values), windows=16, limit=4)
    harq = gz.Harq(length, windows=16, limit=4)
    for it, of_one in zip(sent, values):
        harq.add(it, of_one)
        if harq.decode():
            break
    assert (harq.delivered, harq.transmissions, harq.iterations.sum()) == (
        told.delivered,
        told.transmissions,
        told.iterations,
    )
    assert not told.delivered or harq.payload.tolist() == told.payload.tolist() == payload.tolist()


def test_blocks_that_failed_tell_their_bits_and_checks():
    payload = gz.trial_payload(800, 3)
    sent = gz.Transmission(2, 14000, 0)
    values = softs(payload, sent, 0, 0).copy()
    values[: sent.g // 2] = -9
    harq = gz.Harq(800)
    harq.add(sent, values)
    assert not harq.decode()
    assert harq.passed.tolist() == [False, True]
    first, second = harq.code_blocks()
    assert second.tolist() == gz.code_block(payload, 1).tolist() and first.size == gz.plan(800).size(0)
    assert (harq.payload[-100:] == payload[-100:]).all() and harq.iterations.tolist()[0] == 8


def test_a_copy_goes_on_by_itself():
    payload = gz.trial_payload(100, 3)
    first, second = gz.Transmission(2, 840, 0), gz.Transmission(2, 840, 2)
    harq = gz.Harq(100)
    harq.add(first, softs(payload, first, 0, 22))
    harq.decode()
    others = [copy.deepcopy(harq), pickle.loads(pickle.dumps(harq))]
    before = harq.cells.copy()
    for it in others:
        it.add(second, softs(payload, second, 1, 22))
        assert it.decode()
    assert (harq.cells == before).all() and others[0].cells.tolist() == others[1].cells.tolist()


def test_cells_saturate():
    sent = gz.Transmission(2, 132, 0)
    harq = gz.Harq(2)
    for _ in range(3):
        harq.add(sent, np.full(132, -100, np.int8))
    assert set(harq.cells.tolist()) == {-127}


def test_the_arrays_are_as_many_as_are_told():
    told, harq = gz.sizes(9422), gz.Harq(9422)
    assert (harq.cells.size, harq.passed.size, harq.bits.size) == (told.cells, told.blocks, told.bits)
    assert told == gz.Sizes(3 * 13 * (5824 + 4), 13, 13 * 5824)
