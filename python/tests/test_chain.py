"""Chains beside the blocks of vectors/, which test_vectors.py has, and numpy."""

import fimulowen
import numpy as np
import pytest
from fimulowen import Error, chain
from hypothesis import given
from hypothesis import strategies as st

from test_id_set import RANDOM, arrays

LANES, KINDS = (1, 4, 8), ("plain", "sorted", "strict")


def values_of(kind, ids):
    """Values of a kind: some again, or in any order."""
    return {"strict": ids, "sorted": np.sort(np.concatenate([ids, ids[::2]])), "plain": RANDOM.permutation(ids)}[kind]


@given(arrays(), st.sampled_from(KINDS), st.sampled_from(LANES), st.sampled_from([None, 0, 5, 2**32 - 1]))
def test_back(ids, kind, lanes, initial):
    values = values_of(kind, ids)
    values = values[: len(values) // chain.BLOCK_LEN[lanes] * chain.BLOCK_LEN[lanes]]
    given_initial = None if kind == "plain" else initial
    widths, data = chain.pack(values, kind=kind, initial=given_initial, lanes=lanes)
    assert len(widths) == len(values) // chain.BLOCK_LEN[lanes] and len(data) == 4 * lanes * sum(widths)
    assert (chain.unpack(widths, data + b"more", kind=kind, initial=given_initial, lanes=lanes) == values).all()


def test_by_hand():
    # docs/FORMAT.md: 0 to 7 at width 3 are 88 C6 FA.
    assert chain.pack([k % 8 for k in range(32)], lanes=1) == (b"\x03", bytes.fromhex("88c6fa") * 4)
    # Of strict values the codes are gaps less one, so that a run has none.
    assert chain.pack(range(128), kind="strict") == (b"\x00", b"")
    assert chain.pack(range(1, 129), kind="strict", initial=0) == (b"\x00", b"")
    assert chain.pack(range(1, 129), kind="sorted") == (b"\x01", b"\xff" * 16)
    assert chain.unpack(b"\0\0", b"", kind="strict").tolist() == list(range(256))
    # The number before the first may be of numpy, as the last value of an array is.
    assert chain.pack(range(1, 129), kind="strict", initial=np.uint32(0)) == (b"\x00", b"")
    assert chain.unpack(np.array([0], "u1"), b"", kind="strict", initial=np.int64(-0))[:2].tolist() == [1, 2]
    assert chain.unpack(bytearray(b"\x01"), memoryview(b"\xff" * 16), kind="sorted")[-1] == 128
    assert chain.pack([]) == (b"", b"") and chain.unpack(b"", b"").tolist() == []


@pytest.mark.parametrize("kind", KINDS)
def test_refused(kind):
    for count in (1, 127, 129):
        with pytest.raises(Error) as raised:
            chain.pack(range(count), kind=kind)
        assert raised.value.fault == "BadLength"
    with pytest.raises(Error) as raised:
        chain.unpack(b"\x20\x21", bytes(2000), kind=kind)
    assert raised.value.fault == "BadWidth"
    with pytest.raises(Error) as raised:
        chain.unpack(b"\x01", bytes(15), kind=kind)
    assert raised.value.fault == "Short"
    for lanes in (0, 2, 16):
        with pytest.raises(ValueError):
            chain.pack([], kind=kind, lanes=lanes)
        with pytest.raises(ValueError):
            chain.unpack(b"", b"", kind=kind, lanes=lanes)
    for initial in (-1, 1 << 32) if kind != "plain" else ():
        with pytest.raises(OverflowError):
            chain.pack([], kind=kind, initial=initial)


def test_arguments():
    with pytest.raises(ValueError):
        chain.pack([], kind="set")
    with pytest.raises(ValueError):
        chain.pack([], initial=3)
    with pytest.raises(OverflowError):
        chain.pack([-1] * 128)
    with pytest.raises(TypeError):
        chain.pack([], kind="sorted", initial=0.5)
    # Each of 8 bytes would be a width.
    for wrong in (2, [1, 1], np.array([1, 1], "i8"), "text"):
        with pytest.raises(TypeError):
            chain.unpack(wrong, bytes(64))
    with pytest.raises(TypeError):
        chain.unpack(b"\1", 16)
    for kind in (-1, 3):
        with pytest.raises(ValueError):
            fimulowen._core.chain_pack(np.empty(0, "u4"), kind, 4, 0)
    with pytest.raises(TypeError):
        fimulowen._core.chain_unpack(bytearray(), "text", 0, 4, 0)
