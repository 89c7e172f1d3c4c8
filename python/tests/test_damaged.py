"""Damaged bytes: each is refused with its fault and its place, or is another set, which packs to these bytes."""

import pickle

import numpy as np
import pytest
from fimulowen import Error, IdSet, IdSet64

ROUNDS = 1000


def damaged(random, text):
    """A text with some bytes changed, cut or added."""
    bad = bytearray(text)
    choice = random.integers(6)
    if choice == 0:
        return bytes(bad[: random.integers(len(bad) + 1)])
    if choice == 1:
        return bytes(bad) + random.bytes(int(random.integers(1, 6)))
    for _ in range(random.integers(1, 4)):
        at = random.integers(min(len(bad), 40) if choice == 2 else len(bad))
        bad[at] = random.choice([0, 1, 127, 128, 255, bad[at] ^ 1 << random.integers(8)])
    return bytes(bad)


@pytest.mark.parametrize("most", [127, 3000])
@pytest.mark.parametrize("kind, bits", [(IdSet, 12), (IdSet64, 44)])
def test_damaged(kind, bits, most):
    random = np.random.default_rng(most)
    opened, faults = 0, set()
    for _ in range(ROUNDS):
        count = int(random.integers(1, most))
        ids = random.choice(count * 2 ** random.integers(1, 9) + 1, count, replace=False) * 2 ** random.integers(0, bits)
        bad = damaged(random, kind(ids).tobytes())
        try:
            packed = kind.open(bad)
        except Error as error:
            faults.add(error.fault)
            assert isinstance(error, ValueError) and error.fault in str(error)
            # The second reading came to the same first fault.
            assert error.byte is not None and error.byte <= len(bad) or error.position is not None, (error.fault, bad.hex())
            again = pickle.loads(pickle.dumps(error))
            assert vars(again) == vars(error) and str(again) == str(error)
        else:
            opened += 1
            assert kind(packed.unpack()).tobytes() == bad
    assert 0 < opened < ROUNDS and len(faults) > 5


def test_places():
    """Worked by hand from docs/FORMAT.md."""
    whole = "058001011100002380" + "00007F" + "55" * 32  # 0, 2 to 254
    runs = "058001011100000680" + "01FF00008000"  # 0 to 127
    for text, place in {
        "": ("Short", None, 0, None),
        "00": ("BadVersion", None, 0, None),
        "8285": ("Short", None, 1, None),
        "818500": ("BadNumber", None, 1, None),
        "82050121": ("Padding", 0, 3, None),
        "82050001": ("Trailing", None, 3, None),
        "82FFFFFFFF0F00": ("NotSorted", None, None, 1),
        "057F": ("BadNumber", None, 1, None),
        "058180808001": ("TooLong", None, 1, None),
        "0580010110": ("BadSizes", None, 4, None),
        whole.replace("80010111", "80010211"): ("BadOffset", 0, 9, None),
        whole.replace("0000238000", "0000228000"): ("BadBody", 0, 9, None),
        whole.replace("0000238000", "0000237F00"): ("BadSum", 0, 8, None),
        whole.replace("55" * 32, "FF" * 16 + "00" * 16): ("LooseBody", 0, 9, None),
        runs.replace("8000", "8100"): ("BadBody", 0, 9, None),
        runs.replace("0680", "0580"): ("BadBody", 0, 9, None),
        runs + "00": ("Trailing", None, 15, None),
        whole + "00": ("Trailing", None, 44, None),
        whole[:-2]: ("Short", None, 43, None),
    }.items():
        with pytest.raises(Error) as raised:
            IdSet.open(bytes.fromhex(text))
        error = raised.value
        assert (error.fault, error.part, error.byte, error.position) == place, text
    with pytest.raises(Error) as raised:
        IdSet.open(b"\x80" + bytes(1 << 20))
    assert (raised.value.fault, raised.value.byte) == ("Trailing", None)  # too long to be read again
    assert str(error).endswith("(Short, byte 43)")


def test_wide_places():
    """Worked by hand from docs/FORMAT.md."""
    equal = "08100211 0100000001000000 0708 0810 8800 8800"  # two words, both 1
    for text, place in {
        "": ("Short", None, 0, None),
        "05": ("BadVersion", None, 0, None),
        "0985": ("Short", None, 1, None),
        "098500": ("BadNumber", None, 1, None),
        "098180808001": ("TooLong", None, 1, None),
        "0901": ("Short", None, 2, None),
        "0901 4105 05000000": ("BadKind", None, 2, None),
        "0901 60 05000000": ("BadSum", None, 2, None),
        "0901 6100 00 05000000": ("Trailing", None, 2, None),
        "0903 63FFFFFFFF0F0203 000000000000000000000000": ("NotSorted", None, 2, None),
        "0902 620000 05000000 05000000": ("NotSorted", None, 9, 1),
        "0908 680000" + "".join(f"{it:02x}000000" for it in range(8)): ("LooseForm", None, 2, None),
        "0808": ("Short", None, 2, None),
        "080700": ("BadNumber", None, 2, None),
        "080802": ("BadNumber", None, 2, None),
        "080801": ("Short", None, 3, None),
        "08080110": ("BadSizes", None, 3, None),
        "08080111": ("Short", None, 4, None),
        equal: ("BadKey", 1, 8, None),
        "08080111 01000000 07 07": ("BadSum", 0, 9, None),
        "08080111 01000000 00 08": ("BadOffset", 0, 8, None),
        "08080112 01000000 0700 08": ("BadSizes", None, 3, None),
        "08080111 01000000 07 08": ("Short", None, 10, None),
        "08080111 01000000 07 08 8780E497D00200": ("BadBody", 0, 10, None),
        "08080111 01000000 07 08 8880E497D0020000": ("Trailing", None, 17, None),
    }.items():
        with pytest.raises(Error) as raised:
            IdSet64.open(bytes.fromhex(text))
        error = raised.value
        assert (error.fault, error.part, error.byte, error.position) == place, text
    with pytest.raises(Error) as raised:
        IdSet64.open(bytes.fromhex("090060") + bytes(1 << 20))
    assert (raised.value.fault, raised.value.byte) == ("Trailing", None)  # too long to be read again
