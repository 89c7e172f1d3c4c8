"""The Arrow C data interface, read by ctypes as https://arrow.apache.org/docs/format/CDataInterface.html describes it."""

import ctypes
import gc
import sys

import numpy as np
import pytest
from fimulowen import IdSet, _core

POINTERS = ctypes.POINTER(ctypes.c_void_p)


class Schema(ctypes.Structure):
    _fields_ = [
        ("format", ctypes.c_char_p),
        ("name", ctypes.c_char_p),
        ("metadata", ctypes.c_char_p),
        ("flags", ctypes.c_int64),
        ("n_children", ctypes.c_int64),
        ("children", POINTERS),
        ("dictionary", ctypes.c_void_p),
        ("release", ctypes.CFUNCTYPE(None, ctypes.c_void_p)),
        ("private_data", ctypes.c_void_p),
    ]


class Array(ctypes.Structure):
    _fields_ = [
        ("length", ctypes.c_int64),
        ("null_count", ctypes.c_int64),
        ("offset", ctypes.c_int64),
        ("n_buffers", ctypes.c_int64),
        ("n_children", ctypes.c_int64),
        ("buffers", POINTERS),
        ("children", POINTERS),
        ("dictionary", ctypes.c_void_p),
        ("release", ctypes.CFUNCTYPE(None, ctypes.c_void_p)),
        ("private_data", ctypes.c_void_p),
    ]


def struct_of(capsule, kind, name):
    pointer = ctypes.pythonapi.PyCapsule_GetPointer
    pointer.restype, pointer.argtypes = ctypes.c_void_p, [ctypes.py_object, ctypes.c_char_p]
    return kind.from_address(pointer(capsule, name))


def structs(capsules):
    return struct_of(capsules[0], Schema, b"arrow_schema"), struct_of(capsules[1], Array, b"arrow_array")


def release(it):
    it.release(ctypes.addressof(it))


@pytest.mark.parametrize("count", [0, 1, 5000])
def test_sets(count):
    capsules = IdSet(range(0, 3 * count, 3)).__arrow_c_array__()
    schema, array = structs(capsules)
    gc.collect()  # the capsules alone hold the ids
    assert (schema.format, schema.name, schema.flags, schema.n_children, bool(schema.children)) == (b"I", b"", 0, 0, False)
    assert (array.length, array.null_count, array.offset, array.n_buffers, array.n_children) == (count, 0, 0, 2, 0)
    assert not array.buffers[0] and not array.dictionary and not schema.dictionary
    ids = (ctypes.c_uint32 * count).from_address(array.buffers[1]) if count else []
    assert list(ids) == list(range(0, 3 * count, 3))
    alone = IdSet([1]).__arrow_c_schema__()
    assert struct_of(alone, Schema, b"arrow_schema").format == b"I"


def test_missing_values():
    """What columns need: bits of the values that are there."""
    values, bits = np.array([7, 0, -9]), np.packbits([1, 0, 1], bitorder="little")
    before = sys.getrefcount(values), sys.getrefcount(bits)
    capsules = _core.arrow_schema("l", True), _core.arrow_array(values, bits, 1)
    schema, array = structs(capsules)
    assert (schema.format, schema.flags, array.null_count, array.length) == (b"l", 2, 1, 3)
    assert ctypes.c_uint8.from_address(array.buffers[0]).value == 0b101
    assert list((ctypes.c_int64 * 3).from_address(array.buffers[1])) == [7, 0, -9]
    assert sys.getrefcount(values) > before[0] and sys.getrefcount(bits) > before[1]
    # A consumer that moved the structs has released them. The capsules then free the structs alone.
    release(array), release(schema)
    assert not array.release and not schema.release and (sys.getrefcount(values), sys.getrefcount(bits)) == before
    del capsules
    capsules = _core.arrow_schema("l", True), _core.arrow_array(values, None, 0)
    del capsules
    assert (sys.getrefcount(values), sys.getrefcount(bits)) == before


def test_refused():
    for wrong in [(5, None, 0), (np.arange(6)[::2], None, 0), (np.arange(3), 5, 0), (np.arange(3), None, "a")]:
        with pytest.raises((TypeError, ValueError, BufferError)):
            _core.arrow_array(*wrong)
