"""Sets of ids and columns of integers in few bytes, read in place.

    ids = fimulowen.IdSet([7, 9, 10, 300])
    len(ids), ids[-1], ids[1:3], 9 in ids, ids.seek(100), (ids & others).unpack(), ids.tobytes()

The library below is proved; this package is tested. docs/PYTHON.md of the repository is the page for users."""

from . import _core, chain
from .column import Column
from .errors import Error
from .id_set import IdSet
from .id_set64 import IdSet64
from .combining import (
    intersect,
    intersect_len,
    subtract,
    subtract_len,
    symmetric_difference,
    symmetric_difference_len,
    unite,
    unite_len,
)
from .query import Query
from .ranked import BM25, Term, best, best_among

__version__ = f"{_core.VERSION // 1000000}.{_core.VERSION // 1000 % 1000}.{_core.VERSION % 1000}"
__all__ = [
    "BM25",
    "Column",
    "Error",
    "IdSet",
    "IdSet64",
    "Query",
    "Term",
    "best",
    "best_among",
    "chain",
    "intersect",
    "intersect_len",
    "subtract",
    "subtract_len",
    "symmetric_difference",
    "symmetric_difference_len",
    "unite",
    "unite_len",
]
