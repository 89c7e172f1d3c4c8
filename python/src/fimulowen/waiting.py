"""Calls of the library that may take seconds and that nothing can divide."""

from __future__ import annotations

import _thread
import threading
from queue import SimpleQueue
from typing import Any, Callable

LONG = 1 << 22  # ids, or bytes


def run(size: int, call: Callable[..., Any], *arguments: Any) -> Any:
    """What a call returns that reads as many ids or bytes. A long one runs on another thread, so that Ctrl-C is handled at once: the call then goes
    on to its end in the background, and what it returns is dropped."""
    if size < LONG or threading.current_thread() is not threading.main_thread():
        return call(*arguments)
    answers: SimpleQueue[Any] = SimpleQueue()

    def work() -> None:
        try:
            answers.put((call(*arguments), None))
        except BaseException as why:
            answers.put((None, why))

    # No Thread: a signal while that starts, or is joined, may find its lock half taken.
    _thread.start_new_thread(work, ())
    result, why = answers.get()
    if why is not None:
        raise why
    return result
