"""Calls of a stream by several threads: one after another."""
import functools
import threading
from typing import Any, Callable, TypeVar, cast

_Call = TypeVar("_Call", bound=Callable[..., Any])


class Locked:
    """An object whose calls that are marked by `alone` run one after another: a thread waits for
    those of others.
    """

    def __init__(self) -> None:
        self._lock = threading.RLock()
        self._is_busy = False


def alone(call: _Call) -> _Call:
    """Marks a call. Within another one of the same thread, as in a `read` of the file or a handler
    of a signal, it raises RuntimeError.
    """

    @functools.wraps(call)
    def locked(self: Locked, *arguments: Any, **named: Any) -> Any:
        with self._lock:
            if self._is_busy:
                raise RuntimeError("the stream is used within a call of itself")
            self._is_busy = True
            try:
                return call(self, *arguments, **named)
            finally:
                self._is_busy = False

    return cast(_Call, locked)
