"""Buffers that calls by ctypes fill."""
import array
import ctypes
from typing import Any, Callable

from ._errors import check
from ._library import size
from ._names import TOO_SMALL


def pointer(values: Any) -> Any:
    """Where a buffer begins, as a call takes it."""
    if isinstance(values, bytes):
        return values
    if isinstance(values, array.array):
        return array.array.buffer_info(values)[0]
    return int(values.__array_interface__["data"][0])


class Room:
    """A buffer for answers, which grows where a call says that it is too small."""

    def __init__(self, likely: int) -> None:
        # A multiple, so that ctypes has few types of such buffers to make.
        self.out = (ctypes.c_char * (likely + 64 & -64))()
        self.needed = size()

    def holds(self, length: int) -> None:
        """Makes room for so many bytes."""
        if len(self.out) < length:
            self.out = ctypes.create_string_buffer(length)

    def call(self, call: Callable[[Any, int, Any], int]) -> int:
        """How many bytes a call has written."""
        while True:
            status = call(self.out, len(self.out), ctypes.byref(self.needed))
            if status == 0:
                return self.needed.value
            if status != TOO_SMALL:
                check(status)
            self.out = ctypes.create_string_buffer(self.needed.value)

    def bytes(self, call: Callable[[Any, int, Any], int]) -> bytes:
        """What a call has written."""
        length = self.call(call)
        return bytes(memoryview(self.out)[:length])

    def text(self, call: Callable[[Any, int, Any], int]) -> str:
        """The canonical text that a call has written."""
        return self.bytes(call).decode("ascii")
