"""Lines from one file to another, in bounded memory."""
import errno
import io
from typing import Any, Callable, Iterator, List, Optional

from ._native import calls
from ._progress import Progress, shown
from ._values import encoded, integer, places_of

PIECE = 1 << 20


def _pieces(source: Any, report: Optional[Callable[[int], None]]) -> Iterator[bytes]:
    done = 0
    while True:
        data = source.read(PIECE)
        if not isinstance(data, (bytes, bytearray)):
            raise TypeError("a source gives bytes, and not %s: open it by 'rb'" % type(data).__name__)
        data = encoded(data)
        if not data:
            return
        yield data
        done += len(data)
        if report is not None:
            report(done)


def _write(sink: Any, data: bytes) -> None:
    """Writes all of it: a file without a buffer may take a part. The sink may keep what it gets: it never changes."""
    done = 0
    while done < len(data):
        taken = sink.write(memoryview(data)[done:] if done else data)
        if taken is None:
            # The interface of raw files: nothing is taken, and the file would have to be waited for.
            if isinstance(sink, io.RawIOBase):
                raise BlockingIOError(errno.EAGAIN, "the sink takes no more now", done)
            return
        taken = integer(taken, "what write() returns")
        if not 0 < taken <= len(data) - done:
            raise OSError("write() of the sink returned %d, and had %d bytes to take" % (taken, len(data) - done))
        done += taken


def _whole_lines(source: Any, report: Optional[Callable[[int], None]]) -> Iterator[bytes]:
    """The input by pieces, each of whole lines; the last may end without a line feed."""
    rest: List[bytes] = []
    for data in _pieces(source, report):
        cut = data.rfind(b"\n") + 1
        if cut:
            yield b"".join([*rest, data[:cut]])
            rest = [data[cut:]] if cut < len(data) else []
        else:
            rest.append(data)
    if rest:
        yield b"".join(rest)


def stream(source: Any, sink: Any, places: int = 18, progress: Progress = None) -> int:
    """Writes to a sink, for each line of a source, the canonical text of the geometry that it begins with, or
    `refused`.

    Each answer ends with a line feed. What follows a geometry in its line isn't looked at.

    source: a file of bytes, or what has `read(size)`. sink: a file of bytes, or what has `write(bytes)`. The memory
    that is used doesn't grow with the input, but with its longest line. places: as of `canonical`.
    progress: a function that is called with how many bytes are read, or True for tqdm's bar.
    Returns the number of lines. What source and sink raise passes through; what was written by then stays.
    OSError: the sink takes nothing, or says that it took more than there is. BlockingIOError: a raw file that doesn't
    block takes no more.
    """
    places = places_of(places)
    count = 0
    with shown(progress, None, " bytes") as report:
        for data in _whole_lines(source, report):
            _write(sink, calls.lines(data, places))
            count += data.count(b"\n") + (not data.endswith(b"\n"))
    return count
