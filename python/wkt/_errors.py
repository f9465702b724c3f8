"""What is raised where there is no answer."""
import re
from typing import TYPE_CHECKING, Any, Optional, Sequence, Tuple

from . import _library
from ._names import MESSAGES, NO_MEMORY

if TYPE_CHECKING:
    from ._explain import Explanation


class WktError(ValueError):
    """A text, or arrays, without an answer.

    `str()` says where the text is refused, and why. `status` is the number of the reason, as include/wkt.h has it, and
    `message` its words, which are those of the Rust crate wkt. `row` is the row of a column in which it stands, from 0
    on, and None of one text. `explanation` says what could come next, where that is known (`wkt.explain` gives it).
    """

    def __init__(
        self, status: int, message: str, row: Optional[int] = None, explanation: "Optional[Explanation]" = None
    ) -> None:
        # All arguments are kept, so that the error can be copied and goes from one process to another.
        super().__init__(status, message, row, explanation)
        self.status = status
        self.message = message
        self.row = row
        self.explanation = explanation

    def __reduce__(self) -> Tuple[Any, ...]:
        return type(self), (self.status, self.message, self.row, self.explanation), self.__dict__

    def __str__(self) -> str:
        words = self.message if self.explanation is None else self.explanation.cause
        return words if self.row is None else "row %d: %s" % (self.row, words)


# What Python calls printable although Unicode says that nothing is seen of it (Default_Ignorable_Code_Point).
UNSEEN = re.compile("[\u034f\u115f\u1160\u17b4\u17b5\u180b-\u180f\u3164\ufe00-\ufe0f\uffa0\U000e0000-\U000e0fff]")


def printable(text: str, plain: str = "") -> str:
    """A stranger's text as a message shows it: what isn't printable is shown by its number, as \\x1b or \\u{202e}.

    Raw it could move the cursor, turn words around, or not be seen. plain: characters that stay.
    """
    if text.isprintable() and not UNSEEN.search(text):
        return text
    forms = ("\\x%02x", "\\u{%x}")
    return "".join(
        c if c in plain or c.isprintable() and not UNSEEN.match(c) else forms[c > "\x7f"] % ord(c) for c in text
    )


def words_of(status: int, messages: Sequence[str] = MESSAGES) -> str:
    """The words of a status. Of one that only a later library has they are that library's."""
    known = messages[status] if status < len(messages) else ""
    return known or _library.wkt_message(status).decode("utf-8", "replace") or "Status %d" % status


def check(status: int, messages: Sequence[str] = MESSAGES, row: Optional[int] = None) -> None:
    """Raises what belongs to a status, unless it is 0."""
    if status == NO_MEMORY:
        raise MemoryError
    if status:
        raise WktError(status, words_of(status, messages), row)
