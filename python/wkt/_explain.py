"""Where a text is refused, why, and what could come next."""
import re
from typing import NamedTuple, NoReturn, Optional, Tuple, Union

from ._errors import WktError, check, printable, words_of
from ._names import (
    ACCEPTED, COLLECTION, EXPECTED, EXPECTED_WORDS, HINT_WORDS, HINTS, LAST_REFUSAL, MESSAGES, NOT_UTF8, NOT_WHOLE, OK,
    TOO_LARGE,
)  # fmt: skip
from ._native import bind, calls
from ._values import WHOLE, Text, encoded

_WIDTH = 72
_END = "the end of the text"


def _short(word: str) -> str:
    word = printable(word)
    return word if len(word) < 40 else word[:37] + "..."


class Explanation(NamedTuple):
    """Why a text is refused, and where.

    `start` to `stop` is what is refused; where the text ends too early, it is empty. Both count the characters
    of a str and the bytes of bytes, from 0 on, as slices do. `expected` says what could come next, `hint` why the
    text is refused, where that is known ("" where not), `message` is that of the `WktError`, and `status` its number.
    `cause` is one line, with the place, which counts from 1, and `code` one stable word, to group by. `str()` shows the
    line of the text with a mark below the place. In both lines, what isn't printable stands as \\x1b or \\u{202e}.
    """

    text: Union[str, bytes]
    status: int
    message: str
    start: int
    stop: int
    expected: str
    hint: str = ""
    code: str = ""

    def _characters(self) -> Tuple[str, int, int]:
        """The text as str, and the place counted in its characters."""
        if isinstance(self.text, str):
            return self.text, self.start, self.stop
        before, there = (self.text[:at].decode("utf-8", "replace") for at in (self.start, self.stop))
        return self.text.decode("utf-8", "replace"), len(before), len(there)

    @property
    def line(self) -> int:
        """The line of the text with the place, from 1 on."""
        text, start, _ = self._characters()
        return text.count("\n", 0, start) + 1

    @property
    def column(self) -> int:
        """The character of that line at which the place begins, from 1 on."""
        text, start, _ = self._characters()
        return start - text.rfind("\n", 0, start)

    @property
    def cause(self) -> str:
        """The place, and why the text is refused there, in one line."""
        text, start, stop = self._characters()
        place = "at line %d, column %d" % (self.line, self.column) if "\n" in text[:start] else "at %d" % self.column
        word = _short(re.sub("[ \t\r\n]+", " ", text[start : min(stop, start + 200)]).strip(" "))
        if self.hint:
            return "%s: %s" % (place, self.hint)
        return "%s: %s was expected, %s" % (place, self.expected, "and not " + word if word else "but the text ends")

    def __str__(self) -> str:
        text, start, stop = self._characters()
        first, end = text.rfind("\n", 0, start) + 1, text.find("\n", start)
        last = end if end >= 0 else len(text)
        if last - 1 > start and text[last - 1] == "\r":  # A part of the line's end.
            last -= 1
        around = _WIDTH + 1  # one more than is shown, which says that a line is long
        before = printable(text[max(first, start - around) : start], "\t")
        after = printable(text[start : min(last, start + around)], "\t")
        marked = len(printable(text[start : min(last, stop, start + around)], "\t"))
        dots = ""
        if len(before) + len(after) > _WIDTH:  # A long line is cut to what is around the place.
            if len(before) > _WIDTH // 2:
                dots, before = "...", before[-(_WIDTH // 2) :]
            after = after[: _WIDTH - len(before)]
        under = "".join("\t" if c == "\t" else " " for c in dots + before)
        marks = "^" * max(1, min(marked, len(after)))
        more = " (%s)" % self.hint if self.hint else ""
        return "%s%s%s\n%s%s %s was expected%s" % (dots, before, after, under, marks, self.expected, more)


def _too_many(number: str, most: int) -> str:
    """How many places a number has, which may have an exponent."""
    digits, _, exponent = number.lower().partition("e")
    whole, _, behind = digits.lstrip("+-").partition(".")
    if len(exponent) > 9:
        return "%s has too many places, at most %d are allowed" % (_short(number), most)
    places = len((whole + behind).rstrip("0")) - len(whole) - int(exponent or 0)
    return "%s has %d places, at most %d are allowed" % (_short(number), places, most)


def _hint(data: bytes, word: bytes, places: int) -> Tuple[str, str]:
    """Why a text is refused at a word, for a user, and the same as one stable word; "" where it isn't known."""
    status, hint = calls.hint(data, places)
    if status != OK or hint == 0:
        return "", ""
    if hint >= len(HINTS):  # a later library may know more
        return "", "hint_%d" % hint
    words = HINTS[hint]
    # The one with a number is of a number with too many places: here it says which.
    shown = _too_many(word.decode("ascii", "replace"), places % WHOLE) if "%u" in words else words
    return shown, HINT_WORDS[hint]


def explained(text: Text, places: int) -> Optional[Explanation]:
    """Where and why a text is refused; None where it is read."""
    data = encoded(text)
    return _explanation(text, data, places, *calls.explain(data, places))


def _explanation(
    text: Text, data: bytes, places: int, status: int, message: int, first: int, last: int, expected: int
) -> Optional[Explanation]:
    if status == ACCEPTED:
        return None
    if status != NOT_WHOLE:
        check(status)
    shown: Union[str, bytes] = data
    hint, code = _hint(data, data[first:last], places) if status == OK else ("", "not_whole")
    if isinstance(text, str):
        shown = data.decode("utf-8")
        first, last = len(data[:first].decode("utf-8")), len(data[:last].decode("utf-8"))
    if status == NOT_WHOLE:
        return Explanation(shown, status, MESSAGES[status], first, last, _END, hint, code)
    is_known = expected < len(EXPECTED)
    what = EXPECTED[expected] if is_known else "something else (%d)" % expected
    code = code or "expected_" + (EXPECTED_WORDS[expected] if is_known else "other")
    return Explanation(shown, message, words_of(message), first, last, what, hint, code)


class Why(NamedTuple):
    """A refusal as a row of a table. The place counts from 1, and is 0 where none is known; `hint` is a sentence."""

    place: int
    expected: str
    cause: str
    hint: str
    message: str


def _not_utf8_at(text: Text) -> int:
    if isinstance(text, str):
        return next(i for i, c in enumerate(text, 1) if "\ud800" <= c <= "\udfff")
    try:
        encoded(text).decode()
    except UnicodeDecodeError as error:
        return error.start + 1
    return 0


def why(text: Text, places: int) -> Why:
    """Why a text is refused, as a row of a table; also of one that has no explanation."""
    try:
        found = explained(text, places)
    except WktError as error:
        if error.status == NOT_UTF8:
            return Why(_not_utf8_at(text), "", "not_utf8", error.message, error.message)
        return Why(0, "", "status_%d" % error.status, error.message, error.message)
    assert found is not None
    return Why(found.start + 1, found.expected, found.code, found.hint or found.cause.partition(": ")[2], found.message)


def refusal(status: int, text: Text, places: int, row: Optional[int] = None) -> WktError:
    """The error of a text that a call refuses with a status. Where a text has no arrays, no place in it is wrong."""
    try:
        explanation = None if status in (COLLECTION, TOO_LARGE) else explained(text, places)
    except (WktError, MemoryError):
        explanation = None
    return WktError(status, words_of(status), row, explanation)


def _explained_row(row: Text, places: int, *why: int) -> Optional[Explanation]:
    try:
        return _explanation(row, encoded(row), places, *why)
    except WktError:  # no place can be named
        return None


def _refuse(status: int, text: Text, places: int, row: Optional[int]) -> NoReturn:
    raise refusal(status, text, places, row)


def _refuse_two(status: int, one: Text, other: Text, places: int, row: Optional[int]) -> NoReturn:
    """Of two texts the first that is refused is named; neither, where one isn't UTF-8."""
    if not 1 <= status <= LAST_REFUSAL and status != NOT_WHOLE:
        check(status, row=row)
    raise refusal(status, one if explained(one, places) is not None else other, places, row)


bind("explanation", _explained_row)
bind("refuse", _refuse)
bind("refuse_two", _refuse_two)
