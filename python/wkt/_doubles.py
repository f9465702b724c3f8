"""Doubles as exact decimals: each as the shortest that is the same double, as Python's `repr` writes it; and back."""
import decimal
import re
from typing import Any, Tuple

from ._explain import _short
from ._values import MOST_PLACES, numpy

_MOST = 10**15  # decimals of up to 15 digits are each of a double of its own
# The context of the thread is the caller's, and may round. `repr` writes 17 digits at most.
_EXACT = decimal.Context(prec=28, Emin=-999999, Emax=999999, clamp=0, traps=[])


def decimals(values: Any, places: int) -> Tuple[Any, Any, Any]:
    """Of each double its whole units, how many places these have, at most so many, and whether it has them.

    A double has none where its shortest decimal has more places, or is infinite or NaN, or has more units than 64 bits.
    Where a decimal of at most 15 digits is the same double, it is the shortest. (The quotient of two whole doubles
    below 2^53 is the double that is nearest to it.) Others, few mostly, are written by `repr`.
    """
    values = numpy.asarray(values, numpy.float64).reshape(-1)
    units, used = numpy.zeros(len(values), numpy.int64), numpy.zeros(len(values), numpy.int64)
    has = numpy.zeros(len(values), bool)
    left = numpy.flatnonzero(numpy.abs(values) < 2.0**63)  # neither infinite nor NaN
    for at in range(min(places, 15) + 1):
        some = numpy.rint(values[left] * 10.0**at)
        fits = (numpy.abs(some) < _MOST) & (some / 10.0**at == values[left])
        units[left[fits]], used[left[fits]], has[left[fits]] = some[fits], at, True
        left = left[~fits]
        if not len(left):
            break
    for i, value in zip(left.tolist(), values[left].tolist()):
        number = decimal.Decimal(repr(value))
        own = max(0, -int(number.normalize(_EXACT).as_tuple().exponent))
        scaled = int(number.scaleb(own, _EXACT))
        if own <= places and -(2**63) <= scaled < 2**63:
            units[i], used[i], has[i] = scaled, own, True
    return units, used, has


def scaled(units: Any, used: Any, wanted: Any) -> Tuple[Any, Any]:
    """The same with the places that are wanted, not fewer; and whether 64 bits hold them."""
    more = wanted - used
    times = 10 ** numpy.minimum(more, 18)  # with more, 64 bits hold 0 alone
    fits = (numpy.abs(units) <= (2**63 - 1) // times) & ((more <= 18) | (units == 0))
    return numpy.where(fits, units, 0) * times, fits


def nearest(units: Any, places: int) -> Any:
    """Whole units as doubles, each the nearest to its decimal, and of two the even one: so each is rounded once.

    A quotient of two doubles is rounded once, and so is that of two ints. Units up to 2^53 and ten to at most 22 are
    doubles.
    """
    units = numpy.asarray(units, numpy.int64)
    made = units / 10.0 ** min(places, 22)
    large = numpy.flatnonzero((units > 2**53) | (units < -(2**53))) if places <= 22 else slice(None)
    unit = 10**places
    made[large] = [it / unit for it in units[large].tolist()]
    return made


def written(value: float) -> str:
    """A double as the shortest decimal, without an exponent; nan and inf as `repr` has them."""
    number = decimal.Decimal(repr(value))
    return "{:f}".format(number.normalize(_EXACT)) if number.is_finite() else repr(value)


def _own_places(number: str) -> int:
    return len(number.partition(".")[2].rstrip("0"))


def _fits(number: str, places: int) -> bool:
    """Whether 128 bits hold a decimal, which has at most so many places, in units of so many."""
    whole, _, behind = number.lstrip("-").partition(".")
    return int(whole + behind[:places].ljust(places, "0")) < 2**127


def cause_of(text: str, places: int) -> str:
    """Why a text whose numbers are `written` is refused with so many places, and which ones read it."""
    numbers = re.findall("-?[0-9][0-9.]*|nan|-?inf", text)
    for number in numbers:
        if number.endswith(("nan", "inf")):
            return "%s is no decimal: NaN and infinity have no key" % number
    finest = max(numbers, key=_own_places)
    largest = max(numbers, key=lambda number: abs(float(number)))
    own = _own_places(finest)
    if own > places:
        why = "%s has %d places, at most %d are allowed" % (_short(finest), own, places)
    else:
        why = "%s is too large for %d places" % (_short(largest), places)
    good = [it for it in range(own, MOST_PLACES + 1) if _fits(largest, it)]
    if not good:
        return why + "; no number of places reads the row"
    return "%s; places=%d reads the row" % (why, good[0] if own > places else good[-1])
