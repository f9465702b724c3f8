"""The points that the programs write, and keys that none of them wrote: points.py [DOUBLES].

Without a word it prints sorts of pairs of random doubles: sort, x, y, with as many digits as make the double. Of those
in degrees it takes the first 10,000 whose numbers have at most eighteen places: a line `six` with the key of six
places, and a line `all` with that of all digits.
"""
import random
import sys
from decimal import Decimal

KEYS = 10000


def trimmed(text):
    """A number as a key has it."""
    text = text.rstrip("0").rstrip(".")
    return "0" if text == "-0" else text


def all_digits(x):
    """The shortest number that is read as the double; None where it has more than eighteen places."""
    number = Decimal(x)
    return None if number.as_tuple().exponent < -18 else trimmed(format(number, "f"))


def doubles():
    """Prints the pairs of doubles."""
    numbers = random.Random(52)
    sorts = (
        ("degrees", lambda: numbers.uniform(-180, 180), lambda: numbers.uniform(-90, 90)),
        ("metres", lambda: numbers.uniform(-2e7, 2e7), lambda: numbers.uniform(-2e7, 2e7)),
        ("any", lambda: numbers.choice((-1, 1)) * 10 ** numbers.uniform(-20, 20), lambda: 1.0),
    )
    for sort, x, y in sorts:
        for _ in range(50000 if sort != "any" else 100000):
            print(sort, repr(x()), repr(y()), sep="\t")


def given(file):
    """Prints the keys of the doubles in the file."""
    left = KEYS
    with open(file, encoding="utf-8") as pairs:
        for line in pairs:
            sort, *point = line.split()
            exact = [all_digits(x) for x in point]
            if sort != "degrees" or None in exact or not left:
                continue
            left -= 1
            print("six", "POINT({} {})".format(*(trimmed(f"{float(x):.6f}") for x in point)), sep="\t")
            print("all", "POINT({} {})".format(*exact), sep="\t")


if len(sys.argv) == 2:
    given(sys.argv[1])
else:
    doubles()
