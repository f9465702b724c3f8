"""What the Python programs of this folder share: the rows that they read, and how they write their answers."""
import collections
import os
import re
import sys

TOP = os.path.dirname(os.path.dirname(os.path.dirname(os.path.dirname(os.path.abspath(__file__)))))
END = "the end of the text"
Row = collections.namedtuple("Row", "places whole text other dialects")


def words(name):
    """A list of words of wkt.h."""
    with open(f"{TOP}/include/wkt.h", encoding="utf-8") as header:
        found = re.search(r"#define %s \{(.*?)\}" % name, header.read(), re.DOTALL)
    return re.findall(r'"(.*?)"', found[1])


KINDS, DIMENSIONS, EXPECTED, HINTS = map(words, ("WKT_KINDS", "WKT_DIMENSIONS", "WKT_EXPECTED", "WKT_HINTS"))


def read(file=None):
    """The rows of a file, which the first word names."""
    with open(file or sys.argv[1], encoding="ascii") as rows:
        for line in rows:
            places, whole, text, other, dialects = line.rstrip("\n").split("\t")
            yield Row(int(places), whole == "1", bytes.fromhex(text), bytes.fromhex(other), dialects)


def plain():
    """The rows without dialects, with their numbers."""
    return [(n, row) for n, row in enumerate(read()) if not row.dialects]


def groups():
    """These by places and whether they are to be whole."""
    found = collections.defaultdict(list)
    for n, row in plain():
        found[row.places, row.whole].append((n, row))
    return sorted(found.items())


def lines_of(numbered):
    """The texts as lines: a line feed inside is white space, and so a space."""
    return b"".join(row.text.replace(b"\n", b" ") + b"\n" for _, row in numbered)


def say(form, n, answer):
    """A form of call, KIND.NAME; the number of a row; its answer."""
    print(form, n, answer, sep="\t")


def say_all(form, numbered, answers):
    answers = list(answers)
    assert len(answers) == len(numbered), (form, len(answers), len(numbered))
    for (n, _), answer in zip(numbered, answers):
        say(form, n, answer)


def explanation(status, start, stop, expected, hint):
    return f"{status} {start} {stop} {expected}|{hint}"


def arrays(kind, dimension, *three):
    return " ".join([kind, dimension] + [",".join(map(str, part)) for part in three])


def text_or_bytes(data):
    """A str, or the bytes where they are no UTF-8."""
    try:
        return data.decode()
    except UnicodeDecodeError:
        return data
