#!/usr/bin/env python3
"""functions.py OLD.o NEW.o: the functions whose code is another, new or gone. (Each has a section of its own.)"""
import re
import struct
import sys


def functions(path):
    """The code of each function, by its name, of an ELF file of 64 bits."""
    with open(path, "rb") as file:
        data = file.read()
    at, size, count, names = struct.unpack_from("<Q", data, 40) + struct.unpack_from("<HHH", data, 58)
    heads = [struct.unpack_from("<IIQQQQ", data, at + size * it) for it in range(count)]
    if count == 0 or names == 0xFFFF:
        raise SystemExit("too many sections")
    text = heads[names][4]
    found = {}
    for name, _, flags, _, offset, length in heads:
        if flags & 4:
            word = data[text + name : data.index(b"\0", text + name)].decode()
            found[re.sub(r"^\.text\.(unlikely\.|hot\.)?", "", word)] = data[offset : offset + length]
    return found


def main():
    old, new = functions(sys.argv[1]), functions(sys.argv[2])
    same = [it for it in new if old.get(it) == new[it]]
    # A hash in a name (::<#..>) is that of a type's arguments.
    code = f"{sum(len(new[it]) for it in same)} of {sum(map(len, new.values()))} bytes"
    print(f"{len(same)} of {len(new)} functions as before, {code}")
    for sign, names in (
        ("-", set(old) - set(new)),
        ("+", set(new) - set(old)),
        ("!", {it for it in new if it in old and old[it] != new[it]}),
    ):
        for it in sorted(names):
            print(sign, it)


if __name__ == "__main__":
    main()
