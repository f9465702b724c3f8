"""What the fuzz begins with, a file each.

seeds.py OUT FILE..: writes the lines of the files to the folder OUT: of a table up to a tab, of corpus.txt unescaped.
seeds.py --keep FOLDER.. > corpus.txt: the files of the folders as corpus.txt has them, the shortest first.

In corpus.txt each line after the first is an input, in ASCII: a backslash, a line feed, a return, a tab and each byte
that isn't printable ASCII are written as in Python's bytes (\\\\, \\n, \\r, \\t, \\x00), and so is a space at an end
(\\x20).
"""
import hashlib
import os
import sys

HEAD = (
    "# An input a line; \\\\, \\n, \\r, \\t and \\xNN stand for bytes, "
    "\\x20 for a space at an end of the line (seeds.py).\n"
)


def escaped(data):
    text = data.decode("latin-1").encode("unicode_escape").decode()
    if text.startswith(" "):
        text = "\\x20" + text[1:]
    return text[:-1] + "\\x20" if text.endswith(" ") else text


def unescaped(line):
    return line.decode("unicode_escape").encode("latin-1")


def inputs(name):
    with open(name, "rb") as lines:
        for line in lines.read().split(b"\n"):
            if name.endswith("corpus.txt"):
                if not line.startswith(b"# An input a line") and line:
                    yield unescaped(line)
            else:
                yield line.split(b"\t")[0] if name.endswith("conformance/stdin") else line


def unpack(out, names):
    os.makedirs(out, exist_ok=True)
    for name in names:
        for data in inputs(name):
            with open(os.path.join(out, hashlib.sha1(data).hexdigest()), "wb") as seed:
                seed.write(data[:4096])


def keep(folders):
    found = set()
    for folder in folders:
        for entry in os.scandir(folder):
            with open(entry.path, "rb") as one:
                found.add(one.read())
    sys.stdout.write(HEAD)
    for data in sorted(found, key=lambda data: (len(data), data)):
        if data:
            print(escaped(data))


if sys.argv[1] == "--keep":
    keep(sys.argv[2:])
else:
    unpack(sys.argv[1], sys.argv[2:])
