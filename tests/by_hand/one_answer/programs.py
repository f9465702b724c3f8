"""The programs wktstream, wktline and wkt: programs.py ROWS FOLDER"""
import collections
import re
import subprocess
import sys

import faces


def run(given, *words):
    """What a program writes, as lines; that texts are refused is no failure."""
    done = subprocess.run([f"{sys.argv[2]}/{words[0]}", *words[1:]], input=given, capture_output=True, check=False)
    assert done.returncode in (0, 1), (words, done.stderr)
    return done.stdout.decode("utf-8", "replace").split("\n")[:-1]


def places(numbered, said):
    """The place of each line that is refused, of what `wkt check` writes."""
    found = {}
    for line in said:
        refusal = re.match(r"standard input:(\d+):(?:(\d+):)? (.*)", line)
        if refusal:
            found[int(refusal[1])] = f"{refusal[2]}: {refusal[3]}" if refusal[2] else "not UTF-8"
    faces.say_all("check.lines", numbered, (found.get(i + 1, "-") for i in range(len(numbered))))


def canonical():
    """`wkt canon` of each text, also of those in dialects."""
    found = collections.defaultdict(list)
    for n, row in enumerate(faces.read()):
        if b"\0" not in row.text:
            found[row.places, row.whole, row.dialects].append((n, row))
    for (most, whole, dialects), numbered in sorted(found.items()):
        asked = ["-q", "--refused", "null", "-p", str(most)]
        asked += (["--dialect", dialects] if dialects else []) + ([] if whole else ["-f"])
        faces.say_all("null.canon", numbered, run(faces.lines_of(numbered), "wkt", "canon", *asked))


canonical()
for (most, whole), numbered in faces.groups():
    lines, asked = faces.lines_of(numbered), ["-p", str(most)] + ([] if whole else ["-f"])
    fronts = ["-f", "-p", str(most), "--refused", "refused"]
    faces.say_all("line.canon", numbered, run(lines, "wkt", "canon", "-q", *fronts))
    if most == 18:
        faces.say_all("line.wktstream", numbered, run(lines, "wktstream"))
        faces.say_all("line.wktline", numbered, run(lines, "wktline"))
    faces.say_all("null.canon", numbered, run(lines, "wkt", "canon", "-q", "--refused", "null", *asked))
    faces.say_all("sort.kind", numbered, run(lines, "wkt", "kind", "-q", "--refused", "null", *asked))
    places(numbered, run(lines, "wkt", "check", "-n", "0", *asked))
    texts = [(n, row) for n, row in numbered if b"\0" not in row.text]
    given = b"".join(row.text + b"\0" for _, row in texts)
    faces.say_all("null.canon_0", texts, run(given, "wkt", "canon", "-q", "-0", "--refused", "null", *asked))
