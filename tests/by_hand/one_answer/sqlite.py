"""The extension for SQLite: sqlite.py ROWS FOLDER-OF-mod_wkt.so"""
import re
import sqlite3
import sys

import faces

db = sqlite3.connect(":memory:")
db.enable_load_extension(True)
db.load_extension(sys.argv[2] + "/mod_wkt")


def ask(call, *given):
    """The answer of a call over texts, which are given as bytes; the words of its error."""
    try:
        return db.execute("select " + call, given).fetchone()[0]
    except sqlite3.OperationalError as error:
        return re.sub("^invalid well-known text: (at character )?", "!", str(error))


def null(answer):
    return "null" if answer is None else answer


for n, (places, whole, text, other, dialects) in enumerate(faces.read()):
    faces.say("kind.wkt_kind", n, null(ask("wkt_kind(cast(? as text))", text)))
    faces.say("srid.wkt_srid", n, null(ask("wkt_srid(cast(? as text))", text)))
    if not whole:
        continue
    asked = [places, dialects] if dialects else [places]
    these = f"cast(? as text){', ?' * len(asked)}"
    faces.say("said.wkt_canonical", n, ask(f"wkt_canonical({these})", text, *asked).lower())
    key = ask(f"wkt_or_null({these})", text, *asked)
    faces.say("held.wkt_or_null", n, "ft"[key is not None])
    faces.say("value.wkt_or_null", n, null(key))
    faces.say("held.wkt_reads", n, "ft"[ask(f"wkt_reads({these})", text, *asked)])
    faces.say("held.wkt_explain", n, "ft"[ask(f"wkt_explain({these}) is null", text, *asked)])
    same = ask(f"wkt_same(cast(? as text), {these})", text, other, *asked)
    faces.say("same.wkt_same", n, "ft"[same] if isinstance(same, int) else "!")
