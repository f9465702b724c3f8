"""Whether the page's table has the numbers of kept keys: page.py EXPECTED PAGE. The status is 1 where it hasn't."""
import sys

with open(sys.argv[1], encoding="utf-8") as file:
    fields = [line.rstrip("\n").split("\t") for line in file]
with open(sys.argv[2], encoding="utf-8") as file:
    rows = [line for line in file if line.startswith("|")]


def word(keys, kept):
    return "all" if kept == keys else "none" if kept == "0" else f"{int(kept):,}"


calls = {}
for release, program, call, sort, keys, kept in (line for line in fields if len(line) == 6):
    calls.setdefault((release, program, call), {})[sort] = word(keys, kept)
status = 0
for (_, program, call), kept in calls.items():
    cells = f"| {kept['six']} | {kept['all']} |"
    if not any(program in row.split("|")[1] and f"`{call}`" in row and cells in row for row in rows):
        print(f"wrong: no row of the page has {program} `{call}` {cells}")
        status = 1
sys.exit(status)
