#!/usr/bin/env python3
"""Whether the proved functions have the parameters that their callers pass; the status is 1 where one hasn't.

include/wkt.h says which functions there are. Compared with it are the functions that crates/wkt_c exports, which may
take rooms beside what the header has, and their structs, the functions of capi/functions.h, which capi/pointers.c and
dist/c/wkt_portable.c call, and the declarations of rust/src/ffi.rs. The calls of javascript/src are compared with what
wkt_c exports. A slice is a pointer and a size. At the end a parameter or a field is changed in each of these files, and
each change has to be seen.
"""
import os
import re
import sys

TOP = os.path.dirname(os.path.dirname(os.path.dirname(os.path.abspath(__file__))))
HEADER, LISTS, RUST = "include/wkt.h", "capi/functions.h", "rust/src/ffi.rs"
ENGINE, LINES = "javascript/src/engine.js", "javascript/src/lines.js"
EXPORTS = [f"crates/wkt_c/src/exports{part}.rt"
           for part in ("", "_arrays", "_explain", "_events", "_dialects", "_short")]
SIZES = ["crates/wkt_calls/src/sizes.rt", "crates/wkt_fill/src/units.rt"]
FILES = [HEADER, LISTS, RUST, ENGINE, LINES, *EXPORTS, *SIZES]
# Types that C has by two names. Offsets are of 64 bits, as sizes are, and one below 0 is refused as too large.
ALIKE = {"wkt_status": "u32", "uint32_t": "u32", "uint8_t": "u8", "size_t": "64", "int64_t": "64", "int": "c_int",
         "usize": "64", "i64": "64", "uint64_t": "64", "u64": "64"}
EXPORT = r'extern "C" fn (wkt_\w+)\(([^()]*)\)\s*->\s*u32'
STRUCT = r"#\[repr\(C\)\]\s*#\[derive[^\n]*\s*pub struct (?P<name>\w+) \{(?P<body>.*?)\}"
# Behind the name of a proved function that is called where dialects are asked for.
IN, SHORT = "_in", "_short"
# A list in parentheses behind a comma.
LISTED = r",\s*\(([^()]*)\)"


def parameters(text):
    return [part.strip() for part in re.sub(r"\s+", " ", text).split(",") if part.strip()]


def of_c(text):
    """Each parameter of a list of C's: its name, and its type, by `*` and `const *` where it is a pointer."""
    found = []
    for one in parameters(text):
        const, word, star, name = re.fullmatch(r"(const )?(\w+) ?(\*?)(\w+)", one).groups()
        found.append((name, (const or "") + star + ALIKE.get(word, word)))
    return found


def of_rattle(text):
    """The same of an exported function: a slice has its size behind it."""
    found = []
    for name, word in (one.split(": ") for one in parameters(text)):
        kind, slice_of, plain = re.fullmatch(r"(&mut |&|)(?:\[(\w+)\]|(\w+))", word).groups()
        star = {"": "", "&": "const *", "&mut ": "*"}[kind]
        found.append((name, star + ALIKE.get(slice_of or plain, slice_of or plain)))
        if slice_of:
            found.append((f"{name}_len", "64"))
    return found


def of_rust(text):
    found = []
    for name, word in (one.split(": ") for one in parameters(text)):
        star, plain = re.fullmatch(r"(\*const |\*mut |)(\w+)", word).groups()
        found.append((name, {"": "", "*const ": "const *", "*mut ": "*"}[star] + ALIKE.get(plain, plain)))
    return found


def functions(pattern, text, made):
    return {name: made(given) for name, given in re.findall(pattern, text, re.S | re.M)}


def structs(pattern, text, field):
    """The fields of each struct, each with its type."""
    found = {}
    for match in re.finditer(pattern, text, re.S):
        body = re.sub(r"//[^\n]*|\bpub\b", "", match["body"])
        found[match["name"]] = field(body)
    return found


def fields_of_c(body):
    """The fields of a struct of C's: `size_t a, b` is two."""
    return [(name.strip(), ALIKE[row.split()[0]]) for row in body.split(";") if row.strip()
            for name in row.strip().split(None, 1)[1].split(",")]


def listed(text):
    """Of each function of functions.h: its parameters, what is passed on, its buffers and results in their order, with
    the width of each, its rooms, and the parameters of the proved function with what it is passed. The one in dialects
    is a function, too, and so is the one for short texts."""
    body = r"((?:[^\n]*\\\n)*[^\n]*)"
    has = {name: re.findall(r"(GIVEN|ANSWER|RESULTS?)\((\w+)(?:, (\d+))?", it)
           for name, it in re.findall(rf"#define (\w+)\(GIVEN, ANSWER, RESULT, RESULTS\) {body}", text)}
    rooms = {name: [(room, "*" + ALIKE[word]) for room, word in re.findall(r"\bROOM\((\w+), (\w+),", it)]
             for name, it in re.findall(rf"#define (\w+)\(ROOM\) ?{body}", text)}
    found = {}
    for name, its, given, passed in re.findall(rf"^FUNCTION\(\s*(\w+), (\w+){LISTED * 2}\)", text, re.S | re.M):
        found[name] = (of_c(given), parameters(passed), has[its], [], of_c(given), parameters(passed))
    roomy = rf"^FUNCTION_IN_ROOMS\(\s*(\w+), (\w+), (\w+){LISTED * 4}\)"
    for name, its, within, given, passed, taken, call in re.findall(roomy, text, re.S | re.M):
        found[name] = (of_c(given), parameters(passed), has[its], rooms[within], of_c(taken), parameters(call))
    both = rf"^FUNCTION_IN_DIALECTS\(\s*(\w+), (\w+), (\w+),\s*(\w+){LISTED * 4},\s*(\w+){LISTED * 2}\)"
    for name, its, within, roomless, given, passed, *proved in re.findall(both, text, re.S | re.M):
        if roomless == "SHORT":
            found[name + SHORT] = (of_c(given), parameters(passed), has[its], [], of_c(given), parameters(passed))
        for end, at, (taken, call) in ("", within, proved[:2]), (IN, proved[2], proved[3:]):
            found[name + end] = (of_c(given), parameters(passed), has[its], rooms[at], of_c(taken), parameters(call))
    return found


def list_of(declared):
    """What a function has as it is to be listed: buffers that are read, those that are written, and results."""
    names = {name for name, _ in declared}
    found = []
    for name, word in declared:
        width = {"u8": "1", "u32": "4", "64": "8", "WktUnits": "16"}.get(word.split("*")[-1], "")
        kind = "RESULT" if f"{name}_len" not in names else "GIVEN" if word.startswith("const") else "ANSWER"
        if "*" in word:
            found.append((kind if width else "RESULTS", name, width))
    return found


def passed_by_engine(text, name):
    """Of each argument of a call of the module's function, whether it is an address or a size, which is a BigInt."""
    call = re.search(rf"\.(?:calls\.{name}\(|call\('{name}', )", text)
    depth, end = 1, call.end()
    while depth:
        depth += {"(": 1, ")": -1}.get(text[end], 0)
        end += 1
    passed = parameters(text[call.end():end - 1])
    return [any(word in one for word in ("big(", "cell", "lists.")) for one in passed]


def differences(texts):
    plain = re.sub(r"/\*.*?\*/", "", texts[HEADER], flags=re.S)
    declared = functions(r"^wkt_status (wkt_\w+)\(([^()]*)\);", plain, of_c)
    exported = functions(EXPORT, "\n".join(texts[one] for one in EXPORTS), of_rattle)
    in_rust = functions(r"pub fn (wkt_\w+)\(([^()]*)\)\s*->\s*u32;", texts[RUST], of_rust)
    lists = listed(texts[LISTS])
    proved = {name: it[4] for name, it in lists.items()}
    yield from named("what wkt_c exports and what functions.h has", proved, exported)
    called = {name: one[0] for name, one in lists.items() if not name.endswith((IN, SHORT))}
    yield from named("what functions.h has and what wkt.h declares", declared, called)
    here = {name: declared.get(name) for name in in_rust}
    yield from named("what ffi.rs declares and what wkt.h declares", here, in_rust)
    for name, (given, passed, its, rooms, taken, call) in lists.items():
        if passed != [one for one, _ in given] or its != list_of(given) or call != [one for one, _ in taken]:
            yield f"{name}: functions.h passes or lists other parameters than it has"
        of_rooms = [it for room, word in rooms for it in ((room, word), (f"{room}_len", "64"))]
        if [it for it in taken if it not in of_rooms] != given or [it for it in taken if it in of_rooms] != of_rooms:
            yield f"{name}: the proved function hasn't the parameters of wkt.h and its rooms"
    for name in re.findall(r"'(wkt_\w+)'", re.search(r"const EXPORTS = [^;]*;", texts[ENGINE])[0]):
        if passed_by_engine(texts[ENGINE] + texts[LINES], name) != [word != "u32" for _, word in exported[name]]:
            yield f"{name}: javascript/src passes other arguments than it takes"
    c_structs = structs(r"typedef struct \{(?P<body>.*?)\} (?P<name>\w+);", plain, fields_of_c)
    made = {}
    for one in SIZES:
        made.update(structs(STRUCT, texts[one], of_rust))
    rust = structs(STRUCT, texts[RUST], of_rust)
    yield from named("the structs of the crates and of wkt.h", c_structs, made)
    yield from named("the structs of ffi.rs and of wkt.h", c_structs, rust)


def named(what, wanted, found):
    for name in sorted(wanted.keys() | found.keys()):
        if wanted.get(name) != found.get(name):
            yield f"{what} differ: {name}"


# A change of each file, which has to be seen: what is there, and what is put in its place.
CHANGES = [
    (HEADER, "size_t out_len, size_t *needed, size_t *end)", "size_t out_len, size_t *end, size_t *needed)"),
    (HEADER, "size_t numbers, rings, polygons; /*", "uint32_t numbers, rings, polygons; /*"),
    (LISTS, "(text, text_len, srid, end))", "(text, srid, text_len, end))"),
    (LISTS, "GIVEN(text, 1) RESULT(hint, 4)", "RESULT(hint, 4)"),
    (LISTS, "GIVEN(offsets, 8)", "GIVEN(offsets, 4)"),
    (LISTS, "room, room_len, out, out_len, needed, end))", "out, out_len, room, room_len, needed, end))"),
    (LISTS, "ROOM(words_room, size_t,", "ROOM(words_room, uint32_t,"),
    (LISTS, "(text, text_len, places, read_room, read_room_len, hint))", "(text, text_len, places, hint))"),
    (RUST, "pub rings: usize,\n    pub polygons: usize,", "pub polygons: usize,\n    pub rings: usize,"),
    (RUST, "last: u32,\n", ""),
    (RUST, "pub high: i64,", "pub high: u32,"),
    (ENGINE, "big(room[0]), big(room[1]), ", ""),
    (LINES, "last ? 1 : 0,", ""),
    (EXPORTS[0], "same: &mut u32,\n    end: &mut usize,", "end: &mut usize,\n    same: &mut u32,"),
    (EXPORTS[1], "numbers: &[i64],", "numbers: &mut [i64],"),
    (EXPORTS[2], "stop: &mut usize,", "stop: &mut u32,"),
    (EXPORTS[3], "number_count: &mut usize,", "number_count: &mut u32,"),
    (EXPORTS[4], "    read_room: &mut [u8],\n    numbers_room: &mut [i64],", "    numbers_room: &mut [i64],"),
    (SIZES[0], "pub kind: u32,", "pub kind: usize,"),
    (SIZES[0], "offsets of rings.\n    pub rings: usize,", "offsets of rings.\n    pub ring_count: usize,"),
    (SIZES[1], "pub low: u64,", "pub low: u32,"),
]


def main():
    texts = {}
    for path in FILES:
        with open(os.path.join(TOP, path), encoding="utf-8") as file:
            texts[path] = file.read()
    found = list(differences(texts))
    for one in found:
        print(f"FAILED {one}")
    for path, old, new in CHANGES:
        if old not in texts[path]:
            found.append(path)
            print(f"FAILED {path} has no {old!r}: change CHANGES of tests/gate/signatures.py")
        elif not found and not list(differences({**texts, path: texts[path].replace(old, new, 1)})):
            found.append(path)
            print(f"FAILED {path}: {new!r} in the place of {old!r} isn't seen")
    if not found:
        print(f"signatures: as wkt.h has them, and {len(CHANGES)} changes are seen")
    sys.exit(1 if found else 0)


if __name__ == "__main__":
    main()
