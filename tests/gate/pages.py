#!/usr/bin/env python3
"""Checks the pages: long sentences, links that lead nowhere, README's commands, counts, API.md.

    tests/gate/pages.py      prints what is wrong, a line each; status 1 where anything is
    tests/gate/pages.py --links FOLDER      only the links that lead nowhere, of the pages below a folder
"""
import os
import re
import subprocess
import sys

TOP = os.path.dirname(os.path.dirname(os.path.dirname(os.path.abspath(__file__))))
WORDS = 35
# Made from the sources, so not read by sentences; its links are looked at.
MADE = {"docs/API.md"}
# Programs of the toolchain and of the system that README's commands begin with.
KNOWN = {
    "rt",
    "cd",
    "cc",
    "c++",
    "python3",
    "python",
    "pip",
    ".",
    "cat",
    "cargo",
    "printf",
    "make",
    "wkt",
    "wktline",
    "wktstream",
    "apt",
    "sqlite3",
    "psql",
    "pkg-config",
    "git",
    "comm",
    "sort",
}


def pages():
    """The pages of the repository, by their paths."""
    listed = subprocess.run(["git", "ls-files", "*.md"], cwd=TOP, capture_output=True, text=True, check=True)
    return listed.stdout.split()


def text_of(path, top=TOP):
    with open(f"{top}/{path}", encoding="utf-8") as page:
        return page.read()


def blocks(text):
    """The code blocks of a page, without their fences."""
    return re.findall(r"^```[^\n]*\n(.*?)^```", text, re.S | re.M)


def sentences(text):
    """The sentences of a page's running text (no code, tables or headings), which end after a full stop or a colon."""
    text = re.sub(r"^```.*?^```[^\n]*$", "", text, flags=re.S | re.M)
    for paragraph in re.split(r"\n\s*\n|^[-*] |^\d+\. ", text, flags=re.M):
        if re.match(r"\s*[|#<]", paragraph):
            continue
        flat = " ".join(paragraph.split())
        yield from re.split(r"(?<=[.:?!])\s+", flat)


def anchors(text):
    """What a link into a page may name: its headings, as the usual sites write them."""
    heads = re.findall(r"^#+ (.*)$", text, re.M)
    return {re.sub(r"[^\w\- ]", "", head.lower()).strip().replace(" ", "-") for head in heads}


def lost_links(path, text, top=TOP):
    """The links of a page that lead nowhere."""
    for target in re.findall(r"\]\(([^)\s]+)\)", text):
        if re.match(r"[a-z]+:(?!:)", target):
            continue
        file, _, anchor = target.partition("#")
        to = os.path.normpath(os.path.join(os.path.dirname(path), file)) if file else path
        if not os.path.exists(f"{top}/{to}"):
            yield f"{path}: the link {target} leads nowhere"
        elif anchor and anchor not in anchors(text_of(to, top)):
            yield f"{path}: {to} has no heading {anchor}"


def commands(text):
    """The commands of a page's shell blocks, each as its words. In a block of a session they stand after a `$`."""
    for kind, block in re.findall(r"^```(sh|console)\n(.*?)^```", text, re.S | re.M):
        for line in block.split("\n"):
            if kind == "console" and not line.startswith("$ "):
                continue
            line = re.sub(r"'[^']*'", "''", re.sub(r"(^|\s)#.*$", "", line.removeprefix("$ ")))
            for command in re.split(r"&&|\|\||[|;()]", line):
                words = command.split()
                while words and re.match(r"\w+=", words[0]):
                    words = words[1:]
                if words:
                    yield words


def lost_commands(path, text):
    """The commands of a page whose program isn't here."""
    for words in commands(text):
        program = words[0]
        if program == "cd":
            if len(words) > 1 and not os.path.isdir(f"{TOP}/{words[1]}"):
                yield f"{path}: there is no folder {words[1]}"
        elif "/" in program:
            made = "/out/" in program or program.startswith("./")
            if not made and not os.path.exists(f"{TOP}/{program}"):
                yield f"{path}: there is no {program}"
        elif program not in KNOWN:
            yield f"{path}: {program} is no command that this page may use"


def lines_to_believe(*words):
    """What tests/gate/trusted_lines.py counts: lines and files."""
    command = [sys.executable, f"{TOP}/tests/gate/trusted_lines.py", *words]
    said = subprocess.run(command, capture_output=True, text=True, check=True).stdout
    return re.findall(r"\d+", said.splitlines()[-1])


def stale_counts():
    """The counts of the definitions that a reader has to believe, where a page has others."""
    lines, files = lines_to_believe()
    read_lines, read_files = lines_to_believe("--reading")
    all_lines, all_files = lines_to_believe("--calls")
    said_lines, said_files = lines_to_believe("--messages")
    trust = text_of("docs/TRUST.md")
    for count in (
        f"{lines} lines of code in {files} files",
        f"{read_lines} lines in {read_files} files",
        f"{all_lines} lines in {all_files} files",
        f"{said_lines} lines in {said_files} files",
    ):
        if count not in trust:
            yield f"docs/TRUST.md: it has to say {count}"
    if f"[{read_lines} lines](docs/TRUST.md)" not in text_of("README.md"):
        yield f"README.md: it has to say {read_lines} lines"


def wrong():
    for path in pages():
        text = text_of(path)
        yield from lost_links(path, text)
        if path in MADE:
            continue
        for sentence in sentences(text):
            count = len(sentence.split())
            if count > WORDS:
                yield f"{path}: a sentence of {count} words: {sentence[:60]}.."
    for path in ("README.md", "CONTRIBUTING.md", "docs/REBUILD.md"):
        yield from lost_commands(path, text_of(path))
    yield from stale_counts()
    made = subprocess.run([sys.executable, f"{TOP}/tests/gate/api.py"], capture_output=True, text=True, check=True)
    if made.stdout != text_of("docs/API.md"):
        yield "docs/API.md: not what tests/gate/api.py makes of the sources"


def links_below(folder):
    """The links that lead nowhere, of all pages below a folder."""
    for base, _, names in os.walk(folder):
        for name in sorted(names):
            if name.endswith(".md"):
                path = os.path.relpath(os.path.join(base, name), folder)
                yield from lost_links(path, text_of(path, folder), folder)


def main():
    if sys.argv[1:2] == ["--links"]:
        found = list(links_below(sys.argv[2]))
        print("\n".join(found) if found else "each link leads somewhere")
        return 1 if found else 0
    found = list(wrong())
    print("\n".join(found) if found else f"the pages are in order: {len(pages())} of them")
    return 1 if found else 0


if __name__ == "__main__":
    sys.exit(main())
