#!/usr/bin/env python3
"""Compares the table 'Where to look to change what' of docs/ARCHITECTURE.md with the files.

Each row has probe words: words or phrases at which a change of that kind is made, as they stand for an instance that is
there already. The row must name exactly the files that hold one of them. Files are those of src/, specs/ and proofs/ of each
crate, without tests, without the answers in the folders of proofs/, and without lines of imports and of comments.

A file is written with its crate (`mc_text/specs/Lines.antt`), or without it if the crate is that of the file before it
(`src/lines.rt`), or alone if the folder is too (`Forms.antt`). A document of a row must be there.

usage: check_changes.py          compares; the exit status is 0 if all rows say what is so, else 1
       check_changes.py WORD..   prints which files hold each word or phrase
"""
import os
import re
import subprocess
import sys

PAGE = "docs/ARCHITECTURE.md"
HEAD = "| change | probe words | files |"
SKIPPED = ("use ", "pub use ", "ghost use ", "//", "--")


def texts():
    """The files that count, each with its text."""
    listed = subprocess.run(["git", "ls-files", "-co", "--exclude-standard", "crates"], capture_output=True, text=True, check=True)
    found = {}
    for path in listed.stdout.splitlines():
        inside = re.fullmatch(r"crates/\w+/(?:specs/\w+\.antt|proofs/\w+\.antt|src/[\w/]+\.rt)", path)
        if inside and "tests" not in path and os.path.isfile(path):
            with open(path, encoding="utf-8") as file:
                lines = [line for line in file if not line.lstrip().startswith(SKIPPED)]
            found[path] = "".join(lines)
    return found


def holders(probe, found):
    """The files that hold a probe, whose ends are ends of words."""
    before = r"(?<!\w)" if re.match(r"\w", probe) else ""
    after = r"(?!\w)" if re.search(r"\w$", probe) else ""
    pattern = re.compile(before + re.escape(probe) + after)
    return {path for path, text in found.items() if pattern.search(text)}


def quoted(cell):
    return re.findall(r"`([^`]+)`", cell)


def named(cell):
    """The files and the documents that a cell names."""
    files, documents, folder = set(), set(), ["", ""]
    for name in quoted(cell):
        parts = name.split("/")
        if parts[0] in ("docs", "README.md"):
            documents.add(name)
            continue
        if len(parts) > 1 and parts[0] not in ("src", "specs", "proofs"):
            folder = parts[:-1]
        elif len(parts) > 1:
            folder = folder[:1] + parts[:-1]
        files.add("/".join(["crates", *folder, parts[-1]]))
    return files, documents


def rows():
    with open(PAGE, encoding="utf-8") as file:
        page = file.read()
    for line in page.split(HEAD, 1)[1].splitlines()[2:]:
        if not line.startswith("|"):
            break
        yield [cell.strip() for cell in line.strip("|").split(" | ")]


def main():
    found = texts()
    if len(sys.argv) > 1:
        for probe in sys.argv[1:]:
            print(f"{probe}: {' '.join(sorted(path[7:] for path in holders(probe, found)))}")
        return 0
    wrong, count, seen = 0, 0, set()
    for change, probes, cell in rows():
        count += 1
        files, documents = named(cell)
        hold = set().union(*(holders(probe, found) for probe in quoted(probes)))
        told = [f"{path} holds a probe word and is not named" for path in sorted(hold - files)]
        told += [f"{path} is named and holds no probe word" for path in sorted(files - hold)]
        told += [f"{path} is not there" for path in sorted(documents) if not os.path.isfile(path)]
        told += [f"no file holds {probe}" for probe in quoted(probes) if not holders(probe, found)]
        if not quoted(probes):
            told.append("no probe words")
        for line in told:
            print(f"{PAGE}: {change}: {line}")
        wrong += len(told)
        seen |= files
    print(f"{count} rows of changes, {len(seen)} files: " + ("as they say" if not wrong else f"{wrong} differences"))
    return 1 if wrong or not count else 0


if __name__ == "__main__":
    sys.exit(main())
