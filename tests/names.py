#!/usr/bin/env python3
"""Looks for what docs/PROMISES.md names: files and folders in `code`, and the names listed behind a file or a crate.

A table cell may say `path`: name, name. The path is a crate, a file without its ending, or a folder, under crates/; each name behind it
is looked for in that file or crate, as a definition, a theorem, a function, a clause or the label of a must-fail edit. It also compares
the table of refusals in README.md with the one in the C header."""
import os
import re
import sys

ROOT = os.path.join(os.path.dirname(os.path.abspath(__file__)), "..")
CRATES = os.path.join(ROOT, "crates")


def text_of(place):
    """All Rattle text of a file or a folder, and the labels of its must-fail edits; not what rt made of them, in out/."""
    if os.path.isfile(place):
        return open(place, encoding="utf-8").read()
    parts = []
    for folder, folders, files in os.walk(place):
        folders[:] = [name for name in folders if name != "out"]
        for name in files:
            if name.endswith((".rt", ".antt")):
                parts.append(open(os.path.join(folder, name), encoding="utf-8").read())
            elif name.endswith(".edit"):
                parts.append(" edit " + name[:-5] + " ")
    return "\n".join(parts)


def find(path):
    """The file or folder that a path of PROMISES means."""
    for base in (CRATES, ROOT):
        for ending in ("", ".antt", ".rt"):
            place = os.path.join(base, path + ending)
            if os.path.exists(place):
                return place
    return None


def listed(names):
    """The names of a list; the first that is followed by other words is the last."""
    found = []
    for part in names.split(","):
        words = part.split()
        found += words[:1]
        if len(words) != 1:
            break
    return found


def missing_names(line):
    missing = []
    for path, names in re.findall(r"`([A-Za-z0-9_/.+]+)`: ([A-Za-z0-9_◌\-+, ]+)", line):
        place = find(path)
        if place is None:
            missing.append(path)
            continue
        text = text_of(place)
        for name in listed(names):
            if not re.search(r"(?<![A-Za-z0-9_◌\-])" + re.escape(name) + r"(?![A-Za-z0-9_◌\-])", text):
                missing.append(path + ": " + name)
    return missing


def refusals(text, row):
    return [tuple(part.strip() for part in match) for match in re.findall(row, text, re.M)]


def main():
    missing = []
    checked = 0
    for line in open(os.path.join(ROOT, "docs", "PROMISES.md"), encoding="utf-8"):
        checked += len(re.findall(r"`[A-Za-z0-9_/.+]+`: ", line))
        missing += missing_names(line)
    readme = refusals(open(os.path.join(ROOT, "README.md"), encoding="utf-8").read(), r"^\| (\d+) \| (.*?) \| (.*?) \|$")
    header = refusals(open(os.path.join(ROOT, "bindings/c/fingerkerf.h"), encoding="utf-8").read(), r"^ \* +(\d+)  (.*?)  +(.*)$")
    if readme != header or len(readme) != 19:
        missing.append("the refusals of README.md and of the C header differ")
    for name in missing:
        print("not found:", name)
    print("names in docs/PROMISES.md: %d places, %d not found" % (checked, len(missing)))
    sys.exit(1 if missing else 0)


main()
