#!/usr/bin/env python3
"""Holds docs/TRUST.md against the repository and the toolchain.

    python3 tests/check_trust.py

- Each fenced block begins with a line that names a file; the rest stands in that file, in this order. Runs of
  spaces and line feeds count as one space, and a line `..` says that something is left out there.
- 'What a reader must believe' lists the files that tests/lines_to_believe.py finds, each with its lines, and
  has its totals.
- The toolchain that it names is what `rt version` prints.

It prints what it finds and one line of result. The exit status is 1 if it found something.
"""
import os
import re
import shutil
import subprocess
import sys

import lines_to_believe

ROOT = os.path.dirname(os.path.dirname(os.path.abspath(__file__)))
PAPER = "docs/TRUST.md"


def read(path):
    with open(os.path.join(ROOT, path), encoding="utf-8") as opened:
        return opened.read()


def one_line(text):
    return " ".join(text.split())


def quoted(paper):
    """The fenced blocks: the file that each names, and its parts between lines `..`."""
    for block in re.findall(r"^```\w*\n(.*?)^```$", paper, re.M | re.S):
        name, _, text = block.partition("\n")
        yield name.strip(), [one_line(part) for part in re.split(r"^ *\.\. *$", text, flags=re.M)]


def stands(path, parts):
    """Whether the parts stand in the file, one after another."""
    if not os.path.isfile(os.path.join(ROOT, path)):
        return False
    text, at = one_line(read(path)), 0
    for part in parts:
        at = text.find(part, at)
        if at < 0 or not part:
            return False
        at += len(part)
    return True


def listed(paper):
    """The files of the list, as pairs of path and lines."""
    section = re.search(r"^## What a reader must believe$(.*?)^## ", paper, re.M | re.S)
    text = section[1] if section else ""
    for crate, item in re.findall(r"^- `(\w+)/specs`:(.*?)(?=^- |^$)", text, re.M | re.S):
        for name, lines in re.findall(r"`(\w+)`\s+(\d+)", item):
            yield "crates/%s/specs/%s.antt" % (crate, name), int(lines)


def counts_found(paper):
    """What is wrong with the list of definition files, and how many it should have."""
    counted = list(lines_to_believe.counts())
    right, said = {path: lines for lines, _, path in counted}, dict(listed(paper))
    found = ["%s has %s lines, the list says %s" % (path, right.get(path, "no"), said.get(path, "nothing"))
             for path in sorted(set(right) | set(said)) if right.get(path) != said.get(path)]
    total = "{:,} lines in {} files, {:,} without imports, comments and blanks".format(
        sum(right.values()), len(right), sum(bare for _, bare, _ in counted))
    if total not in one_line(paper):
        found.append("the total is not there: " + total)
    return found, len(right)


def version_found(paper):
    """What is wrong with the toolchain that is named, and what was asked."""
    if shutil.which("rt") is None:
        return [], "rt is not there, so its version was not asked for"
    version = one_line(subprocess.run(["rt", "version"], text=True, capture_output=True, check=True).stdout)
    found = [] if version in one_line(paper) else ["rt version prints: " + version]
    return found, "rt has the version named"


def main():
    paper = read(PAPER)
    blocks = list(quoted(paper))
    found = ["a block of %s does not stand there: %s" % (path, parts[0][:60])
             for path, parts in blocks if not stands(path, parts)]
    if not blocks:
        found.append("no block is quoted")
    wrong_counts, files = counts_found(paper)
    wrong_version, asked = version_found(paper)
    found += wrong_counts + wrong_version
    for find in found:
        print("%s: %s" % (PAPER, find))
    if found:
        sys.exit("%s: %d finds" % (PAPER, len(found)))
    said = "%s: %d blocks stand in their files, %d files have the lines listed, %s"
    print(said % (PAPER, len(blocks), files, asked))


if __name__ == "__main__":
    main()
