#!/usr/bin/env python3
"""Checks the documents' form, and that what they name is there.

    python3 tests/check_docs.py

- No line of a Markdown file is over 110 characters.
- Each file or folder that a document names in backticks is there: by its path from the root, below `crates/`,
  in a crate (`specs/Row.antt`), beside the document, or, for a name without a folder, anywhere. So is each
  that it names without them by a path from docs/, tests/, include/ or harness/. A pattern
  (`tests/make_replay_*.py`) fits something.
- Each section that any file cites, as in: specification, 'Rows', is a heading of docs/SPECIFICATION.md.
- The customer's paper is cited nowhere but in NOTICE, and once in each of the files of EXPLAINED.

It prints what it finds, 'path: what', and one line of result. The exit status is 1 if it found something.
"""
import fnmatch
import glob
import os
import re
import sys

ROOT = os.path.dirname(os.path.dirname(os.path.abspath(__file__)))
COLUMNS = 110
SPECIFICATION = "docs/SPECIFICATION.md"
EXPLAINED = ["docs/DECISIONS.md", SPECIFICATION]
PAPER = re.compile("document " + "01", re.I)
LEFT_OUT = {".git", "target", "out", "__pycache__"}
ABSENT = {"format.rs"}  # the Rust original, which is not in the repository
PAST = {"CHANGELOG.md", "docs/PORT.md", "docs/DESIGN-PASS.md"}  # they may name files that are there no more
NAMED = re.compile(r"[\w.*-]+(?:/[\w.*-]+)*/?")
SOURCE = re.compile(r"[\w*-]+\.(?:antt|rt|py|rs|sh|c|h|md|txt)")
HEAD = r"(?:`?docs/)?[Ss](?:pecification|PECIFICATION\.md`?),? \(?"
CITED = re.compile(HEAD + r"'([A-Z][^']*)'((?:,? (?:and |or )?'[A-Z][^']*')*)")


def all_paths():
    for folder, folders, files in os.walk(ROOT):
        folders[:] = sorted(set(folders) - LEFT_OUT)
        yield from (os.path.relpath(os.path.join(folder, file), ROOT) for file in sorted(files))


def read(path):
    with open(os.path.join(ROOT, path), encoding="utf-8", errors="replace") as opened:
        return opened.read()


def one_line(text):
    """The text without the marks that begin a comment's lines, in one line."""
    return " ".join(re.sub(r"^[ \t]*(?:///?!?|--|#|\*(?!\*)|>)[ \t]", "", text, flags=re.M).split())


# ---- lines and names of the documents

def long_lines(path, text):
    for number, line in enumerate(text.split("\n"), 1):
        if len(line) > COLUMNS:
            yield "%s: line %d has %d characters" % (path, number, len(line))


def is_there(name, beside, names):
    patterns = [os.path.join(ROOT, place, name) for place in ("", "crates", "crates/*", "bindings/*", beside)]
    if any(glob.glob(pattern) or glob.glob(pattern + ".antt") for pattern in patterns):
        return True
    return "/" not in name and any(fnmatch.fnmatch(known, name) for known in names)


def folders_known():
    places = "crates docs tests tools include harness bindings examples .ci specs proofs src"
    return set(os.listdir(os.path.join(ROOT, "crates"))) | set(places.split())


def missing_names(path, text, names, known):
    """The first word of each span in backticks, where it is a path below a known folder or a source file."""
    for span in re.findall(r"`([^`\n]+)`", re.sub(r"^```.*?^```$", "", text, flags=re.M | re.S)):
        word = span.split()[0] if span.split() else ""
        is_path = "/" in word and NAMED.fullmatch(word) and word.split("/")[0] in known
        is_file = SOURCE.fullmatch(word) and word not in ABSENT
        if (is_path or is_file) and not is_there(word, os.path.dirname(path), names):
            yield "%s: `%s` is not there" % (path, word)
    for word in sorted(set(re.findall(r"(?<![\w/`.])(?:docs|tests|include|harness)/[\w/.*-]*\w", text))):
        if not is_there(word, os.path.dirname(path), names):
            yield "%s: %s is not there" % (path, word)


# ---- what every file cites

def sections(text):
    for first, others in CITED.findall(text):
        yield first
        yield from re.findall(r"'([^']+)'", others)


def wrong_sections(path, text, headings):
    for section in sections(text):
        if section not in headings:
            yield "%s: no section '%s' in the specification" % (path, section)


def paper_cited(path, text):
    times = len(PAPER.findall(text))
    if times > (path in EXPLAINED):
        yield "%s: cites the customer's paper %d times" % (path, times)


def is_stored(path):
    """Data of a program's run."""
    return re.fullmatch(r"crates/\w+/(stdin|stdout)", path) is not None


def main():
    paths = list(all_paths())
    names, known = {os.path.basename(path) for path in paths}, folders_known()
    headings = re.findall(r"^#+ (.*?) *$", read(SPECIFICATION), re.M) if SPECIFICATION in paths else None
    found, documents, cited = [], 0, 0
    for path in paths:
        if path == "NOTICE" or is_stored(path):
            continue
        text = read(path)
        plain = one_line(text)
        found += paper_cited(path, plain)
        if path.endswith(".md"):
            documents += 1
            found += long_lines(path, text)
            found += missing_names(path, text, names, known) if path not in PAST else []
        if path != "tests/check_docs.py":
            cited += len(list(sections(plain)))
            found += wrong_sections(path, plain, headings) if headings is not None else []
    for find in found:
        print(find)
    unchecked = "" if headings is not None else ", not checked: %s is not there" % SPECIFICATION
    print("%d documents, %d sections cited%s; %d finds" % (documents, cited, unchecked, len(found)))
    sys.exit(1 if found else 0)


if __name__ == "__main__":
    main()
