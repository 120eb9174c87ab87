#!/usr/bin/env python3
"""What each crate has, from what the gate printed, as the table and the list of docs/BENCHMARKS.md
('The gate').

    .ci/run > LOG; python3 tests/gate_table.py LOG

Of each crate: the functions that were proved, the same with its tests, and its must-fail edits, each with how
it was refused where that says less of a contract. rt prints no seconds. Of a crate that an earlier run on the
same machine proved it prints no functions either: 'kept' stands for them.
"""
import os
import re
import sys
import textwrap

ROOT = os.path.dirname(os.path.dirname(os.path.abspath(__file__)))
COLUMNS = 110
KEPT = "kept"
# What rt says behind 'refused, as it must be' where a refusal says less of the contract.
LESS = [("(only by a limit", "by a limit"), ("(only because a proof file names", "by a name alone")]


def read(log):
    """Of each crate its functions, those with its tests, and of each edit the name and how it was refused."""
    functions, tests, edits, proved = {}, {}, {}, 0
    with open(log, encoding="utf-8") as lines:
        for line in lines:
            if found := re.match(r"logic=proved (?:tests=\d+ )?functions=(\d+)", line):
                proved = int(found[1])
            elif found := re.match(r"rt: (\w+) proved$", line):
                functions[found[1]] = proved
            elif found := re.match(r"rt: (\w+): its tests are proved$", line):
                tests[found[1]] = proved
            elif found := re.match(r"rt: (\w+) is kept:", line):
                functions[found[1]] = KEPT
            elif found := re.match(r"rt: must-fail (\w+)/([\w.-]+)\.edit: refused, as it must be ?(.*)",
                                   line):
                how = [said for words, said in LESS if found[3].startswith(words)]
                edits.setdefault(found[1], []).append(" ".join([found[2], *("(%s)" % said for said in how)]))
    return functions, tests, edits


def main():
    functions, tests, edits = read(sys.argv[1])
    with open(os.path.join(ROOT, "crates.txt"), encoding="utf-8") as listed:
        crates = [crate for line in listed if (crate := re.match(r"\w*", line).group()) in functions]
    print("| crate | functions | with tests | edits |")
    print("|---|---|---|---|")
    for crate in crates:
        print("| `%s` | %s | %s | %s |"
              % (crate, functions[crate], tests.get(crate, ""), len(edits.get(crate, [])) or ""))
    print("\nThe edits:\n")
    for crate in crates:
        if crate in edits:
            item = "- `%s`: %s." % (crate, ", ".join(edits[crate]))
            print(textwrap.fill(item, COLUMNS, subsequent_indent="  ", break_on_hyphens=False))
    known = [n for n in functions.values() if n != KEPT]
    refused = sum(map(len, edits.values()))
    print("\n%d crates, %d functions in %d of them; %d edits refused"
          % (len(functions), sum(known), len(known), refused))


if __name__ == "__main__":
    main()
