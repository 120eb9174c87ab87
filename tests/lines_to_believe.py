#!/usr/bin/env python3
"""How many lines a reader must believe: the definitions that the contracts of the public calls and demand 3
cite, to their end.

    python3 tests/lines_to_believe.py

For each file that holds one of them (docs/TRUST.md, 'What a reader must believe'): all its lines, and those
that are no import, comment or blank. The files are found from the contracts' own names, as
tests/find_dead.py reads them.
"""
import os
import re

import find_dead as dead

# The crates with the public calls: the doors, and the calls of Rust that the doors or the documents name.
PUBLIC = "doors format_tokens format_source read_back piece_reader sheet lookahead".split()
# Of these crates the named functions alone: the others are `pub` for the crates above.
NAMED = {
    "lookahead": "sig_measure group_measure should_break_sig should_break_list block_is_single_line"
                 " next_has_comment".split(),
}
DEMAND_3 = "first_half second_half first_half_source second_half_source second_half_beside".split()


def public_contracts(file):
    functions = list(re.finditer(r"(\bpub )?(?:\bextern +)?\bfn (\w+)", file.body))
    ends = [function.start() for function in functions[1:]] + [len(file.body)]
    named = NAMED.get(file.crate)
    return [clause for function, end in zip(functions, ends)
            if function[1] and (named is None or function[2] in named)
            for clause in dead.contracts(file.body[function.start():end])]


def believed(files, meant):
    """The files that hold a definition which a public contract or demand 3 needs."""
    texts = [(text, file) for file in files if file.code and file.module == "lib" and file.crate in PUBLIC
             for text in public_contracts(file)]
    texts += [(d.parameters + d.statement(), file) for file in files for d in dead.promised(file)
              if d.name in DEMAND_3]
    said = set().union(*(meant(words, file) for text, file in texts for words in dead.uses(text)))
    return {declared.file for declared in dead.reached(said)}


def counts():
    """Of each file, in the order of crates.txt: its lines, those that say something, its path."""
    files = dead.all_files()
    with open(os.path.join(dead.ROOT, "crates.txt"), encoding="utf-8") as listed:
        crates = [re.match(r"\w*", line).group() for line in listed]
    found = believed(files, dead.link(files))
    for file in sorted(found, key=lambda file: (crates.index(file.crate), file.path)):
        lines = open(os.path.join(dead.ROOT, file.path), encoding="utf-8").read().splitlines()
        said = [line for line in lines
                if line.strip() and not line.strip().startswith("--") and not line.startswith("use ")]
        yield len(lines), len(said), file.path


def main():
    found = list(counts())
    for count in found:
        print("%4d %4d  %s" % count)
    lines, bare, _ = zip(*found)
    print("%4d %4d  in %d files" % (sum(lines), sum(bare), len(found)))


if __name__ == "__main__":
    main()
