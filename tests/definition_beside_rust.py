#!/usr/bin/env python3
"""Holds the definition of the layout call (crates/definition/specs/Layout.antt: `layout`) against the Rust, by computation.

    python3 tests/definition_beside_rust.py [LISTS [SEED]]

Builds format.rs (harness/, FORMAT_RS names the file if it is elsewhere), lays out LISTS token lists with it
(1000 unless given), and has the checker compute `layout` on the same lists: options, row bytes, text bytes
and an output go in; report and output come out. Texts, commas and the places of refusals 4 and 5 are the
Rust's, stepped token by token; the plain mark is the model's below, which goes by the specification, 'The
plain mark'. It checks a scratch crate over copies of the crates, outside the repository, and proves nothing of
them anew that `rt check` has proved. Needs rt, cargo and format.rs.
"""
import os
import random
import re
import shutil
import struct
import subprocess
import sys
import tempfile

HERE = os.path.dirname(os.path.abspath(__file__))
ROOT = os.path.dirname(HERE)
LISTS = int(sys.argv[1]) if len(sys.argv) > 1 else 1000
SEED = int(sys.argv[2]) if len(sys.argv) > 2 else 1
BATCH = 125
UNTOUCHED = 7  # a byte of the output before the call

LEXEMES = {0: [b""], 1: [b"", b"\n"], 2: [b"{"], 3: [b"}"], 4: [b"("], 5: [b")"], 6: [b"["], 7: [b"]"], 8: [b","], 9: [b":"], 10: [b";"],
           11: [b"?"], 12: [b"."], 13: [b".."], 14: [b"::"], 15: [b"#"], 16: [b"!"], 17: [b"!#"], 18: [b"-"], 19: [b"else"],
           20: [b"fn"], 21: [b"record"], 22: [b"a", b"name", b"x1"], 23: [b"1", b"1.5"], 24: [b"b1"], 25: [b'"s, ]"'], 26: [b"'c'"],
           27: [b"2.5"], 28: [b"true"], 29: [b"null"], 30: [b"arr"], 31: [b"map"], 32: [b"set"], 33: [b"result"], 34: [b"=", b"+", b"if", b"\xc3\xa9"]}
ALPHABETS = [
    [4, 5, 6, 7, 8, 22], [2, 3, 21, 20, 1, 19, 22, 8], [2, 3, 4, 5, 8, 22], [20, 22, 4, 5, 8, 1], [18, 23, 12, 13, 14, 9, 34, 22],
    [0, 1, 2, 3, 8, 22, 21], [21, 22, 2, 3, 8, 9, 1], list(range(35)), list(range(35)), [6, 7, 8, 1, 22], [2, 3, 19, 0, 22, 1],
]
HOSTILE = [b"", b"{", b",", b"a b", b"// x", b"1.", b"'", b"\n"]


def make(rng):
    alphabet = rng.choice(ALPHABETS)
    options = (rng.randrange(2), rng.choice([0, 1, 2, 4]), rng.choice([0, 1, 2, 8, 40]), rng.choice([0, 1, 4, 8, 40]))
    tokens = []
    trivia = rng.random() < 0.3
    for _ in range(rng.randrange(1, 14)):
        kind = rng.choice(alphabet)
        lexeme = rng.choice(HOSTILE) if rng.random() < 0.02 else rng.choice(LEXEMES[kind])
        side = lambda: [(rng.randrange(4), rng.choice([b"c", b"", b"two words"])) for _ in range(rng.randrange(1, 3))] if trivia and rng.random() < 0.15 else []
        tokens.append((kind, lexeme, side(), side()))
    return options, tokens


# ---- the plain mark (specification, 'The plain mark')

PIECE = re.compile(rb"[()\[\]{},;?]|\"(?:[^\"\\]|\\.)*\"|'(?:[^'\\]|\\.)*'|[0-9](?:[A-Za-z0-9_\x80-\xff]|\.(?=[0-9]))*|[A-Za-z0-9_\x80-\xff]+|[!#$%&*+\-./:<=>@\\^`|~]+", re.DOTALL)
OPERATOR = b"!#$%&*+-./:<=>@\\^`|~"
FIXED = {2: b"{", 3: b"}", 4: b"(", 5: b")", 6: b"[", 7: b"]", 8: b",", 9: b":", 10: b";", 11: b"?", 12: b".", 13: b"..", 14: b"::", 15: b"#", 16: b"!", 18: b"-", 19: b"else"}


def whole(w):
    found = PIECE.match(w)
    return bool(found) and found.end() == len(w)


def plain(tokens):
    written = [(k, w) for k, w, _, _ in tokens if k > 1]
    pairs = list(zip(written, written[1:]))
    kinds = [k for k, _, _, _ in tokens]
    def brace_after_comma(i):
        j = i - 1
        while j >= 0 and kinds[j] == 0:
            j -= 1
        return j >= 0 and kinds[j] == 8
    def empty_record(i):
        after = [j for j in range(i + 1, len(kinds)) if kinds[j] == 2]
        return bool(after) and after[0] + 1 < len(kinds) and kinds[after[0] + 1] == 3
    return (all(not lead and not trail for _, _, lead, trail in tokens)
            and all(k not in FIXED or w == FIXED[k] for k, w in written) and all(all(c in OPERATOR for c in w) for k, w in written if k == 17)
            and all(whole(w) for _, w in written)
            and not any(v[-1:] and v[-1] in OPERATOR and w[:1] and w[0] in OPERATOR and (k in (12, 13, 14, 15, 16, 17, 18) or j in (12, 13, 14, 9)) for (k, v), (j, w) in pairs)
            and not any(v[:1].isdigit() and j == 12 for (_, v), (j, _) in pairs)
            and not any(brace_after_comma(i) for i, k in enumerate(kinds) if k == 2)
            and not any(empty_record(i) for i, k in enumerate(kinds) if k == 21))


# ---- both sides

def line(options, tokens, source=None):
    """A list as the program `lay` reads it."""
    words = [str(n) for n in options] + ([] if source is None else ["S:" + source.hex()])
    for kind, lexeme, lead, trail in tokens:
        words += ["L%d:%s" % (k, c.hex()) for k, c in lead] + ["%d:%s" % (kind, lexeme.hex())] + ["R%d:%s" % (k, c.hex()) for k, c in trail]
    return " ".join(words)


def lay(lines, *words):
    """What the program `lay`, run with these words, writes of each line."""
    if subprocess.run([os.path.join(ROOT, "harness", "find_format.sh")], stdout=subprocess.DEVNULL).returncode:
        sys.exit(1)  # the script has said what is missing
    subprocess.run(["cargo", "build", "--release", "--offline", "--quiet"], cwd=os.path.join(ROOT, "harness"), check=True)
    program = os.path.join(ROOT, "harness", "target", "release", "lay")
    out = subprocess.run([program, *words], input="\n".join(lines) + "\n", text=True, capture_output=True, check=True).stdout
    return out.split("\n")[:-1]


def rust(lists):
    """The texts of format.rs."""
    return [bytes.fromhex(text) for text in lay(line(options, tokens) for options, tokens in lists)]


def antt_bytes(w):
    return "(" + "".join("%d ∷ " % b for b in w) + "[])"


def arguments(tokens):
    """The rows' bytes and the text of some tokens: what the rows name stands in the text in order."""
    rows, text = b"", b""
    for kind, lexeme, lead, trail in tokens:
        for what, k, w in [(0, k, c) for k, c in lead] + [(1, kind, lexeme)] + [(2, k, c) for k, c in trail]:
            rows += struct.pack("<4I", what, k, len(text), len(text) + len(w))
            text += w
    return rows, text


def answers(rng, lists):
    """For each list the size of an output, mostly enough, and what comes of the call by format.rs: the report's numbers and the output."""
    import make_replay_layout
    for (options, tokens), said in zip(lists, lay((line(options, tokens) for options, tokens in lists), "steps")):
        words = said.split(" ")
        text, steps = bytes.fromhex(words[0]), [tuple(map(int, word.split(":"))) for word in words[1:]]
        size = max(0, len(text) + rng.choice([0, 0, 1, 5, -1, -rng.randrange(1, 9)]))
        report, laid = make_replay_layout.walk(tokens, text, steps, size)
        yield size, report, bytes(size) if laid is None else laid + bytes([UNTOUCHED]) * (size - len(laid))


def module(lists, expected):
    with open(os.path.join(ROOT, "crates", "definition", "proofs", "Cases.antt"), encoding="utf-8") as opened:
        head = opened.read()
    unfolding = next(line for line in head.split("\n") if line.startswith("unfolding "))
    uses = "\n".join(line for line in head.split("\n") if line.startswith("use "))
    theorems = []
    for n, ((options, tokens), (size, report, out)) in enumerate(zip(lists, expected)):
        rows, text = arguments(tokens)
        call = "layout %d %d %d %d %s %s (replicate %d %d)" % (options + (antt_bytes(rows), antt_bytes(text), size, UNTOUCHED))
        answer = "success %d %d %d" % report[1:] if report[0] == 0 else "refuse %d %d" % report[:2]
        theorems.append("same%d : %s ≡ record { report = %s; out = %s }\n%s\nsame%d = refl\n\n" % (n, call, answer, antt_bytes(out), unfolding, n))
    return uses + "\n\n" + "".join(theorems)


def reached(crate, listed):
    """The crates that a crate depends on, and itself, by the lines of crates.txt."""
    below = [name for dep in listed[crate].split(":")[1].split() for name in reached(dep, listed)]
    return dict.fromkeys(below + [crate])


def write(path, text):
    os.makedirs(os.path.dirname(path), exist_ok=True)
    with open(path, "w", encoding="utf-8") as opened:
        opened.write(text)


def scratch_crate(scratch):
    """Makes a repository of copies of `definition` and the crates below it, and a crate over them, whose folder it answers."""
    with open(os.path.join(ROOT, "crates.txt"), encoding="utf-8") as opened:
        listed = {re.match(r"\w+", line).group(): line for line in opened if ":" in line and not line.startswith("#")}
    names = list(reached("definition", listed))
    for name in names:
        shutil.copytree(os.path.join(ROOT, "crates", name), os.path.join(scratch, "crates", name), ignore=shutil.ignore_patterns("out"))
    write(os.path.join(scratch, "crates.txt"), "".join(listed[name] for name in names) + "run: " + " ".join(names) + "\n")
    folder = os.path.join(scratch, "crates", "run")
    write(os.path.join(folder, "src", "lib.rt"), "// scratch\n#![tactic(auto)]\n")
    write(os.path.join(folder, "proofs", "Lib.antt"), "mod Run\n")
    return folder


def main():
    rng = random.Random(SEED)
    lists = [make(rng) for _ in range(LISTS)]
    expected = list(answers(rng, lists))
    # outside the repository, where `rt ci` would find files of no crate
    with tempfile.TemporaryDirectory() as scratch:
        compare(scratch_crate(scratch), lists, expected)


def compare(folder, lists, expected):
    compared = marks = refused = 0
    for at in range(0, LISTS, BATCH):
        some, said = lists[at:at + BATCH], expected[at:at + BATCH]
        write(os.path.join(folder, "proofs", "Run.antt"), module(some, said))
        run = subprocess.run(["rt", "check"], cwd=folder, text=True, capture_output=True)
        if run.returncode:
            print(run.stdout[-3000:], run.stderr[-3000:])
            sys.exit("lists %d to %d: the definition and the Rust differ, or the check could not be made" % (at, at + len(some)))
        compared += len(some)
        marks += sum(report[0] == 0 and report[3] for _, report, _ in said)
        refused += sum(report[0] != 0 for _, report, _ in said)
        print("%d calls by the definition, as by the Rust; %d bear the plain mark, %d are refused" % (compared, marks, refused), flush=True)


if __name__ == "__main__":
    main()
