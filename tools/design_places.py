"""Lists the places in crates/*/src that docs/DESIGN-PASS.md counts, point by point: where the code has an older
language's form, or may have it. A place is a line to look at and no verdict; the page says of each what became
of it.

    python3 tools/design_places.py [FOLDER] [--counts]

FOLDER is a checkout, this one if none is named.
"""

import collections
import pathlib
import re
import sys

NUMBERS = r"(?:u8|u32|u64|usize)"
# Names that stand for a kind, a state, a refusal or a choice.
CODES = r"(?:kind|what|before|style|prev|near|last|fn_state|state|refusal|number|which|call|first|second|curr|opener|closer|other_opener|other_closer|top|brace)"

HEADS = re.compile(r"^\s*(?:#\[.*\]\s*)?(?:pub(?:\([a-z]+\))? )?(?:extern \"C\" )?fn (\w+)")


def functions(text):
    """The functions of a file: (line, name, head with its clauses, body)."""
    lines = text.split("\n")
    found = []
    at = 0
    while at < len(lines):
        match = HEADS.match(lines[at])
        if not match:
            at += 1
            continue
        indent = len(lines[at]) - len(lines[at].lstrip())
        start = at
        while at < len(lines) and lines[at] != " " * indent + "{" and not lines[at].endswith(") {") and not re.search(r"\) -> .*\{$", lines[at]):
            at += 1
        body = at
        while at < len(lines) and lines[at] != " " * indent + "}":
            at += 1
        found.append((start + 1, match[1], "\n".join(lines[start : body + 1]), "\n".join(lines[body + 1 : at])))
        at += 1
    return found


def sources(root):
    for path in sorted((root / "crates").glob("*/src/**/*.rt")):
        yield path, str(path.relative_to(root / "crates")), path.read_text(encoding="utf-8")


def lines_like(root, pattern):
    seen = re.compile(pattern)
    return [f"{name}:{n}: {line.strip()}" for _, name, text in sources(root) for n, line in enumerate(text.split("\n"), 1) if seen.search(line) and not line.strip().startswith("//")]


def clauses(head):
    """The clauses of a head, white space folded."""
    flat = re.sub(r"\s+", " ", head)
    return [it.strip() for it in re.findall(r"(?:requires|ensures)(?: \w+)? \{ (.*?) \}(?= requires| ensures| \{|$)", flat)]


def point_1(root):
    yield "enums, of which some have the shape of Option or Result", lines_like(root, r"^\s*(?:pub )?enum \w+")
    yield "constants that number kinds and refusals", [it for it in lines_like(root, r"^\s*(?:pub )?const \w+: u(?:8|32)\b") if re.match(r"(?:rows/src/kinds|shared/src/refusals)", it)]
    yield "parameters and fields that hold a kind, a state, a refusal or a choice as a number", lines_like(root, rf"\b{CODES}: {NUMBERS}\b(?!;)")
    yield "answers in which a number stands for none", [f"{name}:{n}: {text.split(chr(10))[n - 2].strip()}" for _, name, text in sources(root) for n, f, head, body in functions(text) if re.search(rf"-> {NUMBERS}\b", head) and re.search(r"//.*\b(?:or|and) (?:0|3)(?: where| for|,|\.|$)|one past", "\n".join(text.split("\n")[max(0, n - 5) : n - 1]))]


def point_2(root):
    shapes = collections.defaultdict(list)
    for _, name, text in sources(root):
        for n, f, head, body in functions(text):
            shape = re.sub(r"\s+", " ", re.sub(r"//.*", "", body))
            shape = re.sub(r"\b\d[\w]*\b", "0", shape)
            shape = re.sub(r"b'(?:\\.|.)'", "0", shape)
            shape = re.sub(r"\bu(?:8|32|64|size)\b", "T", shape)
            shape = re.sub(r"\b[A-Za-z_]\w*\b", "x", shape)
            if len(shape) > 40:
                shapes[shape].append(f"{name}:{n}: {f}")
    yield "functions whose bodies differ only in names, sizes and constants", [" ~ ".join(it) for it in shapes.values() if len(it) > 1]


def point_3(root):
    yield "loops that count by hand", lines_like(root, r"^\s*(?:while |loop \{|for \w+ in (?:0|\w+)\.\.)")


def point_4(root):
    found = []
    for _, name, text in sources(root):
        for n, f, head, body in functions(text):
            flat = re.sub(r"\s+", " ", body).strip()
            result = re.search(r"-> (.*?)(?: \{| requires| ensures|$)", re.sub(r"\s+", " ", head))
            if re.fullmatch(r"\w+ as \w+", flat) or re.fullmatch(r"if \w+ \{ return (?:0|1); \} (?:0|1)", flat) or (result and result[1].strip() == "bool" and re.search(r"\[(?:0|i)\] (?:!=|==)", flat)) or re.match(r"print_(?:number|pair|report|answer|refusal|slots)", f):
                found.append(f"{name}:{n}: {f}")
    yield "functions that convert, compare or print by hand", found


def point_5(root):
    facts, params = collections.Counter(), collections.Counter()
    for _, name, text in sources(root):
        for n, f, head, body in functions(text):
            for it in {c for clause in clauses(head) for c in re.split(r" × ", clause)}:
                facts[it] += 1
            flat = re.sub(r"\s+", " ", head)
            match = re.search(r"fn \w+(?:<.*?>)?\((.*?)\)(?: ->| \{| requires| ensures|$)", flat)
            if match:
                names = [p.strip() for p in match[1].split(",") if ":" in p]
                for i in range(len(names)):
                    for j in range(i + 2, min(len(names), i + 4)):
                        params[", ".join(names[i : j + 1])] += 1
    yield "facts in three or more contracts", [f"{n} times: {it}" for it, n in facts.most_common() if n > 2 and len(it) > 12]
    yield "three or four parameters that stand together in three or more functions", [f"{n} times: {it}" for it, n in params.most_common() if n > 2]


def point_6(root):
    found = []
    for _, name, text in sources(root):
        for n, f, head, body in functions(text):
            flat = re.sub(r"\s+", " ", head.split("requires")[0].split("ensures")[0])
            if re.search(r": &mut \[\w+\]", flat) and re.search(r"\b(?:len|n|at|to|count): usize", flat):
                found.append(f"{name}:{n}: {f}")
    yield "functions that take a buffer and the length of what stands in it", found


def point_7(root):
    yield "switches on a number that says which step to run", lines_like(root, r"\b(?:which|call) == ")


def point_8(root):
    files = sorted((root / "crates").glob("*/proofs/**/Answers.antt"))
    yield "files of answers", [str(it.relative_to(root / "crates")) for it in files]


POINTS = [point_1, point_2, point_3, point_4, point_5, point_6, point_7, point_8]


def main():
    words = [it for it in sys.argv[1:] if it != "--counts"]
    root = pathlib.Path(words[0] if words else pathlib.Path(__file__).resolve().parent.parent)
    for number, point in enumerate(POINTS, 1):
        for what, places in point(root):
            print(f"{number}. {what}: {len(places)}")
            if "--counts" not in sys.argv:
                for it in places:
                    print(f"    {it}")


if __name__ == "__main__":
    main()
