#!/usr/bin/env python3
"""Finds what nothing uses in crates/: imports, lemmas, definitions, dependencies.

    python3 tests/find_dead.py [CRATE..]

It prints a line for each find, 'path:line: what', and the counts at the end; its exit status is always 0. It reads names and
proves nothing: of two things of one name in a file it takes each use for a use of both, and so may miss a find. It finds:

- a name that a `use` line brings and the rest of the file does not use;
- a declaration of proofs/ that no proved contract and no promise needs, by itself or through others;
- a declaration of specs/ that nothing needs, and one that only proofs/ need, which belongs there;
- a dependency in crates.txt that no file of its crate names.

What a must-fail edit puts into a file counts as that file's text.
"""
import fnmatch
import os
import pathlib
import re
import sys

ROOT = os.path.dirname(os.path.dirname(os.path.abspath(__file__)))

# Theorems that only documents name, by module of proofs/: they are promises, and their statements count as contracts.
PROMISES = {
    "definition.Demand3": "first_half second_half",  # demand 3
    "format_source.Demand3": "first_half_source second_half_source second_half_beside",  # the same of the shebang wrapper
    "definition.Cases": "paper more",  # worked cases, by computation
    "definition.Setters": "sets_*",  # a setter changes its field and no other
    "*.Value": "little_endian_value",  # four bytes tell their number
    "piece_reader.Counting": "counted-fit",  # a slice for as many pieces as were counted has room for them
    "sheet.Written": "written-reads line_written",  # a line of a sheet and its row
    "*.Reported": "reported_injective",  # no two answers have the same report
    # laws that other crates may cite
    "lookahead.Looking": "ends_either top_opened top_closed top_less top_above top_eof top_found top_more",
    "formatter.Numbered": "other_kind",
    "*.Known": "*_known",  # an act of the walk leaves the last kind and the fn state among their values
}

NAME = r"(?:«[^»\n]*»|[^\s(){}.;,@\"«»]+)"
ATOM = re.compile(r"(\.?)(%s(?:\.%s)*)|[(){};,@]" % (NAME, NAME))
MARKS = r"(?:(?:unfoldable|abbrev|pub|axiom) )*"
SIGNATURE = re.compile(r"%s(%s)(?: \{[^}:]*\})?(?: :(?:\s|$)|$)" % (MARKS, NAME))
TYPE = re.compile(r"%s(?:data|record) (%s)" % (MARKS, NAME))
RULESET = re.compile(r"%sruleset (%s) =" % (MARKS, NAME))
LINE = re.compile(r"^( *)(?:module \S+(.*?)\bwhere[ \t]*|(\S[^\n]*))$", re.M | re.S)
USE = re.compile(r"^[ \t]*(?:(?:unfoldable|pub|ghost) )*use\s+([^\s{;]+?)(?:(?:\.|::)\{([^}]*)\})?(?:\s+as\s+([^\s;]+))?;?[ \t]*$", re.M)
CONTRACT = re.compile(r"\b(?:requires|ensures)\b\*?(?:\s+\w+)?\s*\{")
MEMBER = re.compile(r"\bghost\s+\w+\s*[=:]\s*\{")
IN_CLAUSES = re.compile(r"[^\x00-\x7f]|\b(?:requires|ensures|result)\b|\.(?:now|old|new)\b")
TACTIC = re.compile(r"#!?\[tactic\(.*?\)\]", re.S)
HOME = re.compile(r"Rattle\.(\w+)\.(specs|proofs)\.(.+)")
BRACKETS = list("(){};,@")
NO_BINDER = ["", ":", "=", "λ", "let", "in"]


# ---- texts

def blank(found):
    """Spaces for what was found, so that the rest keeps its place."""
    return re.sub(r"[^\n]", " ", found.group())


def without_comments(text, code):
    if code:
        return re.sub(r"//[^\n]*|/\*.*?\*/|\"(?:[^\"\\\n]|\\.)*\"|b'(?:[^'\\]|\\.)'", blank, text, flags=re.S)
    return re.sub(r"\"(?:[^\"\\\n]|\\.)*\"|(?<![^\s(){}.;,@])--[^\n]*|\{-.*?-\}", blank, text, flags=re.S)


def unmarked(name):
    """«x» is x."""
    return name[1:-1] if name.startswith("«") else name


def spellings(name):
    """How a text may write a name: an operator by its parts too, `◌≡◌` by `≡`."""
    return {name} | {part for part in name.split("◌") if part}


def uses(text):
    """The dotted paths of a text, as lists of words: no field, no label of a record or an argument, no binder of a type."""
    atoms = list(ATOM.finditer(text))
    words = [[unmarked(w) for w in re.findall(NAME, a[2])] if a[2] else [a.group()] for a in atoms] + [[""]]
    skipped = set()
    for i, atom in enumerate(atoms):
        first_in_line = text[text.rfind("\n", 0, atom.start()) + 1:atom.start()].strip() in ("", "pub")
        label = words[i + 1] == ["="] and i > 0 and words[i - 1][0] in ("{", ";")
        if atom[1] or words[i][0] in BRACKETS or label or (words[i + 1] == [":"] and first_in_line):
            skipped.add(i)
        if words[i][0] in ("(", "{"):
            end = next(j for j in range(i + 1, len(words)) if len(words[j]) > 1 or words[j][0] in BRACKETS + NO_BINDER)
            skipped.update(range(i + 1, end) if words[end] == [":"] else [])
    return [words[i] for i in range(len(atoms)) if i not in skipped]


# ---- files

class Declared:
    """A declaration: its name, its constructors' names, its text with the parameters of the blocks around it."""

    def __init__(self, name, file, start, indent, parameters):
        self.name, self.file, self.start, self.indent, self.text = name, file, start, indent, ""
        self.parameters, self.needs = parameters, set()

    def names(self):
        is_data = re.match(MARKS + "data ", self.text.strip())
        lines = re.findall(r"^ +((?:%s )+):" % NAME, self.text, re.M) if is_data else []
        return [self.name] + [unmarked(name) for line in lines for name in line.split()]

    def is_public(self):
        return "pub" in re.match(MARKS, self.text.strip()).group().split()

    def statement(self):
        """The signature, without the clauses; of a type, all of it."""
        if TYPE.match(self.text.strip()):
            return self.text
        return re.match(r" *\S[^\n]*\n(?: {%d,}[^\n]*\n)*" % (self.indent + 1), self.text).group()


class File:
    def __init__(self, path):
        self.path, self.code = path, path.endswith(".rt")
        _, self.crate, self.place, *rest = path.split("/")
        self.module = ".".join(rest).rsplit(".", 1)[0]
        with open(os.path.join(ROOT, path), encoding="utf-8") as opened:
            self.text = without_comments(opened.read(), self.code)
        self.imports = [found for use in USE.finditer(self.text) for found in imported(use, self)]
        self.body = USE.sub(blank, self.text)
        said = [*contracts(self.body), *contracts(self.body, MEMBER), *lemmas_used(self)] if self.code else []
        self.contracts = "\n".join(said)
        self.edits = "\n".join(edits(self))
        self.declared = [] if self.code else declarations(self)
        self.scope, self.modules = {}, {}

    def line(self, start):
        return self.text.count("\n", 0, start) + 1


class Import:
    """A name that a `use` line brings: the item of a module, or a module (then there is no item). Code hands a `pub` one on."""

    def __init__(self, name, module, item, line, code, handed_on):
        self.name, self.module, self.item, self.line = unmarked(name), module, item, line
        self.code, self.handed_on = code, code and handed_on


def imported(use, file):
    line, code = file.line(use.start()), file.code and not use.group().lstrip().startswith("ghost")
    handed_on = use.group().lstrip().startswith("pub")
    if use[2] is None:
        return [Import(use[3] or re.split(r"\.|::", use[1])[-1], use[1], None, line, code, handed_on)]
    found = []
    for item in re.finditer(r"[^,\s][^,]*", use[2]):
        name, *other = item.group().split()
        below, _, last = name.rpartition(".")
        module = use[1] + "." + below if below else use[1]
        line = file.line(use.start(2) + item.start())
        found.append(Import(other[1] if other else last, module, unmarked(last), line, code, handed_on))
    return found


def edits(file):
    """What the must-fail edits of its crate put into a file of antt, or into the clauses of a file of code."""
    for edit in pathlib.Path(ROOT, "crates", file.crate, "must-fail").glob("*.edit"):
        lines = edit.read_text(encoding="utf-8").split("\n")
        if "file: " + file.path.split("/", 2)[2] in lines:
            new = (line[5:] for line in lines if line.startswith("new: "))
            yield from (line for line in new if IN_CLAUSES.search(line) or not file.code)


def lemmas_used(file):
    """The lemmas and definitions that its tactics name, as `using(crate::proofs::Runs::ends)`."""
    for tactic in TACTIC.finditer(file.body):
        for crate, place, rest in re.findall(r"\b(\w+)::(proofs|specs)::([\w:]+)", tactic.group()):
            home = file.crate if crate == "crate" else crate
            yield ".".join(["Rattle", home, place, *rest.split("::")])


def contracts(code, marks=CONTRACT):
    """What the clauses of the contracts say; by MEMBER, what the `ghost` members of traits and of their impls say."""
    for clause in marks.finditer(code):
        depth, end = 1, clause.end()
        while depth:
            depth += {"{": 1, "}": -1}.get(code[end], 0)
            end += 1
        yield code[clause.end():end - 1]


def declarations(file):
    """A declaration is a signature, a type or a set of rules, and what follows it to the next one.

    A block's parameters belong to each declaration in it.
    """
    found, blocks = [], [[-1, 0, ""]]
    for line in LINE.finditer(file.body):
        indent, own = len(line[1]), line[3]
        while indent <= blocks[-1][0]:
            blocks.pop()
        if own is None:
            blocks.append([indent, None, blocks[-1][2] + line[2]])
            continue
        if blocks[-1][1] is None:
            blocks[-1][1] = indent
        if own.startswith(("infix", "mod ", "pub mod ")):
            continue
        named = (TYPE.match(own) or RULESET.match(own) or SIGNATURE.match(own)) if indent == blocks[-1][1] else None
        if named:
            found.append(Declared(unmarked(named[1]), file, line.start(), indent, blocks[-1][2]))
        if found:
            found[-1].text += line.group() + "\n"
    return found


# ---- who needs whom

def link(files):
    """Gives each file its scope, and each declaration those that its text names. Returns what a path means in a file."""
    homes = {(file.crate, file.place, file.module): file for file in files}

    def at(module):
        home = HOME.fullmatch(module)
        return homes.get(home.groups()) if home else None

    def members(module, item):
        file = at(module)
        return {d for d in file.declared if item in d.names()} if file else set()

    def meant(words, file):
        found = set().union(*(file.scope.get(s, set()) for s in spellings(words[0])))
        path = file.modules.get(words[0], words[0]).split(".") + words[1:]
        return found.union(*(members(".".join(path[:k]), path[k]) for k in range(1, len(path))))

    for file in files:
        for one in file.imports:
            if one.item is None:
                file.modules[one.name] = one.module
        known = [(one.name, members(one.module, one.item)) for one in file.imports if one.item]
        for name, those in known + [(name, {d}) for d in file.declared for name in d.names()]:
            for spelling in spellings(name):
                file.scope.setdefault(spelling, set()).update(those)
    for declared in (d for file in files for d in file.declared):
        text = declared.parameters + "\n" + declared.text
        declared.needs = set().union(*(meant(words, declared.file) for words in uses(text))) - {declared}
    return meant


def reached(roots, among=lambda declared: True):
    found, waiting = set(), list(roots)
    while waiting:
        declared = waiting.pop()
        if declared not in found and among(declared):
            found.add(declared)
            waiting.extend(declared.needs)
    return found


# ---- the finds

def idle_imports(file):
    text = (file.contracts if file.code else file.body) + "\n" + file.edits
    spelled = {s for words in uses(text) for s in spellings(words[0])}
    spelled |= {one.module.split(".")[0] for one in file.imports if not one.code}
    words = set(re.findall(r"\w+", file.body))
    for one in file.imports:
        whole = one.item is None and one.module + "." in file.body  # the module is named by its whole path
        if not one.handed_on and (one.name not in words if one.code else not (spellings(one.name) & spelled or whole)):
            yield file.crate, file.path, one.line, "`%s` is imported and not used" % one.name


def promised(file):
    home = file.crate + "." + file.module
    names = [name for module, names in PROMISES.items() if fnmatch.fnmatchcase(home, module) for name in names.split()]
    return [d for d in file.declared if file.place == "proofs" and any(fnmatch.fnmatchcase(d.name, name) for name in names)]


def proving(file):
    """What the check looks for in the proof of a function: its answers and invariants, or the end of a walk."""
    last = file.module.rsplit(".", 1)[-1]
    if file.place != "proofs" or last == file.module:
        return []
    if last == "Proof":
        return [d for d in file.declared if d.name.endswith("-spec")]
    return [d for d in file.declared if d.is_public()] if last in ("Answers", "Invariants") else []


def idle_declarations(files, meant):
    promises = [d for file in files for d in promised(file)]
    said = set().union(*(meant(words, file) for file in files for words in uses(file.contracts + "\n" + file.edits)))
    said |= set().union(*(meant(words, d.file) for d in promises for words in uses(d.parameters + d.statement())))
    specs = reached(said, lambda declared: declared.file.place == "specs")
    needed = reached(list(said) + promises + [d for file in files for d in proving(file)])
    everyone = [d for file in files for d in file.declared]
    cited = set().union(*(d.needs for d in everyone))
    for one in everyone:
        why = "only what nothing needs uses it" if one in cited else "nothing uses it"
        if one in needed:
            why = "only proofs use it" if one.file.place == "specs" and one not in specs else None
        if why:
            yield one.file.crate, one.file.path, one.file.line(one.start), "`%s`: %s" % (one.name, why)


def idle_dependencies(files):
    with open(os.path.join(ROOT, "crates.txt"), encoding="utf-8") as opened:
        lines = opened.read().split("\n")
    for number, line in enumerate(lines, 1):
        listed, _, names = line.split("#")[0].partition(":")
        crate = next(iter(listed.split()), "")
        text = "\n".join(file.text for file in files if file.crate == crate)
        for name in names.split():
            if not re.search(r"\b%s::|\bRattle\.%s\." % (name, name), text):
                yield crate, "crates.txt", number, "`%s`: no file of `%s` names it" % (name, crate)


def lost_promises(files):
    """The names in PROMISES that no file declares: the list has to be made true."""
    there = [(file.crate + "." + file.module, d.name) for file in files if file.place == "proofs" for d in file.declared]
    for module, names in PROMISES.items():
        for name in names.split():
            if not any(fnmatch.fnmatchcase(m, module) and fnmatch.fnmatchcase(n, name) for m, n in there):
                yield module.split(".")[0], "tests/find_dead.py", 0, "`%s` of %s is not there" % (name, module)


def all_files():
    crates = pathlib.Path(ROOT, "crates")
    found = [*crates.glob("*/src/**/*.rt"), *crates.glob("*/specs/**/*.antt"), *crates.glob("*/proofs/**/*.antt")]
    return [File(path.relative_to(ROOT).as_posix()) for path in sorted(found)]


def main():
    files = all_files()
    meant = link(files)
    sorts = {
        "imports": [find for file in files for find in idle_imports(file)],
        "declarations": list(idle_declarations(files, meant)),
        "dependencies": list(idle_dependencies(files)),
        "promises that are not there": list(lost_promises(files)),
    }
    for finds in sorts.values():
        finds[:] = [find for find in finds if not sys.argv[1:] or find[0] in sys.argv[1:]]
        for _, path, line, what in finds:
            print("%s:%d: %s" % (path, line, what))
    print("%d files; %s" % (len(files), ", ".join("%d %s" % (len(finds), sort) for sort, finds in sorts.items())))


if __name__ == "__main__":
    main()
