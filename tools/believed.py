#!/usr/bin/env python3
"""Counts the lines of definitions that a reader must believe for a clause: those that it cites, and those that these cite.

    tools/believed.py                       the two counts of docs/LAW.md: of the law, and of a job's bytes
    tools/believed.py CRATE FUNCTION CLAUSE..   of these clauses of a public function
    tools/believed.py -v ..                 names each definition, with its file and its lines

A definition counts a line for its signature and one for each equation, and a record or a data one for each field or case,
however they are wrapped; comments, blank lines and imports do not count. The library's words, and the types of the code, are
not counted: the library has them, and src/ shows them.
"""
import pathlib
import re
import sys

ROOT = pathlib.Path(__file__).resolve().parent.parent
USE = re.compile(r"^\s*(?:ghost )?use (Rattle\.[\w.]+?)(?:\.\{([^}]*)\})?(?: as ([\w-]+))?;?\s*$")
START = re.compile(r"^(\s*)(?:abbrev pub|unfoldable pub|pub record|pub data|abbrev|record|data|pub)\s+([^\s:({]+)")
TOKEN = re.compile(r"[^\s(){}\[\];,λ∷=→×]+")

# The clauses of which docs/LAW.md gives the counts.
LAW = [("history", "make", ["law"]), ("history", "make_all", ["law"]), ("history", "carry_out", ["law"])]
BYTES = [("run", "carry_out", ["lines"])]


def imports(text):
    """What each name of a file's `use` lines stands for: (module, name), with no name for a whole module."""
    known = {}
    for line in text.splitlines():
        m = USE.match(line)
        if not m:
            continue
        module, names, alias = m.groups()
        if names is None:
            known[alias or module.split(".")[-1]] = (module, None)
            continue
        for name in names.split(","):
            own, _, other = name.strip().partition(" as ")
            known[other or own] = (module, own)
    return known


class Module:
    """A file of specs/: what it imports, and its definitions by name, each with its lines."""

    def __init__(self, path):
        self.path = path
        text = path.read_text()
        self.imports = imports(text)
        self.defined = {}
        lines, header, at = text.splitlines(), [], 0
        while at < len(lines):
            if lines[at].startswith("module _"):
                header = [lines[at]]
            m = START.match(lines[at])
            if m and not m.group(1).strip() and len(m.group(1)) <= 2:
                if not m.group(1):
                    header = []
                block = [lines[at]]
                at += 1
                while at < len(lines) and lines[at].strip() and not START.match(lines[at]) or (
                    at < len(lines) and START.match(lines[at]) and len(START.match(lines[at]).group(1)) > len(m.group(1))
                ):
                    block.append(lines[at])
                    at += 1
                name = m.group(2)
                self.defined.setdefault(name, []).extend(block)
                for constructor in self.constructors(block):
                    self.defined.setdefault(constructor, self.defined[name])
                continue
            at += 1

    @staticmethod
    def constructors(block):
        """The constructors of a `data`, which stand for it."""
        if not re.match(r"^\s*pub data", block[0]):
            return []
        return [m.group(1) for line in block[1:] if (m := re.match(r"^\s+(\w+) :", line))]


MODULES = {}


def module(name):
    """The file of specs/ that a module is, or none for the library's and the code's own."""
    if name not in MODULES:
        m = re.match(r"^Rattle\.(\w+)\.specs\.(\w+)$", name)
        path = ROOT / "crates" / m.group(1) / "specs" / f"{m.group(2)}.antt" if m else None
        MODULES[name] = Module(path) if path and path.is_file() else None
    return MODULES[name]


def bound(block):
    """The names that a definition's equations bind on their left sides, and its λ."""
    names = set(re.findall(r"λ ([^.]*)\.", "\n".join(block)))
    names = {n for group in names for n in group.split()}
    for line in block:
        side, eq, _ = line.partition(" = ")
        if eq and not side.strip().startswith(("let", "pub")):
            names.update(re.sub(r"\([^)]*\)", " ", side).split()[1:])
        for group in re.findall(r"[({]([^():{}]+) : ", line):
            names.update(group.split())
    return names


def cited(text, known, own, skip):
    """The (module, name) pairs that a text cites."""
    found = set()
    for token in TOKEN.findall(text):
        head, _, rest = token.partition(".")
        if head in skip:
            continue
        if head in own:
            found.add((own[head], head))
        elif head in known:
            where, name = known[head]
            if name is not None:
                found.add((where, name))
            elif rest:
                found.add((where, rest.split(".")[0]))
    return found


def resolve(pair):
    """The module and the name of a definition; constructors of a data come by their data's module."""
    where, name = pair
    found = module(where)
    if found is None:
        outer = where.rsplit(".", 1)[0]
        found, name = module(outer), (name if module(outer) and name in module(outer).defined else None)
    return (found, name) if found and name in found.defined else (None, None)


def closure(pairs):
    """All definitions that are cited from these on: (file, first line of the block) -> the block."""
    todo, done = list(pairs), {}
    while todo:
        found, name = resolve(todo.pop())
        if found is None or (found.path, found.defined[name][0]) in done:
            continue
        block = found.defined[name]
        done[(found.path, block[0])] = block
        own = {n: f"Rattle.{found.path.parts[-3]}.specs.{found.path.stem}" for n in found.defined}
        todo.extend(cited("\n".join(re.sub(r"--.*", "", line) for line in block), found.imports, own, bound(block)))
    return done


def clauses(crate, function, labels):
    """What these clauses of a public function cite."""
    found = set()
    for path in sorted((ROOT / "crates" / crate / "src").rglob("*.rt")):
        text = path.read_text()
        m = re.search(rf"pub fn {function}\b(.*?)\n(\s*)\{{\n", text, re.S)
        if not m:
            continue
        head = m.group(1)
        for label in labels:
            for clause in re.findall(rf"ensures {label} (\{{.*?\}})\n(?=\s*(?:ensures|requires|\Z))", head + "\n", re.S):
                found |= cited(clause, imports(text), {}, bound([clause]))
    return found


def size_of(block):
    """The lines of a definition: its head, and each equation, field or case, without the lines that go on from them."""
    head = START.match(block[0]).group(1)
    begins = re.compile(rf"^{head}(\S|  (pub |\w+ :))")
    return sum(1 for line in block if not line.strip().startswith("--") and begins.match(line) and line.strip() != "}")


def count(roots, verbose):
    pairs = set()
    for crate, function, labels in roots:
        pairs |= clauses(crate, function, labels)
    done = closure(pairs)
    total = 0
    for (path, _), block in sorted(done.items(), key=lambda item: str(item[0])):
        size = size_of(block)
        total += size
        if verbose:
            print(f"{size:4} {path.relative_to(ROOT)}: {START.match(block[0]).group(2)}")
    return total, len(done)


def main():
    arguments = [a for a in sys.argv[1:] if a != "-v"]
    verbose = "-v" in sys.argv[1:]
    if arguments:
        lines, number = count([(arguments[0], arguments[1], arguments[2:])], verbose)
        print(f"{lines} lines, {number} definitions")
        return
    for name, roots in (("the law", LAW), ("a job's bytes", BYTES)):
        lines, number = count(roots, verbose)
        print(f"{name}: {lines} lines, {number} definitions")


main()
