#!/usr/bin/env python3
"""respell: brings this repository's own definitions, lemmas and local names to today's spelling, once, after port.py.

    python3 tools/respell.py        at the top of the repository: rewrites crates/*/{specs,proofs}/**.antt and the clauses of crates/*/src/**.rt
    python3 tools/respell.py --list prints what it would write, old and new

Words are in snake case. A dash stays where it joins two names: a lemma that says what a function gives of `++`, `take`, `drop` or of a stretch
(widths-append, widths-take). Names that Rattle makes (loop-x-preserved, returns-in_ok-x) and names of the library are not touched:
only names that are declared here are, and local names, in the file that binds them.
"""
import pathlib
import re
import sys

ROOT = pathlib.Path(__file__).resolve().parent.parent / "crates"
ANSWERS = {"Answers.antt", "Invariants.antt", "Proof.antt"}
JOINED = {"append", "take", "drop", "between"}
NAME = r"[^\s(){};,.:λ→×⊎\"|\[\]↦⌜⌝]+"
TOKEN = re.compile(NAME)
SIGNATURE = re.compile(r"^ *(?:abbrev |unfoldable )?(?:pub )?(?:(?:record|data|ruleset) )?(" + NAME + r")(?: \(.*\))?(?: \{.*\})? :(?= |$)")
# names that are made of two names
APART = {"not-right-append": "not_right-append"}


def code(line):
    return line.split("--", 1)[0] if not line.lstrip().startswith("--") else ""


def lines(path):
    return path.read_text().split("\n")


def respelled(name, lemma):
    if name in APART:
        return APART[name]
    front, _, last = name.rpartition("-")
    if lemma and last in JOINED and "-" not in front and front not in ("some", "three"):
        return name
    return name.replace("-", "_")


def declared():
    """The names that specs/ and proofs/ declare at their own lines, old to new."""
    names = {}
    for path in sorted(ROOT.rglob("*.antt")):
        if path.name in ANSWERS:
            continue
        for line in lines(path):
            found = SIGNATURE.match(code(line))
            if found and "-" in found.group(1):
                lemma = "abbrev" not in line and "unfoldable" not in line and "record" not in line
                names[found.group(1)] = respelled(found.group(1), lemma)
    return names


def local(text):
    """The names that a file binds for itself: by let, by λ, as an argument, or by an import under another name."""
    names = {}
    for line in text.split("\n"):
        for found in re.finditer(r" as (" + NAME + r")[,}]", line):
            names[found.group(1)] = None
        line = code(line)
        for found in re.finditer(r"\blet (" + NAME + r")", line):
            names[found.group(1)] = None
        for found in re.finditer(r"^ *" + NAME + r" ((?:" + NAME + r" )+)=(?= |$)", line):
            names.update(dict.fromkeys(found.group(1).split()))
        for found in re.finditer(r"λ ((?:" + NAME + r" )*" + NAME + r")\.", line):
            names.update(dict.fromkeys(found.group(1).split()))
        for found in re.finditer(r"[({]((?:" + NAME + r" )*" + NAME + r") : ", line):
            names.update(dict.fromkeys(found.group(1).split()))
    return {n: n.replace("-", "_") for n in names if re.fullmatch(r"[A-Za-z0-9_']+(?:-[A-Za-z0-9_']+)+", n)}


def turned(text, names):
    return TOKEN.sub(lambda m: names.get(m.group(0), m.group(0)), text)


def together(names):
    """Names that fall together: two old names with one new name, or a new name that stands already."""
    standing = set()
    for path in ROOT.rglob("*.antt"):
        for line in lines(path):
            found = SIGNATURE.match(code(line))
            if found:
                standing.add(found.group(1))
    news = {}
    for old, new in names.items():
        if old != new and (new in news or new in standing):
            print(f"falls together: {old} and {news.get(new, new)} as {new}", file=sys.stderr)
        news[new] = old


def main():
    names = declared()
    together(names)
    if "--list" in sys.argv:
        for old, new in sorted(names.items()):
            print(old, new)
        return
    for path in sorted(ROOT.rglob("*.antt")):
        text = path.read_text()
        path.write_text(turned(text, {**local(text), **names}))
    for path in sorted(ROOT.rglob("*.rt")):
        text = path.read_text()
        aliases = {n: n.replace("-", "_") for n in re.findall(r" as ([a-z]+(?:-[a-z]+)+)[,}]", text)}
        path.write_text(turned(text, {**aliases, **names}))


if __name__ == "__main__":
    main()
