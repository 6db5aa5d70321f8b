#!/usr/bin/env python3
"""Brings this repository's own names in specs/ and proofs/ to the spelling of Rattle's library, once, after port.py.

usage: python3 tools/port_names.py [FOLDER]      FOLDER: the top of a checkout, if not the current folder

A definition or a lemma is in snake case: `readingsApart` becomes `readings_apart`, `sum-zero` becomes `sum_zero`; types and
modules keep their capitals. A lemma that would then have the name of a definition gets `_lem`. Functions of src/ keep their
names, and so do the names of goals and steps in the proof of a function, which Rattle makes. It prints the names that fall
together in a file; the pages of docs/ that speak of today's text are turned too, the notes on past changes are not.
"""

import collections
import os
import re
import sys

NAME = r"[^\s(){}\[\].;:,@\"«»`|]+"
DECLARED = re.compile(
    r"^ *(?:(?:abbrev|opaque|unfoldable|private|pub|record|data) )*([^\s:(){},.=\\λ→]+)(?: \{[^}]*\}| \([^)]*\))* *:(?!:)"
)
# The lemmas that port.py gave the name which a definition beside them has now, with the files that speak of the lemma.
MET_ALREADY = {
    "after_on": ["listing/specs/OnRows.antt"],
    "stored_on": ["listing/specs/OnRows.antt"],
    "run_on": ["listing/specs/OnRows.antt", "listing/specs/Edges.antt"],
    "all_in": ["soundness/specs/Decided.antt"],
    "put_count": [
        "writing/specs/Laws.antt",
        "removal/specs/Loop/Closed.antt",
        "newcomer/proofs/seat/Proof.antt",
        "newcomer/proofs/adopt/Proof.antt",
    ],
}
PAGES = ["README.md", "docs/ARCHITECTURE.md", "docs/CONTRIBUTING.md", "docs/DECISIONS.md", "docs/PROMISES.md"]


def snake(name):
    parts = []
    for part in name.split("-"):
        kept = re.match(r"[A-Z]", part)
        parts.append(part if kept else re.sub(r"(?<=[a-z0-9])([A-Z])", lambda m: "_" + m.group(1).lower(), part))
    return "_".join(parts)


def files(root, endings):
    for folder, folders, names in os.walk(os.path.join(root, "crates")):
        folders[:] = sorted(f for f in folders if f != "out")
        for name in sorted(names):
            if name.endswith(endings):
                yield os.path.join(folder, name)


def read(path):
    with open(path, encoding="utf-8") as f:
        return f.read()


def of_a_function(path):
    """Is it a part of one function's proof, where Rattle makes most names?"""
    return "/proofs/" in path and re.search(r"/Proof(\.antt$|/)", path) is not None


def declared(root):
    """The names that are declared, and those of them that are nothing but fields of records, which meet no definition."""
    names, others = set(), set()
    for path in files(root, (".antt",)):
        if of_a_function(path):
            continue
        inside = None
        for line in read(path).splitlines():
            depth = len(line) - len(line.lstrip())
            if line.strip() and inside is not None and depth <= inside:
                inside = None
            m = DECLARED.match(line)
            if m:
                names.add(m.group(1))
                if inside is None:
                    others.add(m.group(1))
            if re.match(r" *(pub )?record ", line):
                inside = depth
    return names, names - others


def words_of(root):
    """The names in each file of specs/ and proofs/."""
    return [set(re.findall(NAME, read(path))) for path in files(root, (".antt",))]


def new_names(names, fields, together):
    """Each name that changes, with what it becomes."""
    alike = collections.defaultdict(set)
    for name in names:
        alike[snake(name)].add(name)
    turned = {}
    for new, old in alike.items():
        definitions = {n for n in old if re.search(r"[a-z0-9][A-Z]", n)}
        for name in old:
            met = name not in definitions | fields and any(name in words and definitions & words for words in together)
            turned[name] = new + "_lem" if met else new
    return {old: new for old, new in turned.items() if old != new and old not in MET_ALREADY}


def functions(root):
    names = set()
    for path in files(root, (".rt",)):
        names |= set(re.findall(r"\bfn (\w+)", read(path)))
    return names


def turn(text, turned):
    return re.sub(NAME, lambda m: turned.get(m.group(0), m.group(0)), text)


def by_line(text, turned, code):
    """Code by `code`; of a comment, where words of prose have dashes too, what stands in backticks or has a capital inside."""
    plain = {old: new for old, new in turned.items() if "-" not in old}
    lines = []
    for line in text.split("\n"):
        m = re.search(r"(^|(?<=\s))(--|//)(\s|$)", line)
        at = m.start() if m else len(line)
        said = re.sub(r"`[^`]+`", lambda q: turn(q.group(0), turned), turn(line[at:], plain))
        lines.append(code(line[:at]) + said)
    return "\n".join(lines)


def turn_steps(text, turned, calls):
    """A function's proof: behind a dot a call's step has the call's name, and not that of a lemma."""

    def word(m):
        new = turned.get(m.group(2), m.group(2))
        step = m.group(1) and new.endswith("_lem") and new[: -len("_lem")] in calls
        return m.group(1) + (new[: -len("_lem")] if step else new)

    return re.sub(rf"(\.?)({NAME})", word, text)


def turn_page(text, turned, stands):
    """A name on a page: as here, or as port.py turned it."""

    def word(m):
        old = m.group(0)
        new = turned.get(old, old)
        return snake(old) if new == old and old not in stands and snake(old) in stands else new

    return re.sub(NAME, word, text)


def met_in(path):
    return {n: n + "_lem" for n, places in MET_ALREADY.items() if any(path.endswith("crates/" + p) for p in places)}


def main(argv):
    root = argv[0] if argv else "."
    turned = new_names(*declared(root), words_of(root))
    calls = functions(root)
    for path in files(root, (".antt", ".rt", ".edit")):
        text = read(path)
        words = {**turned, **met_in(path)}
        steps = of_a_function(path)
        new = by_line(text, words, lambda l: turn_steps(l, words, calls) if steps else turn(l, words))
        meet = collections.defaultdict(set)
        for word in set(re.findall(NAME, text)):
            meet[words.get(word, word)].add(word)
        met = sorted(" ".join(sorted(w)) for w in meet.values() if len(w) > 1)
        if met:
            print(f"look: {os.path.relpath(path, root)}: fall together: {'; '.join(met)}")
        if new != text:
            with open(path, "w", encoding="utf-8") as f:
                f.write(new)
    stands = declared(root)[0]
    for page in PAGES:
        path = os.path.join(root, page)
        if os.path.exists(path):
            text = read(path)
            new = re.sub(r"`[^`\n]+`", lambda m: turn_page(m.group(0), turned, stands), text)
            if new != text:
                with open(path, "w", encoding="utf-8") as f:
                    f.write(new)
    print(f"{len(turned)} names turned")


if __name__ == "__main__":
    main(sys.argv[1:])
